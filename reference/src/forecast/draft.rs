//! Heads with any header: what its numbers are, and a script.

use crate::script::command::{script_of, Command};

#[derive(Clone, Debug)]
pub struct Draft {
    pub field: u8,
    pub parties: u8,
    pub threshold: u8,
    /// Input rows, masks and triples.
    pub counts: [u16; 3],
    pub script: Vec<u8>,
}

impl Draft {
    /// Three parties in this field, and no row.
    pub fn new(field: u8, script: &[u8]) -> Draft {
        Draft {
            field,
            parties: 3,
            threshold: 1,
            counts: [0; 3],
            script: script.to_vec(),
        }
    }

    /// The same with the commands and END for a script.
    pub fn of(field: u8, commands: &[Command]) -> Draft {
        Draft::new(field, &script_of(commands))
    }

    pub fn with_parties(self, parties: u8, threshold: u8) -> Draft {
        Draft {
            parties,
            threshold,
            ..self
        }
    }

    /// So many input rows, masks and triples.
    pub fn with_counts(self, counts: [u16; 3]) -> Draft {
        Draft { counts, ..self }
    }

    pub fn to_bytes(&self) -> Vec<u8> {
        let mut bytes = vec![self.field, self.parties, self.threshold];
        let length = self.script.len() as u16;
        let counts = self.counts.iter().chain([&length]);
        bytes.extend(counts.flat_map(|count| count.to_le_bytes()));
        bytes.extend(&self.script);
        bytes
    }
}
