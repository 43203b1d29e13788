//! Inputs with any header: what its numbers are, and as many bytes after it as they imply.

use crate::cases::generator::Generator;
use crate::field::FIELDS;

#[derive(Clone, Copy, Debug)]
pub struct Draft {
    pub field: u8,
    pub parties: u8,
    pub threshold: u8,
    pub inputs: u16,
    pub masks: u16,
    pub triples: u16,
    /// The number of the script's bytes.
    pub script: u16,
}

impl Draft {
    /// A header alone, without rows and script.
    pub fn new(field: u8, parties: u8, threshold: u8) -> Draft {
        Draft {
            field,
            parties,
            threshold,
            inputs: 0,
            masks: 0,
            triples: 0,
            script: 0,
        }
    }

    /// Three parties in field 0.
    pub fn plain() -> Draft {
        Draft::new(0, 3, 1)
    }

    pub fn with_rows(self, inputs: u16, masks: u16, triples: u16) -> Draft {
        Draft {
            inputs,
            masks,
            triples,
            ..self
        }
    }

    pub fn with_script(self, script: u16) -> Draft {
        Draft { script, ..self }
    }

    pub fn header(&self) -> Vec<u8> {
        let mut header = vec![self.field, self.parties, self.threshold];
        for count in [self.inputs, self.masks, self.triples, self.script] {
            header.extend(count.to_le_bytes());
        }
        header
    }

    /// The bytes of all shares. Of a field over 3 a mask is taken to have the rows of one in field 0.
    fn shares(&self) -> usize {
        let field = FIELDS.get(usize::from(self.field)).unwrap_or(&FIELDS[0]);
        let [inputs, masks, triples] = [self.inputs, self.masks, self.triples].map(usize::from);
        (inputs + masks * field.bits() as usize + 3 * triples) * 4 * usize::from(self.parties)
    }

    /// Header and script. The script's bytes count from 201 to 250, over and over, so it has no command.
    fn head(&self) -> Vec<u8> {
        let mut bytes = self.header();
        bytes.extend((201..=250).cycle().take(usize::from(self.script)));
        bytes
    }

    /// With a script that counts, and shares whose bytes count from 1 to 199, over and over: up to 199
    /// shares are all different.
    pub fn counting(&self) -> Vec<u8> {
        let mut bytes = self.head();
        bytes.extend((1..=199).cycle().take(self.shares()));
        bytes
    }

    /// With drawn bytes in script and shares, each another than the one before.
    pub fn drawn(&self, generator: &mut Generator) -> Vec<u8> {
        let mut bytes = self.header();
        let mut last = 0;
        for _ in 0..usize::from(self.script) + self.shares() {
            last ^= 1 + generator.below(255) as u8;
            bytes.push(last);
        }
        bytes
    }

    /// With drawn shares below a bound, and a script that counts.
    pub fn drawn_below(&self, generator: &mut Generator, bound: u32) -> Vec<u8> {
        self.with_shares(generator.list(self.shares() / 4, bound))
    }

    /// With these shares, and a script that counts.
    pub fn with_shares(&self, shares: impl IntoIterator<Item = u32>) -> Vec<u8> {
        let mut bytes = self.head();
        bytes.extend(shares.into_iter().flat_map(u32::to_le_bytes));
        bytes
    }
}
