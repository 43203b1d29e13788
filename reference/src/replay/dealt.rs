//! Sheets whose runs are replayed: commands, and a deal drawn for them.

use super::recorded::Recorded;
use crate::cases::generator::Generator;
use crate::dealer::Dealer;
use crate::field::FIELDS;
use crate::present::everyone;
use crate::script::command::Command;
use crate::sheets::draft::Draft;

const SEED: u64 = 0x5EED_0012;

/// A field's number, n and t.
pub type Setting = (u32, (u32, u32));

/// Three parties in field 0.
pub const SMALL: Setting = (0, (3, 1));

/// Commands with the secrets of their input rows and the numbers of their masks. There are as many triples as
/// they take.
#[derive(Clone, Debug)]
pub struct Work {
    pub commands: Vec<Command>,
    pub secrets: Vec<u32>,
    pub masks: Vec<u32>,
}

impl Work {
    pub fn new(commands: &[Command], secrets: &[u32], masks: &[u32]) -> Work {
        Work {
            commands: commands.to_vec(),
            secrets: secrets.to_vec(),
            masks: masks.to_vec(),
        }
    }

    /// The sheet, another one for each index.
    pub fn draft(&self, index: u64, (field, parties): Setting) -> Draft {
        let mut generator = Generator::at(SEED, index);
        let mut dealer = Dealer::new(&mut generator, field, parties);
        Draft::deal(&mut dealer, &self.commands, &self.secrets, &self.masks)
    }

    /// Its run with everyone present.
    pub fn recorded(&self, index: u64, setting: Setting) -> Recorded {
        recorded(&self.draft(index, setting))
    }
}

/// The run of the sheet with everyone present.
pub fn recorded(draft: &Draft) -> Recorded {
    let run = Recorded::of(&draft.to_bytes(), everyone(draft.parties));
    run.expect("the sheet is accepted")
}

/// Two inputs and their product, which is revealed.
pub fn product() -> Work {
    let commands = [
        Command::Load { d: 0 },
        Command::Load { d: 1 },
        Command::Mul { d: 2, a: 0, b: 1 },
        Command::Reveal { a: 2 },
    ];
    Work::new(&commands, &[11, 7], &[])
}

/// The register that the commands below leave their result in.
pub const RESULT: u8 = 9;

/// In field 0 each command that opens something but REVEAL, on inputs, and what it leaves revealed.
pub fn each_opening() -> Vec<Work> {
    let (d, a, b, k, m, v) = (RESULT, 0, 1, 3, 1, 2);
    let masked = |command| Work::new(&[Command::Load { d: 0 }, command], &[10], &[5]);
    let inputs = |count: u8| (0..count).map(|d| Command::Load { d });
    let with = |count: u8, command, secrets: &[u32], masks: &[u32]| {
        let commands: Vec<Command> = inputs(count).chain([command]).collect();
        Work::new(&commands, secrets, masks)
    };
    let signs = Command::Ltzs { d, a, h: 2, k: 2 };
    let all = vec![
        with(2, Command::Mul { d, a, b }, &[11, 7], &[]),
        with(3, Command::Bitlt { d, b: 0, w: 3, v }, &[0, 1, 1], &[]),
        masked(Command::Mod { d, a, k, m }),
        masked(Command::Trunc { d, a, k, m }),
        masked(Command::Ltz { d, a, k }),
        masked(Command::Over { d, a, k: 2, v }),
        masked(Command::Blocks { d, a, k, m }),
        with(2, signs, &[12, 1], &[5, 9]),
    ];
    all.into_iter().map(revealed).collect()
}

/// The same with a REVEAL of each register that the last command writes.
fn revealed(mut work: Work) -> Work {
    let last = work.commands[work.commands.len() - 1];
    let reveals = last.writes().map(|a| Command::Reveal { a });
    work.commands.extend(reveals);
    work
}

impl Work {
    /// The places of the commands in the script, and that of END.
    pub fn places(&self) -> Vec<usize> {
        let mut places = vec![0];
        for command in &self.commands {
            places.push(places[places.len() - 1] + command.to_bytes().len());
        }
        places
    }

    /// The place of the command that each opening belongs to.
    pub fn opening_places(&self, (field, _): Setting) -> Vec<usize> {
        let field = &FIELDS[field as usize];
        let commands = self.commands.iter().zip(self.places());
        let of = |(command, place): (&Command, usize)| vec![place; command.cost(field).openings()];
        commands.flat_map(of).collect()
    }

    /// The place of END.
    pub fn end(&self) -> usize {
        self.places()[self.commands.len()]
    }
}
