//! Sheets for measuring time.

use super::draft::Draft;
use crate::cases::generator::Generator;
use crate::dealer::Dealer;
use crate::field::FIELDS;
use crate::script::command::Command;
use crate::sheet::header::{LONGEST_SCRIPT, MOST_INPUTS, MOST_MASKS, MOST_TRIPLES};

const SEED: u64 = 0x5EED_0003;

/// The largest field, and the most parties with the largest threshold.
const FIELD: u32 = 3;
const PARTIES: (u32, u32) = (7, 3);

/// The sheet of the paper's printed run: two inputs, their product revealed.
pub fn small() -> Vec<u8> {
    let header = [0, 3, 1, 2, 0, 0, 0, 1, 0, 11, 0];
    let script = [1, 0, 1, 1, 6, 2, 0, 1, 12, 2, 0];
    let shares: [u32; 15] = [7, 9, 11, 7, 11, 2, 2, 3, 4, 5, 8, 11, 7, 12, 4];
    let rows = shares.iter().flat_map(|share| share.to_le_bytes());
    header.into_iter().chain(script).chain(rows).collect()
}

/// Every limit of the sheet reached, and all of its rows used.
pub fn largest() -> Vec<u8> {
    let mut commands: Vec<Command> = (0..64).map(|d| Command::Load { d }).collect();
    commands.extend((0..16).map(masked));
    commands.extend((16..32).map(|d| Command::Mul { d, a: d - 16, b: d }));
    let length: usize = commands
        .iter()
        .map(|command| command.to_bytes().len())
        .sum();
    commands.extend(filling(LONGEST_SCRIPT - 1 - length));
    sheet_of(&commands, MOST_INPUTS, MOST_MASKS)
}

/// Commands that take a mask and only 31 triples, so that 512 triples serve 16 masks.
fn masked(d: u8) -> Command {
    let (a, k, m) = (d + 32, 30, 1);
    match d % 5 {
        0 => Command::Mod { d, a, k, m },
        1 => Command::Trunc { d, a, k, m },
        2 => Command::Ltz { d, a, k: 2 },
        3 => Command::Over { d, a, k: 2, v: 170 },
        _ => Command::Blocks { d, a, k, m },
    }
}

/// Commands that take no deal and fill an odd number of bytes.
fn filling(bytes: usize) -> Vec<Command> {
    let round = |d: u8| {
        [
            Command::Add { d, a: d, b: 63 },
            Command::Sub { d: 63, a: 63, b: d },
            Command::Scale {
                d,
                a: 63,
                v: 1_234_567,
            },
            Command::Reveal { a: d },
        ]
    };
    let rounds = (bytes - 1) / 34 * 2 + 1;
    let mut commands: Vec<Command> = (0..62).cycle().take(rounds).flat_map(round).collect();
    let rest = bytes - 17 * rounds;
    commands.extend(
        (0..62)
            .cycle()
            .take(rest / 2)
            .map(|a| Command::Reveal { a }),
    );
    commands
}

/// As many LTZ of k bits as the largest deal allows, each result revealed.
pub fn signs(k: u8) -> Vec<u8> {
    let ltz = Command::Ltz { d: 0, a: 0, k };
    let triples = ltz.cost(&FIELDS[FIELD as usize]).triples;
    let count = (MOST_TRIPLES / triples).min(MOST_MASKS);
    let mut commands = Vec::new();
    for register in 0..count as u8 {
        commands.extend([
            Command::Load { d: register },
            Command::Ltz {
                d: register,
                a: register,
                k,
            },
            Command::Reveal { a: register },
        ]);
    }
    sheet_of(&commands, count, count)
}

fn sheet_of(commands: &[Command], inputs: usize, masks: usize) -> Vec<u8> {
    let mut generator = Generator::new(SEED);
    let mut dealer = Dealer::new(&mut generator, FIELD, PARTIES);
    let p = dealer.field.modulus;
    let secrets = dealer.generator.list(inputs, p);
    Draft::deal_drawn(&mut dealer, commands, &secrets, masks).to_bytes()
}

#[cfg(test)]
mod tests {
    use super::*;
    use crate::present::everyone;
    use crate::run::run;
    use crate::run_case::Case;

    #[test]
    fn largest_sheet_reaches_every_limit_and_spends_its_deal() {
        let sheet = largest();
        assert_eq!(sheet.len(), 59_723);
        let answer = Case::with_room(sheet).outcome().answer;
        assert_eq!((answer.number, answer.place), (0, 1023));
        assert_eq!((answer.inputs, answer.masks, answer.triples), (64, 16, 512));
        assert!(answer.openings > 1040);
    }

    #[test]
    fn signs_spend_what_the_deal_allows() {
        for (k, count, triples) in [(30, 5, 435), (2, 16, 496)] {
            let sheet = signs(k);
            let answer = run(&sheet, everyone(7), &mut [0; 10_850], &mut [0; 511]);
            let spent = (answer.number, answer.masks, answer.triples);
            assert_eq!(spent, (0, count, triples));
            assert_eq!(answer.openings, 2 * count + 2 * triples);
        }
    }
}
