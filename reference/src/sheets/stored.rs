//! The stored cases, ordered by subject.

mod blocks;
mod commands;
mod drawn;
mod ends;
mod figures;
mod operands;
mod present;
mod scripts;
mod signs;
mod spoiled;
mod stops;

use super::bench;
use super::draft::Draft;
use super::held;
use crate::cases::generator::Generator;
use crate::dealer::Dealer;
use crate::run_case::{Case, LONGEST_RECORD, LONGEST_REVEALED};
use crate::script::command::Command;

const SEED: u64 = 0x5EED_0004;

pub fn all() -> Vec<Case> {
    let mut generator = Generator::new(SEED);
    let mut cases = figures::all(&mut generator);
    cases.extend(commands::all(&mut generator));
    cases.extend(operands::all(&mut generator));
    cases.extend(ends::all(&mut generator));
    cases.extend(spoiled::all(&mut generator));
    cases.extend(scripts::all(&mut generator));
    cases.extend(stops::all(&mut generator));
    cases.extend(blocks::all(&mut generator));
    cases.extend(held::cases());
    cases.extend(drawn::all());
    cases.extend(present::all(&mut generator));
    cases.extend(signs::all(&mut generator));
    cases.push(largest());
    cases
}

/// Every cell of the table is set, and both buffers are as long as a case may lend them.
fn largest() -> Case {
    Case {
        record: LONGEST_RECORD,
        revealed: LONGEST_REVEALED,
        ..Case::with_room(bench::largest())
    }
}

/// Three parties in this field; inputs of these secrets, masks of these numbers, and as many
/// triples as the commands take.
fn case(
    generator: &mut Generator,
    number: u32,
    commands: &[Command],
    secrets: &[u32],
    masks: &[u32],
) -> Case {
    let mut dealer = Dealer::new(generator, number, (3, 1));
    Case::with_room(Draft::deal(&mut dealer, commands, secrets, masks).to_bytes())
}

/// Constants that are the bits of a number, bit 0 in register b.
fn bits_at(b: u8, w: u8, number: u32) -> Vec<Command> {
    (0..w)
        .map(|i| Command::Const {
            d: b + i,
            v: number >> i & 1,
        })
        .collect()
}

#[cfg(test)]
mod tests {
    use super::*;
    use crate::run_case::{lines, read_all};
    use crate::stored_bytes::asked::Stored;

    const STORED: Stored<Case> = Stored {
        all,
        to_bytes: Case::to_bytes,
        read_all,
        lines,
    };

    #[test]
    fn cases_are_always_the_same_and_read_back() {
        STORED.is_always_the_same_and_read_back();
    }

    #[test]
    fn answers_are_within_bounds() {
        STORED.is_within(400..=2_000, 1_000_000);
    }

    #[test]
    fn the_last_case_sets_every_cell_and_has_the_longest_buffers() {
        let cases = all();
        let outcome = cases.last().unwrap().outcome();
        assert_eq!(
            (outcome.record.len(), outcome.revealed.len()),
            (12_000, 600)
        );
        assert_eq!(outcome.answer.set, [true; 64]);
        let cells = outcome.answer.registers.concat();
        assert_eq!(cells.iter().filter(|&&cell| cell != 0).count(), 448);
    }

    #[test]
    fn every_number_is_answered_more_than_once() {
        let mut seen = [0; 27];
        for case in all() {
            seen[case.outcome().answer.number as usize] += 1;
        }
        for number in (0..=12).chain(21..=26) {
            assert!(seen[number] >= 4, "{number}: {seen:?}");
        }
    }
}
