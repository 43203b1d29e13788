//! Sheets to run: drawn from a seed and an index, stored, for the gate, and for measuring time.

pub mod bench;
pub(crate) mod draft;
mod drawer;
pub mod examples;
mod fault;
pub mod gate;
mod good;
pub mod held;
pub mod split;
pub mod stored;
pub(crate) mod wrong;

use crate::cases::generator::Generator;
use crate::field::Field;
use crate::present::{bit, everyone, permitted};
use crate::run_case::{Case, LONGEST_RECORD, LONGEST_REVEALED};
use good::Good;

/// A good sheet, a near miss or a damaged sheet, with buffers of any length and any set of parties.
pub fn sheet_for(seed: u64, index: u64) -> Case {
    let mut generator = Generator::at(seed, index);
    let good = Good::draw(&mut generator);
    let (record, revealed) = (
        record_length(&mut generator, &good),
        revealed_length(&mut generator, &good),
    );
    let parties = (good.draft.parties, good.draft.threshold);
    let sheet = match generator.below(8) {
        0..=4 => good.draft.to_bytes(),
        5..=6 => near_miss(&mut generator, good),
        _ => damaged(&mut generator, good.draft.to_bytes()),
    };
    Case {
        sheet,
        present: drawn_present(&mut generator, parties),
        record,
        revealed,
    }
}

/// Mostly a permitted set or everyone; else t parties, a bit beyond n, or any byte.
fn drawn_present(generator: &mut Generator, (n, t): (u8, u8)) -> u8 {
    let set = generator.pick(&permitted(n.into(), t.into()));
    match generator.below(32) {
        0..=15 => set,
        16..=28 => everyone(n),
        29 => generator.pick(&sets_of(n, t)),
        30 => set | bit(usize::from(n) + 1 + generator.below(8 - u32::from(n)) as usize),
        _ => generator.any() as u8,
    }
}

/// Every set of so many of n parties.
fn sets_of(parties: u8, size: u8) -> Vec<u8> {
    let sets = 0..=everyone(parties);
    sets.filter(|set| set.count_ones() == size.into()).collect()
}

/// The highest number of the field; the lowest is minus this.
fn highest_of(field: &Field) -> i64 {
    i64::from(field.modulus - 1) / 2
}

/// The lowest and the highest number of the field that BLOCKS charges exactly: with 2^m - 1 added, and
/// not reduced by p, it is in the k-bit range.
fn exactly_charged(field: &Field, k: u8, m: u8) -> (i64, i64) {
    let (half, block) = (1 << (k - 1), 1 << m);
    let lowest = -half - (block - 1);
    (lowest.max(-highest_of(field)), half - block)
}

/// Mostly room for the whole script, else for the commands up to one of them, or one less.
fn record_length(generator: &mut Generator, good: &Good) -> usize {
    let n = usize::from(good.draft.parties);
    let whole = n * good.openings_before(good.commands.len());
    let until = generator.below(good.commands.len() as u32 + 1) as usize;
    let part = n * good.openings_before(until);
    let length = match generator.below(16) {
        0..=6 => whole,
        7..=10 => whole + generator.below(20) as usize,
        11 => whole.saturating_sub(1),
        12 => part,
        13 => part.saturating_sub(1),
        14 => part + generator.below(7) as usize,
        _ => generator.below(whole as u32 + 1) as usize,
    };
    length.min(LONGEST_RECORD)
}

fn revealed_length(generator: &mut Generator, good: &Good) -> usize {
    let whole = good.reveals();
    let length = match generator.below(16) {
        0..=7 => whole,
        8..=11 => whole + generator.below(10) as usize,
        12..=13 => whole.saturating_sub(1),
        14 => 0,
        _ => generator.below(whole as u32 + 1) as usize,
    };
    length.min(LONGEST_REVEALED)
}

/// A good sheet with one to three faults.
fn near_miss(generator: &mut Generator, good: Good) -> Vec<u8> {
    let count = 1 + generator.below(3);
    let faults: Vec<_> = (0..count)
        .map(|_| fault::draw(generator, &good.draft))
        .collect();
    fault::with_faults(generator, good.draft, faults)
}

/// Some bytes changed, or the sheet cut or made longer.
fn damaged(generator: &mut Generator, mut sheet: Vec<u8>) -> Vec<u8> {
    let length = sheet.len() as u32;
    match generator.below(6) {
        0 => sheet.truncate(generator.below(length) as usize),
        1 => {
            let more = 1 + generator.below(12);
            sheet.extend((0..more).map(|_| generator.any() as u8));
        }
        _ => {
            let bound = generator.pick(&[11, 64, length]).min(length);
            for _ in 0..=generator.below(3) {
                let place = generator.below(bound) as usize;
                let any = generator.any() as u8;
                sheet[place] ^= generator.pick(&[1, 2, 4, 0x80, any]);
            }
        }
    }
    sheet
}

#[cfg(test)]
mod tests {
    use super::*;
    use crate::cases::PERMITTED;
    use crate::field::FIELDS;

    /// Blocks of 64 seconds in field 2.
    #[test]
    fn calls_of_up_to_16320_seconds_are_charged_exactly() {
        assert_eq!(exactly_charged(&FIELDS[2], 15, 6), (-16_447, 16_320));
    }

    /// -32,767 with 16,383 added is the lowest number of 15 bits, but field 2 has none below -32,760.
    #[test]
    fn no_number_below_the_lowest_of_the_field_is_charged() {
        assert_eq!(exactly_charged(&FIELDS[2], 15, 14), (-32_760, 0));
    }

    #[test]
    fn the_same_index_gives_the_same_sheet() {
        for index in 0..50 {
            assert_eq!(sheet_for(1, index), sheet_for(1, index));
            assert_ne!(sheet_for(1, index).sheet, sheet_for(2, index).sheet);
        }
    }

    #[test]
    fn every_number_is_drawn() {
        let mut seen = [0; 27];
        for index in 0..20_000 {
            let outcome = sheet_for(5, index).outcome();
            seen[outcome.answer.number as usize] += 1;
        }
        for number in (0..=12).chain(21..=26) {
            assert!(seen[number] >= 10, "{number}: {seen:?}");
        }
        assert!(seen[0] >= 4_000, "{seen:?}");
    }

    /// Good or bad: every byte, for each number of parties and each threshold.
    #[test]
    fn every_byte_of_present_parties_is_drawn() {
        let mut generator = Generator::new(5);
        for (n, t) in PERMITTED {
            let mut seen = [0; 256];
            for _ in 0..100_000 {
                let present = drawn_present(&mut generator, (n as u8, t as u8));
                seen[usize::from(present)] += 1;
            }
            assert!(seen.iter().all(|&count| count > 0), "{n} {t}: {seen:?}");
            let good = permitted(n as usize, t as usize);
            let good = good.into_iter().map(|set| seen[usize::from(set)]);
            assert!(good.sum::<u32>() > 80_000, "{n} {t}: {seen:?}");
        }
    }

    #[test]
    fn sets_have_their_size() {
        assert_eq!(sets_of(3, 1), [1, 2, 4]);
        assert_eq!(sets_of(4, 2), [3, 5, 6, 9, 10, 12]);
        assert_eq!(sets_of(7, 3).len(), 35);
    }
}
