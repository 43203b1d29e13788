//! The whole set of cases: chosen edges of each entry, the cases of the model's table, then generated cases. Those of the sum come after all
//! others, in the same order.

mod decode_edges;
mod drawn_sums;
mod encode_edges;
mod generated;
pub mod generator;
pub mod held;
mod recover_edges;
mod share_edges;
mod sum_edges;

use crate::case::{Case, RecoverCase, ShareCase, SumCase, LONGEST};
use crate::field::Field;
use crate::weights::Weights;
use generator::Generator;

/// Every permitted pair of a number of parties and a threshold.
pub const PERMITTED: [(u32, u32); 9] = [
    (3, 1),
    (4, 1),
    (5, 1),
    (5, 2),
    (6, 1),
    (6, 2),
    (7, 1),
    (7, 2),
    (7, 3),
];

/// Field numbers that are not in the table.
const UNKNOWN_FIELDS: [u32; 2] = [4, u32::MAX];

/// Coefficients below every modulus, the first power's first.
const SMALL: [u32; 9] = [2, 7, 1, 11, 3, 9, 4, 12, 6];

/// Apart from the sequence of the other entries, so that one does not decide the other.
const SUMS_SEED: u64 = 0x5EED_000E;

pub fn all() -> Vec<Case> {
    let mut cases = share_edges::all();
    cases.extend(recover_edges::all());
    cases.extend(encode_edges::all());
    cases.extend(decode_edges::all());
    cases.extend(held::of_the_paper().into_iter().map(|(_, case)| case));
    cases.extend(generated::all());
    let held = held::sums::all().into_iter().map(|(_, case)| case);
    for case in sum_edges::all()
        .into_iter()
        .chain(held)
        .chain(drawn_sums::all())
    {
        if !cases.contains(&case) {
            cases.push(case);
        }
    }
    cases
}

/// A good call of share, recover, encode or decode, or one with wrong lengths or numbers out of range.
pub fn case_for(seed: u64, index: u64) -> Case {
    generated::draw(&mut Generator::at(seed, index))
}

/// The sum of a sharing, of a damaged one, or of a row with a wrong length or numbers out of range.
pub fn sum_for(seed: u64, index: u64) -> Case {
    drawn_sums::draw(&mut Generator::at(seed ^ SUMS_SEED, index))
}

/// Every permitted pair, the first threshold that is too large for each permitted number of
/// parties, and pairs far outside the ranges. Doubling 2^31 or 2^31 + 1 in 32 bits gives
/// 0 or 2, which a program that loses the carry accepts.
fn edge_parties() -> Vec<(u32, u32)> {
    let too_large = (3..=7).map(|n| (n, (n - 1) / 2 + 1));
    let wrong_threshold = [3, 7]
        .into_iter()
        .flat_map(|n| [0, 1 << 31, (1 << 31) + 1, u32::MAX].map(|t| (n, t)));
    let wrong_parties = [2, 8, u32::MAX]
        .into_iter()
        .flat_map(|n| [0, 1, 3, 1 << 31, u32::MAX].map(|t| (n, t)));
    PERMITTED
        .into_iter()
        .chain(too_large)
        .chain(wrong_threshold)
        .chain(wrong_parties)
        .collect()
}

fn share_case(
    field: u32,
    (parties, threshold): (u32, u32),
    secret: u32,
    coefficients: &[u32],
    lent_length: u32,
) -> Case {
    Case::Share(ShareCase {
        field,
        parties,
        threshold,
        secret,
        coefficients: coefficients.to_vec(),
        lent: lent_list(lent_length),
    })
}

fn recover_case(
    field: u32,
    (parties, threshold): (u32, u32),
    row: &[u32],
    lent_length: u32,
) -> Case {
    Case::Recover(RecoverCase {
        field,
        parties,
        threshold,
        row: row.to_vec(),
        lent: lent_list(lent_length),
    })
}

fn sum_case(field: u32, (parties, threshold): (u32, u32), row: &[u32]) -> Case {
    Case::Sum(SumCase {
        field,
        parties,
        threshold,
        row: row.to_vec(),
    })
}

/// Distinct numbers above every modulus: no entry can write one of them,
/// so every write is seen.
fn lent_list(length: u32) -> Vec<u32> {
    (4_000_000_001..).take(length as usize).collect()
}

/// The length, or the longest that a case can hold.
fn held(length: u32) -> u32 {
    length.min(LONGEST as u32)
}

/// The values of a polynomial at 1 to `length`, the constant term being `secret`.
pub fn row_of(field: &Field, secret: u32, coefficients: &[u32], length: u32) -> Vec<u32> {
    let mut polynomial = vec![u64::from(secret)];
    polynomial.extend(coefficients.iter().map(|&c| u64::from(c)));
    (1..=u64::from(length))
        .map(|party| field.evaluate(&polynomial, party) as u32)
        .collect()
}

/// The sharing whose first t + 1 shares are these.
fn row_from(field: &'static Field, (n, t): (u32, u32), first: &[u32]) -> Vec<u32> {
    let first: Vec<u64> = first.iter().map(|&share| share.into()).collect();
    let row = Weights::new(field, n as usize, t as usize).sharing_from(&first);
    row.into_iter().map(|share| share as u32).collect()
}

#[cfg(test)]
mod tests {
    use super::*;
    use crate::case::{read_all, BYTES};
    use crate::line;

    /// Every number that an entry can answer.
    const ENTRIES: [(&str, &[u32]); 5] = [
        ("share", &[0, 2, 3, 4, 5]),
        ("recover", &[0, 2, 3, 4, 5, 6]),
        ("encode", &[0, 2, 11]),
        ("decode", &[0, 2, 5]),
        ("sum", &[0, 2, 3, 4, 5, 6]),
    ];

    /// How many lines are the entry's and tell this number.
    fn count(lines: &[String], entry: &str, number: u32) -> usize {
        let wanted = format!(" : number {number} ");
        let is_wanted = |line: &&String| line.starts_with(entry) && line.contains(&wanted);
        lines.iter().filter(is_wanted).count()
    }

    fn lines() -> Vec<String> {
        all().iter().map(line::answer).collect()
    }

    #[test]
    fn number_of_cases_is_within_bounds() {
        let read_by_the_program = 131_072 / BYTES;
        let count = all().len();
        assert!((400..=read_by_the_program).contains(&count), "{count}");
    }

    #[test]
    fn cases_are_always_the_same() {
        assert_eq!(all(), all());
    }

    #[test]
    fn cases_are_read_back_from_their_bytes() {
        let bytes: Vec<u8> = all().iter().flat_map(Case::to_bytes).collect();
        assert_eq!(read_all(&bytes), Ok(all()));
    }

    #[test]
    fn every_entry_gives_each_of_its_numbers() {
        let lines = lines();
        for (entry, numbers) in ENTRIES {
            for number in numbers {
                assert!(count(&lines, entry, *number) >= 2, "{entry} {number}");
            }
        }
    }

    #[test]
    fn every_number_of_every_entry_is_drawn() {
        let drawn = (0..5_000).flat_map(|index| [case_for(5, index), sum_for(5, index)]);
        let lines: Vec<_> = drawn.map(|case| line::answer(&case)).collect();
        for (entry, numbers) in ENTRIES {
            for number in numbers {
                let found = count(&lines, entry, *number);
                assert!(found >= 20, "{entry} {number}: {found}");
            }
        }
    }

    #[test]
    fn lines_are_single_spaced() {
        for line in lines() {
            assert!(!line.contains("  ") && !line.contains(" \n"), "{line}");
            assert_eq!(line.find('\n'), Some(line.len() - 1));
        }
    }
}
