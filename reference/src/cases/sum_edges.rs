//! Chosen cases of the sum before it is reduced.

use super::{edge_parties, held, row_from, row_of, sum_case, PERMITTED, SMALL, UNKNOWN_FIELDS};
use crate::case::Case;
use crate::field::{Field, FIELDS};

/// Each threshold, with the fewest parties that it is permitted for.
const FEWEST: [(u32, u32); 3] = [(3, 1), (5, 2), (7, 3)];

pub fn all() -> Vec<Case> {
    let mut cases = unknown_fields();
    cases.extend(wrong_parties());
    cases.extend(wrong_lengths());
    for (number, field) in (0..).zip(&FIELDS) {
        cases.extend(equal_shares(number, field.modulus));
        cases.extend(lone_shares(number, field));
        cases.extend(not_below(number, field.modulus));
        cases.extend(no_sharings(number, field));
    }
    cases
}

/// An unknown field alone and with every later ground of refusal.
fn unknown_fields() -> Vec<Case> {
    let with = |field| {
        [
            sum_case(field, (3, 1), &[7, 9, 11]),
            sum_case(field, (2, 1), &[7, 9]),
            sum_case(field, (3, 2), &[7, 9, 11]),
            sum_case(field, (3, 1), &[7, 9]),
            sum_case(field, (3, 1), &[7, 9, u32::MAX]),
            sum_case(field, (3, 1), &[7, 9, 12]),
            sum_case(field, (8, 0), &[7, u32::MAX]),
        ]
    };
    UNKNOWN_FIELDS.into_iter().flat_map(with).collect()
}

/// The row is a line, which is a sharing for every permitted threshold.
fn wrong_parties() -> Vec<Case> {
    let wrong = edge_parties()
        .into_iter()
        .filter(|parties| !PERMITTED.contains(parties));
    let mut cases: Vec<Case> = wrong
        .map(|(n, t)| sum_case(1, (n, t), &row_of(&FIELDS[1], 5, &[2], held(n))))
        .collect();
    // Together with later grounds of refusal.
    cases.extend([
        sum_case(0, (2, 1), &[7, 9, 11]),
        sum_case(0, (3, 2), &[7, 9, 13]),
        sum_case(0, (4, 2), &[7, 9, 11, 1]),
        sum_case(0, (0, 0), &[]),
        sum_case(0, (u32::MAX, u32::MAX), &[13, 1]),
    ]);
    cases
}

fn wrong_lengths() -> Vec<Case> {
    let with = |(n, t): (u32, u32)| {
        let row = row_of(&FIELDS[0], 5, &SMALL[..t as usize], 9);
        let n_shares = n as usize;
        [
            sum_case(0, (n, t), &[]),
            // As many as are summed.
            sum_case(0, (n, t), &row[..t as usize + 1]),
            sum_case(0, (n, t), &row[..n_shares - 1]),
            sum_case(0, (n, t), &row[..n_shares + 1]),
            sum_case(0, (n, t), &row),
            // Together with later grounds of refusal.
            sum_case(0, (n, t), &vec![13; n_shares + 1]),
            sum_case(0, (n, t), &vec![u32::MAX; n_shares - 1]),
            sum_case(0, (n, t), &SMALL[..n_shares - 1]),
        ]
    };
    [(4, 1), (7, 3)].into_iter().flat_map(with).collect()
}

/// All shares p - 1 give the largest sum of a field and threshold, and all shares 0 the least.
fn equal_shares(field: u32, p: u32) -> Vec<Case> {
    let largest = |(n, t)| sum_case(field, (n, t), &vec![p - 1; n as usize]);
    let mut cases = PERMITTED.map(largest).to_vec();
    cases.push(sum_case(field, (7, 3), &[0; 7]));
    cases
}

/// Of the first t + 1 shares one is 1 and the others are 0: the sum is its weight.
fn lone_shares(number: u32, field: &'static Field) -> Vec<Case> {
    let mut cases = Vec::new();
    for (n, t) in FEWEST {
        for place in 0..=t as usize {
            let mut first = vec![0; t as usize + 1];
            first[place] = 1;
            let row = row_from(field, (n, t), &first);
            cases.push(sum_case(number, (n, t), &row));
        }
    }
    cases
}

fn not_below(field: u32, p: u32) -> [Case; 5] {
    [
        // Sharings if p were read as 0.
        sum_case(field, (3, 1), &[p, 1, 2]),
        sum_case(field, (3, 1), &[2, 1, p]),
        // In a row that no polynomial fits.
        sum_case(field, (3, 1), &[p, 1, 3]),
        sum_case(field, (7, 3), &[0, 0, 0, 0, 1, 0, p]),
        sum_case(field, (7, 3), &[0, 0, 0, u32::MAX, 0, 0, 0]),
    ]
}

/// A sharing with one of the first t + 1 shares or the last changed to the next field value, and a
/// polynomial of degree t + 1.
fn no_sharings(number: u32, field: &Field) -> Vec<Case> {
    let mut cases = Vec::new();
    for (n, t) in [(3, 1), (6, 2), (7, 3)] {
        let good = row_of(field, 5, &SMALL[..t as usize], n);
        for place in [t as usize, n as usize - 1] {
            let mut row = good.clone();
            row[place] = (row[place] + 1) % field.modulus;
            cases.push(sum_case(number, (n, t), &row));
        }
    }
    let row = row_of(field, 5, &SMALL[..4], 7);
    cases.push(sum_case(number, (7, 3), &row));
    cases
}
