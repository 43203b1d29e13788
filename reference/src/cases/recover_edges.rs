//! Chosen cases of recovery.

use super::{edge_parties, held, recover_case, row_of, SMALL, UNKNOWN_FIELDS};
use crate::case::Case;
use crate::field::{Field, FIELDS};

pub fn all() -> Vec<Case> {
    let mut cases = known_rows();
    cases.extend(unknown_fields());
    cases.extend(parties_and_thresholds());
    cases.extend(wrong_lengths());
    for (number, field) in (0..).zip(&FIELDS) {
        cases.extend(edge_values(number, field.modulus));
        cases.extend(degrees(number, field));
        for parties in [(3, 1), (7, 3)] {
            cases.extend(one_wrong_share(number, field, parties));
        }
    }
    cases
}

/// Six lines, and two rows that no line fits.
fn known_rows() -> Vec<Case> {
    [
        [7, 9, 11],
        [7, 11, 2],
        [2, 3, 4],
        [5, 8, 11],
        [7, 12, 4],
        [5, 6, 7],
        [7, 12, 5],
        [11, 9, 8],
    ]
    .map(|row| recover_case(0, (3, 1), &row, 1))
    .to_vec()
}

/// An unknown field alone and with every later ground of refusal.
fn unknown_fields() -> Vec<Case> {
    let with = |field| {
        [
            recover_case(field, (3, 1), &[7, 9, 11], 1),
            recover_case(field, (2, 1), &[7, 9], 1),
            recover_case(field, (3, 2), &[7, 9, 11], 2),
            recover_case(field, (3, 1), &[7, 9], 1),
            recover_case(field, (3, 1), &[7, 9, 11], 2),
            recover_case(field, (3, 1), &[7, 9, u32::MAX], 1),
            recover_case(field, (3, 1), &[7, 9, 12], 1),
            recover_case(field, (8, 0), &[7, u32::MAX], 0),
        ]
    };
    UNKNOWN_FIELDS.into_iter().flat_map(with).collect()
}

/// The row is a line, which is a sharing for every permitted threshold.
fn parties_and_thresholds() -> Vec<Case> {
    let mut cases: Vec<Case> = edge_parties()
        .into_iter()
        .map(|(n, t)| recover_case(1, (n, t), &row_of(&FIELDS[1], 5, &[2], held(n)), held(t)))
        .collect();
    // Wrong parties or threshold together with later grounds of refusal.
    cases.extend([
        recover_case(0, (2, 1), &[7, 9, 11], 1),
        recover_case(0, (3, 0), &[7, 9, 11], 1),
        recover_case(0, (3, 2), &[7, 9, 13], 2),
        recover_case(0, (4, 2), &[7, 9, 11, 1], 2),
        recover_case(0, (0, 0), &[], 0),
        recover_case(0, (u32::MAX, u32::MAX), &[13, 1], 0),
    ]);
    cases
}

fn wrong_lengths() -> Vec<Case> {
    let with = |(n, t): (u32, u32)| {
        let row = row_of(&FIELDS[0], 5, &SMALL[..t as usize], 9);
        let exact = &row[..n as usize];
        [
            recover_case(0, (n, t), &[], t),
            recover_case(0, (n, t), &row[..n as usize - 1], t),
            recover_case(0, (n, t), &row[..n as usize + 1], t),
            recover_case(0, (n, t), &row, t),
            recover_case(0, (n, t), exact, t - 1),
            recover_case(0, (n, t), exact, t + 1),
            recover_case(0, (n, t), exact, t + 2),
            recover_case(0, (n, t), exact, 9),
            recover_case(0, (n, t), &row[..t as usize], n),
            recover_case(0, (n, t), &[], 0),
            recover_case(0, (n, t), &vec![13; n as usize + 1], t),
            recover_case(0, (n, t), &vec![u32::MAX; n as usize], t + 1),
            recover_case(0, (n, t), &SMALL[..n as usize], t - 1),
            recover_case(0, (n, t), &SMALL[..n as usize - 1], t),
        ]
    };
    [(3, 1), (7, 3)].into_iter().flat_map(with).collect()
}

fn edge_values(field: u32, p: u32) -> [Case; 11] {
    let last = p - 1;
    [
        recover_case(field, (3, 1), &[0, 0, 0], 1),
        recover_case(field, (3, 1), &[last, last, last], 1),
        recover_case(field, (3, 1), &[last, 0, 1], 1),
        recover_case(field, (7, 3), &[last; 7], 3),
        // Sharings if p were read as 0.
        recover_case(field, (3, 1), &[p, 1, 2], 1),
        recover_case(field, (3, 1), &[2, 1, p], 1),
        // A share not below p in a row that no polynomial fits.
        recover_case(field, (3, 1), &[p, 1, 3], 1),
        recover_case(field, (3, 1), &[0, 2, p], 1),
        recover_case(field, (7, 3), &[0, 0, 0, 0, 1, 0, p], 3),
        recover_case(field, (7, 3), &[u32::MAX, 0, 0, 0, 0, 0, 0], 3),
        recover_case(field, (7, 3), &[0, 0, 0, 0, 0, 0, u32::MAX], 3),
    ]
}

/// Polynomials of degree t - 1, t and t + 1, and of the highest degree that a row can have.
fn degrees(number: u32, field: &Field) -> Vec<Case> {
    let mut cases = Vec::new();
    for (n, t) in [(3, 1), (6, 2), (7, 3)] {
        for degree in [t - 1, t, t + 1] {
            let row = row_of(field, 5, &SMALL[..degree as usize], n);
            cases.push(recover_case(number, (n, t), &row, t));
        }
    }
    let only_highest = [0, 0, 0, 0, 0, field.modulus - 1];
    let row = row_of(field, 5, &only_highest, 7);
    cases.push(recover_case(number, (7, 3), &row, 3));
    cases
}

/// A sharing with one share changed to the next field value: the first, a middle one, the last.
fn one_wrong_share(number: u32, field: &Field, (n, t): (u32, u32)) -> Vec<Case> {
    let good = row_of(field, 5, &SMALL[..t as usize], n);
    [0, n as usize / 2, n as usize - 1]
        .map(|place| {
            let mut row = good.clone();
            row[place] = (row[place] + 1) % field.modulus;
            recover_case(number, (n, t), &row, t)
        })
        .to_vec()
}
