//! Chosen cases of sharing.

use super::{edge_parties, held, share_case, SMALL, UNKNOWN_FIELDS};
use crate::case::Case;
use crate::field::FIELDS;

pub fn all() -> Vec<Case> {
    let mut cases = known_rows();
    cases.extend(unknown_fields());
    cases.extend(parties_and_thresholds());
    cases.extend(wrong_lengths());
    for (number, field) in (0..).zip(&FIELDS) {
        cases.extend(edge_values(number, field.modulus));
    }
    cases
}

/// 7 9 11, 7 11 2, 2 3 4, 5 8 11, 7 12 4 and 5 6 7.
fn known_rows() -> Vec<Case> {
    [(5, 2), (3, 4), (1, 1), (2, 3), (2, 5), (4, 1)]
        .map(|(secret, coefficient)| share_case(0, (3, 1), secret, &[coefficient], 3))
        .to_vec()
}

/// An unknown field alone and with every later ground of refusal.
fn unknown_fields() -> Vec<Case> {
    let with = |field| {
        [
            share_case(field, (3, 1), 5, &[2], 3),
            share_case(field, (2, 1), 5, &[2], 2),
            share_case(field, (3, 2), 5, &[2, 7], 3),
            share_case(field, (3, 1), 5, &[], 3),
            share_case(field, (3, 1), 5, &[2], 4),
            share_case(field, (3, 1), u32::MAX, &[2], 3),
            share_case(field, (8, 0), u32::MAX, &[u32::MAX], 0),
        ]
    };
    UNKNOWN_FIELDS.into_iter().flat_map(with).collect()
}

fn parties_and_thresholds() -> Vec<Case> {
    let mut cases: Vec<Case> = edge_parties()
        .into_iter()
        .map(|(n, t)| share_case(1, (n, t), 5, &SMALL[..held(t) as usize], held(n)))
        .collect();
    // Wrong parties or threshold together with later grounds of refusal.
    cases.extend([
        share_case(0, (2, 1), 5, &[], 3),
        share_case(0, (8, 1), 13, &[2], 8),
        share_case(0, (3, 0), 5, &[13], 3),
        share_case(0, (4, 2), 13, &[13], 0),
        share_case(0, (0, 0), 13, &[], 0),
        share_case(0, (u32::MAX, u32::MAX), u32::MAX, &[], 0),
    ]);
    cases
}

fn wrong_lengths() -> Vec<Case> {
    let with = |(n, t): (u32, u32)| {
        let coefficients = &SMALL[..t as usize];
        [
            share_case(0, (n, t), 5, &SMALL[..t as usize - 1], n),
            share_case(0, (n, t), 5, &SMALL[..t as usize + 1], n),
            share_case(0, (n, t), 5, &SMALL[..t as usize + 2], n),
            share_case(0, (n, t), 5, coefficients, 0),
            share_case(0, (n, t), 5, coefficients, n - 1),
            share_case(0, (n, t), 5, coefficients, n + 1),
            share_case(0, (n, t), 5, coefficients, 9),
            share_case(0, (n, t), 5, &SMALL[..n as usize], t),
            share_case(0, (n, t), 5, &[], 0),
            share_case(0, (n, t), 13, &SMALL[..t as usize + 1], n),
            share_case(0, (n, t), u32::MAX, coefficients, n + 1),
            share_case(0, (n, t), 5, &vec![13; t as usize], n - 1),
        ]
    };
    [(3, 1), (7, 3)].into_iter().flat_map(with).collect()
}

fn edge_values(field: u32, p: u32) -> [Case; 12] {
    let last = p - 1;
    [
        share_case(field, (3, 1), 0, &[0], 3),
        share_case(field, (3, 1), 0, &[last], 3),
        share_case(field, (3, 1), last, &[0], 3),
        share_case(field, (7, 3), last, &[last, last, last], 7),
        share_case(field, (7, 3), p, &[2, 7, 1], 7),
        share_case(field, (7, 3), u32::MAX, &[2, 7, 1], 7),
        share_case(field, (7, 3), 5, &[p, 7, 1], 7),
        share_case(field, (7, 3), 5, &[2, p, 1], 7),
        share_case(field, (7, 3), 5, &[2, 7, p], 7),
        share_case(field, (7, 3), 5, &[2, 7, u32::MAX], 7),
        share_case(field, (7, 3), p, &[p, p, p], 7),
        share_case(field, (7, 3), 0, &[0, 0, last], 7),
    ]
}
