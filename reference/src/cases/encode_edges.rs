//! Chosen cases of coding a signed number.

use super::UNKNOWN_FIELDS;
use crate::case::Case;
use crate::field::{Field, FIELDS};

pub fn all() -> Vec<Case> {
    let mut cases = unknown_fields();
    for (number, field) in (0..).zip(&FIELDS) {
        cases.extend(ends_of_ranges(number, field.largest_k));
        cases.extend(wrong_k(number, field.largest_k));
        cases.extend(far_numbers(number, field));
    }
    cases
}

fn case(field: u32, k: u32, a: i64) -> Case {
    Case::Encode { field, k, a }
}

/// An unknown field alone, with a wrong k, with a number out of range, and with both.
fn unknown_fields() -> Vec<Case> {
    let with = |field| {
        [
            case(field, 3, -4),
            case(field, 1, 0),
            case(field, 3, 4),
            case(field, u32::MAX, i64::MIN),
        ]
    };
    UNKNOWN_FIELDS.into_iter().flat_map(with).collect()
}

/// The first and last number of the range, their neighbours outside, and -1 and 0.
fn ends_of_ranges(field: u32, largest_k: u32) -> Vec<Case> {
    let with = |k: u32| {
        let half = 1i64 << (k - 1);
        [-half - 1, -half, -1, 0, half - 1, half].map(|a| case(field, k, a))
    };
    [2, largest_k].into_iter().flat_map(with).collect()
}

/// Numbers inside and outside the range that the k would have.
fn wrong_k(field: u32, largest_k: u32) -> [Case; 10] {
    let beyond = 1i64 << largest_k;
    [
        case(field, 0, 0),
        case(field, 1, -2),
        case(field, 1, -1),
        case(field, 1, 0),
        case(field, 1, 1),
        case(field, largest_k + 1, -beyond - 1),
        case(field, largest_k + 1, -beyond),
        case(field, largest_k + 1, beyond - 1),
        case(field, largest_k + 1, beyond),
        case(field, u32::MAX, 0),
    ]
}

/// Numbers that fall into the range modulo p or modulo 2^32, and the ends of i64.
fn far_numbers(number: u32, field: &Field) -> [Case; 6] {
    let p = i64::from(field.modulus);
    [p, -p, 1 << 32, -1 << 32, i64::MIN, i64::MAX].map(|a| case(number, field.largest_k, a))
}
