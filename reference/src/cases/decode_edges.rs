//! Chosen cases of reading a field value as a signed number.

use super::UNKNOWN_FIELDS;
use crate::case::Case;
use crate::field::FIELDS;

pub fn all() -> Vec<Case> {
    let mut cases = Vec::new();
    for field in UNKNOWN_FIELDS {
        cases.extend([0, 12, u32::MAX].map(|v| Case::Decode { field, v }));
    }
    for (field, row) in (0..).zip(&FIELDS) {
        let p = row.modulus;
        let half = (p - 1) / 2;
        let values = [0, 1, half, half + 1, p - 1, p, p + 1, u32::MAX];
        cases.extend(values.map(|v| Case::Decode { field, v }));
    }
    cases
}
