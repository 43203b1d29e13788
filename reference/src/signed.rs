//! Coding of signed numbers as field values.

use crate::field::Field;
use crate::refusal;

/// Answers with 0 and a modulo p, or with the refusal's number and 0.
pub fn encode(field: u32, k: u32, a: i64) -> (u32, u32) {
    match coded(field, k, a) {
        Ok(value) => (refusal::NONE, value),
        Err(number) => (number, 0),
    }
}

/// Answers with 0 and the signed reading of v, or with the refusal's number and 0.
pub fn decode(field: u32, v: u32) -> (u32, i64) {
    match reading(field, v) {
        Ok(signed) => (refusal::NONE, signed),
        Err(number) => (number, 0),
    }
}

fn coded(field: u32, k: u32, a: i64) -> Result<u32, u32> {
    let field = Field::numbered(field)?;
    if !(2..=field.largest_k).contains(&k) {
        return Err(refusal::RANGE);
    }
    let half = 1i64 << (k - 1);
    if !(-half..half).contains(&a) {
        return Err(refusal::RANGE);
    }
    // The remainder is below a modulus that fits in a u32.
    Ok(a.rem_euclid(i64::from(field.modulus)) as u32)
}

fn reading(field: u32, v: u32) -> Result<i64, u32> {
    let field = Field::numbered(field)?;
    if !field.contains(v) {
        return Err(refusal::VALUE);
    }
    if v <= (field.modulus - 1) / 2 {
        Ok(i64::from(v))
    } else {
        Ok(i64::from(v) - i64::from(field.modulus))
    }
}

#[cfg(test)]
mod tests {
    use super::*;
    use crate::field::FIELDS;

    #[test]
    fn encodes_known_numbers() {
        assert_eq!(encode(0, 3, -4), (0, 9));
        assert_eq!(encode(0, 3, 3), (0, 3));
        assert_eq!(encode(0, 3, 4), (11, 0));
        assert_eq!(encode(0, 3, -5), (11, 0));
        assert_eq!(encode(0, 2, 2), (11, 0));
        assert_eq!(encode(3, 30, -1), (0, 2147483646));
        assert_eq!(encode(3, 30, i64::MIN), (11, 0));
        assert_eq!(encode(4, 1, i64::MAX), (2, 0));
    }

    #[test]
    fn encodes_only_with_permitted_k() {
        for (number, field) in (0..).zip(&FIELDS) {
            for k in [0, 1, field.largest_k + 1, 64, 65, u32::MAX] {
                assert_eq!(encode(number, k, 0), (11, 0));
            }
            for k in 2..=field.largest_k {
                assert_eq!(encode(number, k, 0), (0, 0));
            }
        }
    }

    #[test]
    fn decodes_known_values() {
        assert_eq!(decode(0, 6), (0, 6));
        assert_eq!(decode(0, 7), (0, -6));
        assert_eq!(decode(0, 12), (0, -1));
        assert_eq!(decode(0, 13), (5, 0));
        assert_eq!(decode(4, 13), (2, 0));
        assert_eq!(decode(3, 1073741823), (0, 1073741823));
        assert_eq!(decode(3, 1073741824), (0, -1073741823));
    }

    #[test]
    fn decoding_undoes_encoding_at_the_ends_of_every_range() {
        for (number, field) in (0..).zip(&FIELDS) {
            for k in 2..=field.largest_k {
                let half = 1i64 << (k - 1);
                for a in [-half, 1 - half, -1, 0, 1, half - 1] {
                    let (refused, value) = encode(number, k, a);
                    assert_eq!(refused, 0);
                    assert_eq!(decode(number, value), (0, a));
                }
            }
        }
    }
}
