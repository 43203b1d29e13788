//! Cases from a generator with a fixed seed.

use super::generator::Generator;
use super::{held, recover_case, row_of, share_case, PERMITTED};
use crate::case::Case;
use crate::field::{Field, FIELDS};

const SEED: u64 = 0x5EED_0001;

pub fn all() -> Vec<Case> {
    let mut generator = Generator::new(SEED);
    let mut cases = Vec::new();
    for (number, field) in (0..).zip(&FIELDS) {
        for parties in PERMITTED {
            for _ in 0..2 {
                cases.push(good_share(&mut generator, number, field, parties));
                cases.push(good_row(&mut generator, number, field, parties));
            }
            cases.push(damaged_row(&mut generator, number, field, parties));
            cases.push(any_share(&mut generator, number, field, parties));
            cases.push(any_recover(&mut generator, number, field, parties));
        }
        for _ in 0..3 {
            cases.push(good_encode(&mut generator, number, field));
            cases.push(any_encode(&mut generator, number, field));
            cases.push(any_decode(&mut generator, number, field));
        }
    }
    cases
}

/// Any of the kinds above, in any field and for any permitted parties.
pub fn draw(generator: &mut Generator) -> Case {
    let number = generator.below(FIELDS.len() as u32);
    let field = &FIELDS[number as usize];
    let parties = generator.pick(&PERMITTED);
    match generator.below(8) {
        0 => good_share(generator, number, field, parties),
        1 => good_row(generator, number, field, parties),
        2 => damaged_row(generator, number, field, parties),
        3 => any_share(generator, number, field, parties),
        4 => any_recover(generator, number, field, parties),
        5 => good_encode(generator, number, field),
        6 => any_encode(generator, number, field),
        _ => any_decode(generator, number, field),
    }
}

fn good_share(generator: &mut Generator, number: u32, field: &Field, (n, t): (u32, u32)) -> Case {
    let secret = generator.below(field.modulus);
    let coefficients = generator.list(t as usize, field.modulus);
    share_case(number, (n, t), secret, &coefficients, n)
}

fn good_row(generator: &mut Generator, number: u32, field: &Field, (n, t): (u32, u32)) -> Case {
    let row = random_sharing(generator, field, (n, t));
    recover_case(number, (n, t), &row, t)
}

fn damaged_row(generator: &mut Generator, number: u32, field: &Field, (n, t): (u32, u32)) -> Case {
    let mut row = random_sharing(generator, field, (n, t));
    damage(generator, field, &mut row);
    recover_case(number, (n, t), &row, t)
}

/// Moves one share by a random amount that is not 0 modulo p.
pub fn damage(generator: &mut Generator, field: &Field, row: &mut [u32]) {
    let place = generator.below(row.len() as u32) as usize;
    let amount = 1 + u64::from(generator.below(field.modulus - 1));
    row[place] = field.add(u64::from(row[place]), amount) as u32;
}

pub fn random_sharing(generator: &mut Generator, field: &Field, (n, t): (u32, u32)) -> Vec<u32> {
    let secret = generator.below(field.modulus);
    let coefficients = generator.list(t as usize, field.modulus);
    row_of(field, secret, &coefficients, n)
}

fn any_share(generator: &mut Generator, number: u32, field: &Field, (n, t): (u32, u32)) -> Case {
    let parties = (near(generator, n), near(generator, t));
    let secret = value_near_limit(generator, field);
    let length = held(near(generator, t));
    let coefficients: Vec<u32> = (0..length)
        .map(|_| value_near_limit(generator, field))
        .collect();
    let lent_length = held(near(generator, n));
    share_case(
        near(generator, number),
        parties,
        secret,
        &coefficients,
        lent_length,
    )
}

fn any_recover(generator: &mut Generator, number: u32, field: &Field, (n, t): (u32, u32)) -> Case {
    let parties = (near(generator, n), near(generator, t));
    let length = held(near(generator, n));
    let row: Vec<u32> = (0..length)
        .map(|_| value_near_limit(generator, field))
        .collect();
    let lent_length = held(near(generator, t));
    recover_case(near(generator, number), parties, &row, lent_length)
}

fn good_encode(generator: &mut Generator, number: u32, field: &Field) -> Case {
    let k = 2 + generator.below(field.largest_k - 1);
    let a = i64::from(generator.below(1 << k)) - (1i64 << (k - 1));
    Case::Encode {
        field: number,
        k,
        a,
    }
}

/// A number from twice the width of the range, or any number at all. The width is at most
/// 2^31, so that it fits in a u32 when k is one too large for field 3.
fn any_encode(generator: &mut Generator, number: u32, field: &Field) -> Case {
    let k = 1 + generator.below(field.largest_k + 1);
    let wide = i64::from(generator.below(1 << (k + 1).min(31))) - (1i64 << k.min(30));
    let any = generator.any() as i64;
    Case::Encode {
        field: near(generator, number),
        k,
        a: generator.pick(&[wide, wide, wide, any]),
    }
}

fn any_decode(generator: &mut Generator, number: u32, field: &Field) -> Case {
    Case::Decode {
        field: near(generator, number),
        v: value_near_limit(generator, field),
    }
}

/// The value itself most of the time, so that later grounds of refusal are reached.
pub fn near(generator: &mut Generator, value: u32) -> u32 {
    match generator.below(16) {
        0 => value.saturating_sub(1),
        1 => value.saturating_add(1),
        2 => u32::MAX,
        _ => value,
    }
}

/// Mostly a field value, with p, p + 1 and the largest u32 among them.
pub fn value_near_limit(generator: &mut Generator, field: &Field) -> u32 {
    let p = field.modulus;
    match generator.below(24) {
        0 => generator.pick(&[p, p + 1, u32::MAX]),
        1..=6 => generator.pick(&[0, 1, p / 2, p / 2 + 1, p - 2, p - 1]),
        _ => generator.below(p),
    }
}
