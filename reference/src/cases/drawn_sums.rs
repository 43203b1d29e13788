//! Sums from a generator of their own, so that the other generated cases do not depend on them.

use super::generated::{damage, near, random_sharing, value_near_limit};
use super::generator::Generator;
use super::{held, row_from, sum_case, PERMITTED};
use crate::case::Case;
use crate::field::{Field, FIELDS};

const SEED: u64 = 0x5EED_000D;

pub fn all() -> Vec<Case> {
    let mut generator = Generator::new(SEED);
    let mut cases = Vec::new();
    for (number, field) in (0..).zip(&FIELDS) {
        for parties in PERMITTED {
            cases.push(good_sum(&mut generator, number, field, parties));
        }
        for parties in [(3, 1), (6, 2), (7, 3)] {
            cases.push(edge_sum(&mut generator, number, field, parties));
        }
        cases.push(damaged_sum(&mut generator, number, field, (7, 3)));
        cases.push(any_sum(&mut generator, number, field, (5, 2)));
    }
    cases
}

/// Any of the kinds above, in any field and for any permitted parties.
pub fn draw(generator: &mut Generator) -> Case {
    let number = generator.below(FIELDS.len() as u32);
    let field = &FIELDS[number as usize];
    let parties = generator.pick(&PERMITTED);
    match generator.below(4) {
        0 => good_sum(generator, number, field, parties),
        1 => edge_sum(generator, number, field, parties),
        2 => damaged_sum(generator, number, field, parties),
        _ => any_sum(generator, number, field, parties),
    }
}

fn good_sum(generator: &mut Generator, number: u32, field: &Field, parties: (u32, u32)) -> Case {
    let row = random_sharing(generator, field, parties);
    sum_case(number, parties, &row)
}

/// The shares that are summed are at the ends of the field, so that a product or a sum that is cut
/// off is seen.
fn edge_sum(
    generator: &mut Generator,
    number: u32,
    field: &'static Field,
    (n, t): (u32, u32),
) -> Case {
    let p = field.modulus;
    let first: Vec<u32> = (0..=t)
        .map(|_| generator.pick(&[0, 1, p / 2, p - 2, p - 1, p - 1]))
        .collect();
    sum_case(number, (n, t), &row_from(field, (n, t), &first))
}

fn damaged_sum(generator: &mut Generator, number: u32, field: &Field, parties: (u32, u32)) -> Case {
    let mut row = random_sharing(generator, field, parties);
    damage(generator, field, &mut row);
    sum_case(number, parties, &row)
}

fn any_sum(generator: &mut Generator, number: u32, field: &Field, (n, t): (u32, u32)) -> Case {
    let parties = (near(generator, n), near(generator, t));
    let length = held(near(generator, n));
    let row: Vec<u32> = (0..length)
        .map(|_| value_near_limit(generator, field))
        .collect();
    sum_case(near(generator, number), parties, &row)
}
