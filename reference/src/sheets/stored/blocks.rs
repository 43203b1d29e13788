//! BLOCKS at the ends of what it charges exactly, around 0, and at the field's highest number.

use std::collections::BTreeSet;

use super::ends::{ends_of_k_and_m, runs, sheets_of, Masked, Run};
use crate::cases::generator::Generator;
use crate::field::{Field, FIELDS};
use crate::run_case::Case;
use crate::sheets::{exactly_charged, highest_of};

/// The field, k and m of a tariff with blocks of 64 seconds.
const TARIFF: (u32, (u8, u8)) = (2, (15, 6));

pub fn all(generator: &mut Generator) -> Vec<Case> {
    (0..4)
        .flat_map(|number| sheets_of(generator, number, &further_runs(number)))
        .collect()
}

/// Those that `ends` has not, since the sheets of the larger fields are long.
fn further_runs(number: u32) -> Vec<Run> {
    let p = FIELDS[number as usize].modulus;
    let present = runs(number);
    let present: Vec<_> = present.iter().map(|run| (run.masked, run.value)).collect();
    let asked = asked(number).into_iter();
    let further = asked.filter(|worked| !present.contains(worked));
    let masks = [0, p - 1].into_iter().cycle();
    let run = |((masked, value), r)| Run { masked, value, r };
    further.zip(masks).map(run).collect()
}

/// BLOCKS with each k and m, and the numbers that it works on, modulo p.
fn asked(number: u32) -> Vec<(Masked, u32)> {
    let field = &FIELDS[number as usize];
    let mut asked = Vec::new();
    for (k, m) in widths(number) {
        let sum = |a: i64| (a + (1 << m) - 1).rem_euclid(field.modulus.into()) as u32;
        let numbers = numbers(field, k, m).into_iter();
        asked.extend(numbers.map(|a| ((0x0B, k, m), sum(a))));
    }
    asked
}

fn widths(number: u32) -> Vec<(u8, u8)> {
    let mut widths = ends_of_k_and_m(FIELDS[number as usize].largest_k as u8).to_vec();
    if number == TARIFF.0 {
        widths.push(TARIFF.1);
    }
    widths
}

/// The ends of what is exact and their neighbours outside, if the field has them; a block below 0, and
/// numbers next to 0; and the field's highest, whose sum reads back as negative.
fn numbers(field: &Field, k: u8, m: u8) -> BTreeSet<i64> {
    let (lowest, highest) = exactly_charged(field, k, m);
    let of_field = highest_of(field);
    let below = (lowest - 1).max(-of_field);
    let ends = [below, lowest, highest, highest + 1];
    let others = [-(1 << m), -1, 0, 1, of_field];
    ends.into_iter().chain(others).collect()
}
