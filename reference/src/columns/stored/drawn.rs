//! Drawn inputs that are not long.

use crate::columns::case::Case;
use crate::columns::drawn::turn_for;

const SEED: u64 = 0x5EED_000C;

pub fn all() -> Vec<Case> {
    let small = |case: &Case| case.input.len() < 160 && case.lent < 400;
    (0..)
        .map(|index| turn_for(SEED, index))
        .filter(small)
        .take(300)
        .collect()
}
