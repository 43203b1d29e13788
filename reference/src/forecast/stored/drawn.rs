//! Drawn inputs that are not long.

use crate::forecast::case::Case;
use crate::forecast::drawn::head_for;

const SEED: u64 = 0x5EED_0011;

pub fn all() -> Vec<Case> {
    let small = |case: &Case| case.head.len() < 120;
    (0..)
        .map(|index| head_for(SEED, index))
        .filter(small)
        .take(400)
        .collect()
}
