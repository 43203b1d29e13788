//! Drawn lists that are not long.

use crate::calls::case::Case;
use crate::calls::drawn::list_for;

const SEED: u64 = 0x5EED_000A;

pub fn all() -> Vec<Case> {
    let small = |case: &Case| (20..200).contains(&case.list.len());
    (0..)
        .map(|index| list_for(SEED, index))
        .filter(small)
        .take(48)
        .collect()
}
