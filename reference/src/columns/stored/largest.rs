//! The largest sheet there and back, with outputs that it fills and with a tail.

use super::bodies::over;
use crate::columns::case::{Case, LONGEST};
use crate::sheets::bench;

pub fn all() -> Vec<Case> {
    let sheet = bench::largest();
    let lengths = [sheet.len(), LONGEST];
    lengths
        .into_iter()
        .flat_map(|lent| over(&sheet, lent))
        .collect()
}
