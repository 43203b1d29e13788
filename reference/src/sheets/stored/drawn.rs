//! Drawn sheets that are not long.

use crate::present::everyone_of;
use crate::run_case::Case;
use crate::sheets::sheet_for;

const SEED: u64 = 0x5EED_0005;

/// With everyone present.
pub fn all() -> Vec<Case> {
    drawn(600)
        .map(|case| Case {
            present: everyone_of(&case.sheet),
            ..case
        })
        .take(40)
        .collect()
}

/// With the parties present that are drawn, where these are not everyone.
pub fn absent() -> Vec<Case> {
    drawn(300)
        .filter(|case| case.present != everyone_of(&case.sheet))
        .take(40)
        .collect()
}

/// Sheets with fewer bytes than this.
fn drawn(bytes: usize) -> impl Iterator<Item = Case> {
    let small = move |case: &Case| (50..bytes).contains(&case.sheet.len()) && case.record < 300;
    (0..).map(|index| sheet_for(SEED, index)).filter(small)
}
