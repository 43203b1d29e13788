//! Whole sheets, which are too long unless they have no row, and the heads of sheets.

use super::Told;
use crate::forecast::case::Case;
use crate::forecast::draft::Draft;
use crate::forecast::head_of;
use crate::refusal::{LENGTH, NONE};
use crate::sheets::{bench, examples, gate, held};

/// Of 82 to 1,740 bytes; a sheet cut between its rows; and sheets without a row.
pub fn whole() -> Vec<Told> {
    let named = |name| examples::named(name).expect("the example is there");
    let sheets = ["mul", "rounding", "test-call-170"].map(named);
    let small = bench::small();
    let mut all: Vec<Told> = sheets.map(|sheet| (sheet, LENGTH, 0)).into();
    for rows in 1..5 {
        all.push((small[..22 + 12 * rows].to_vec(), LENGTH, 0));
    }
    all.push((small[..22].to_vec(), NONE, 10));
    // CONST 0 1, ADD 1 0 0, REVEAL 1
    let script = [2, 0, 1, 0, 0, 0, 3, 1, 0, 0, 12, 1, 0];
    for field in 0..4 {
        let draft = Draft::new(field, &script).with_parties(7, 3);
        all.push((draft.to_bytes(), NONE, 12));
    }
    all
}

/// Of the examples, the gate's sheets, and the sheets of the model's tables.
pub fn heads() -> Vec<Case> {
    let examples = examples::NAMES.into_iter().filter_map(examples::named);
    let gate = gate::all().into_iter().map(|(_, sheet)| sheet);
    let held = held::all().into_iter().map(|held| held.bytes());
    let head = |sheet: Vec<u8>| Case {
        head: head_of(&sheet).to_vec(),
    };
    examples.chain(gate).chain(held).map(head).collect()
}
