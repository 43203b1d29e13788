//! The proved library's run, import and column form, told like those of the reference.

use reference::columns::Way;
use reference::compare::{Imported, Ran, Turned};

/// The example's functions, of which compare and bench call some.
#[allow(dead_code)]
#[path = "../../examples/rust/jundrethol.rs"]
mod jundrethol;

#[allow(unused_imports)]
pub use jundrethol::c;

/// Runs the sheet with these parties present.
pub fn run(ran: &mut Ran, sheet: &[u8], present: u8) {
    ran.number = jundrethol::run_lent(
        sheet,
        present,
        &mut ran.record,
        &mut ran.revealed,
        &mut ran.registers,
        &mut ran.marks,
        &mut ran.counts,
    );
}

/// Imports the list.
pub fn import(imported: &mut Imported, list: &[u8]) {
    (imported.number, imported.calls) = jundrethol::import(list, &mut imported.seconds);
}

/// Turns the input.
pub fn turn(turned: &mut Turned, way: Way, input: &[u8]) {
    let turn = match way {
        Way::ToColumns => jundrethol::to_columns,
        Way::ToSheet => jundrethol::to_sheet,
    };
    turned.number = turn(input, &mut turned.output).err().unwrap_or(0);
}
