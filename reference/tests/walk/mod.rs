//! The commands of a run, each with the registers before it.

use crate::plain::{finished, Plain};
use reference::field::Field;
use reference::run_case::Case;
use reference::script;
use reference::script::command::Command;
use reference::sheet::Sheet;
use reference::sheets::stored;

/// What `look` finds at the commands that finish when the sheet is run.
pub fn found<T, I: IntoIterator<Item = T>>(
    case: &Case,
    look: impl Fn(&Field, &Plain, &Command) -> I,
) -> Vec<T> {
    let Ok(sheet) = Sheet::read(&case.sheet, case.present) else {
        return Vec::new();
    };
    let lines = script::read(sheet.script, sheet.field).unwrap_or_default();
    let outcome = case.outcome();
    let mut plain = Plain::new(&sheet);
    let mut found = Vec::new();
    for command in finished(&lines, &outcome) {
        found.extend(look(sheet.field, &plain, command));
        plain.perform(command);
    }
    found
}

/// The same of all stored sheets.
pub fn found_in_stored<T, I: IntoIterator<Item = T>>(
    look: impl Fn(&Field, &Plain, &Command) -> I,
) -> Vec<T> {
    let cases = stored::all();
    cases.iter().flat_map(|case| found(case, &look)).collect()
}
