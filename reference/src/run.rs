//! The run of a whole sheet.

mod machine;

use crate::row::MOST_PARTIES;
use crate::script::{self, Line, Refused};
use crate::sheet::Sheet;
use machine::Machine;

pub const REGISTERS: usize = 64;

#[derive(Clone, Debug, PartialEq)]
pub struct Answer {
    pub number: u32,
    pub place: usize,
    pub inputs: usize,
    pub masks: usize,
    pub triples: usize,
    pub openings: usize,
    /// How many values were revealed.
    pub revealed: usize,
    /// 0 past the last party, and where the register is unset.
    pub registers: [[u32; MOST_PARTIES]; REGISTERS],
    pub set: [bool; REGISTERS],
}

/// Runs the sheet with the parties present whose bits are set in `present`. Writes the opened shares to
/// `record`, p for an absent one, and the values read to `revealed`.
pub fn run(sheet: &[u8], present: u8, record: &mut [u32], revealed: &mut [u32]) -> Answer {
    match accepted(sheet, present) {
        Ok((sheet, lines)) => Machine::new(&sheet, record, revealed).run(&lines),
        Err(refused) => without_run(refused),
    }
}

/// The sheet and its script's lines, or why the input is refused.
fn accepted(bytes: &[u8], present: u8) -> Result<(Sheet<'_>, Vec<Line>), Refused> {
    let sheet = Sheet::read(bytes, present).map_err(|number| Refused { number, place: 0 })?;
    let lines = script::read(sheet.script, sheet.field)?;
    Ok((sheet, lines))
}

fn without_run(refused: Refused) -> Answer {
    Answer {
        number: refused.number,
        place: refused.place,
        inputs: 0,
        masks: 0,
        triples: 0,
        openings: 0,
        revealed: 0,
        registers: [[0; MOST_PARTIES]; REGISTERS],
        set: [false; REGISTERS],
    }
}
