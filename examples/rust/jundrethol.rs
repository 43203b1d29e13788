//! The archive's functions in safe Rust. include/jundrethol.h says what each takes and answers. What it asks of pointers holds for slices
//! and references, so nothing is tested here.

#[path = "c.rs"]
pub mod c;

/// No run outgrows a record and a revealed list of these lengths.
pub const RECORD_LENGTH: usize = 10850;
pub const REVEALED_LENGTH: usize = 511;

/// The cells of 64 registers, 7 each, and of one party's column, 1 each; the marks; and the counts.
pub const REGISTERS_LENGTH: usize = 448;
pub const CELLS_LENGTH: usize = 64;
pub const MARKS_LENGTH: usize = 64;
pub const COUNTS_LENGTH: usize = 6;

/// The paper's number; register r's cells from 7r on; 1 for each register that is set; place, inputs, masks, triples, openings, and how many
/// values were revealed.
pub struct Ran {
    pub number: u32,
    pub registers: [u32; REGISTERS_LENGTH],
    pub marks: [u8; MARKS_LENGTH],
    pub counts: [u64; COUNTS_LENGTH],
}

/// Bit j - 1 of present says that party j is present.
pub fn run(sheet: &[u8], present: u8, record: &mut [u32], revealed: &mut [u32]) -> Ran {
    let mut ran = Ran { number: 0, registers: [0; REGISTERS_LENGTH], marks: [0; MARKS_LENGTH], counts: [0; COUNTS_LENGTH] };
    ran.number = run_lent(sheet, present, record, revealed, &mut ran.registers, &mut ran.marks, &mut ran.counts);
    ran
}

/// The run with lists of any length for registers, marks and counts.
pub fn run_lent(
    sheet: &[u8],
    present: u8,
    record: &mut [u32],
    revealed: &mut [u32],
    registers: &mut [u32],
    marks: &mut [u8],
    counts: &mut [u64],
) -> u32 {
    unsafe {
        c::jundrethol_run(
            sheet.as_ptr(),
            sheet.len(),
            present,
            record.as_mut_ptr(),
            record.len(),
            revealed.as_mut_ptr(),
            revealed.len(),
            registers.as_mut_ptr(),
            registers.len(),
            marks.as_mut_ptr(),
            marks.len(),
            counts.as_mut_ptr(),
            counts.len(),
        )
    }
}

/// Number and place with which a run of a sheet with this header and script would end.
pub fn forecast(head: &[u8]) -> (u32, u64) {
    let mut place = 0;
    let number = unsafe { c::jundrethol_forecast(&mut place, head.as_ptr(), head.len()) };
    (number, place)
}

/// One party's column: the number; the party's share in register r at place r; the counts as in a run.
pub struct Replayed {
    pub number: u32,
    pub cells: [u32; CELLS_LENGTH],
    pub counts: [u64; COUNTS_LENGTH],
}

/// The party's column of the run that wrote the record, from header and script and its part of the column form.
pub fn replay(party: u32, head: &[u8], part: &[u8], record: &[u32]) -> Replayed {
    let mut replayed = Replayed { number: 0, cells: [0; CELLS_LENGTH], counts: [0; COUNTS_LENGTH] };
    replayed.number = replay_lent(party, head, part, record, &mut replayed.cells, &mut replayed.counts);
    replayed
}

/// The replay with lists of any length for cells and counts.
pub fn replay_lent(party: u32, head: &[u8], part: &[u8], record: &[u32], cells: &mut [u32], counts: &mut [u64]) -> u32 {
    unsafe {
        c::jundrethol_replay(
            party,
            head.as_ptr(),
            head.len(),
            part.as_ptr(),
            part.len(),
            record.as_ptr(),
            record.len(),
            cells.as_mut_ptr(),
            cells.len(),
            counts.as_mut_ptr(),
            counts.len(),
        )
    }
}

/// A refusal's number is the error.
fn answer<T>(number: u32, value: T) -> Result<T, u32> {
    if number == 0 { Ok(value) } else { Err(number) }
}

pub fn share(field: u32, n: u32, t: u32, secret: u32, coefficients: &[u32], shares: &mut [u32]) -> Result<(), u32> {
    let (from, to) = (coefficients.as_ptr(), shares.as_mut_ptr());
    answer(unsafe { c::jundrethol_share(field, n, t, secret, from, coefficients.len(), to, shares.len()) }, ())
}

pub fn recover(field: u32, n: u32, t: u32, row: &[u32], coefficients: &mut [u32]) -> Result<u32, u32> {
    let mut secret = 0;
    let (from, to) = (row.as_ptr(), coefficients.as_mut_ptr());
    let number = unsafe { c::jundrethol_recover(field, n, t, &mut secret, from, row.len(), to, coefficients.len()) };
    answer(number, secret)
}

/// The sum before it is reduced: its remainder by p is the secret.
pub fn sum(field: u32, n: u32, t: u32, row: &[u32]) -> Result<u64, u32> {
    let mut sum = 0;
    answer(unsafe { c::jundrethol_sum(field, n, t, &mut sum, row.as_ptr(), row.len()) }, sum)
}

pub fn encode(field: u32, k: u32, number: i64) -> Result<u32, u32> {
    let mut value = 0;
    answer(unsafe { c::jundrethol_encode(field, k, number, &mut value) }, value)
}

pub fn decode(field: u32, value: u32) -> Result<i64, u32> {
    let mut number = 0;
    answer(unsafe { c::jundrethol_decode(field, value, &mut number) }, number)
}

/// The number, and how many calls were written to seconds: after a refusal those of the lines before.
pub fn import(list: &[u8], seconds: &mut [u32]) -> (u32, u64) {
    let mut calls = 0;
    let number = unsafe { c::jundrethol_import(&mut calls, list.as_ptr(), list.len(), seconds.as_mut_ptr(), seconds.len()) };
    (number, calls)
}

/// The column form of a sheet. A longer output keeps its tail.
pub fn to_columns(sheet: &[u8], columns: &mut [u8]) -> Result<(), u32> {
    answer(unsafe { c::jundrethol_to_columns(sheet.as_ptr(), sheet.len(), columns.as_mut_ptr(), columns.len()) }, ())
}

/// The sheet that has this column form. A longer output keeps its tail.
pub fn to_sheet(columns: &[u8], sheet: &mut [u8]) -> Result<(), u32> {
    answer(unsafe { c::jundrethol_to_sheet(columns.as_ptr(), columns.len(), sheet.as_mut_ptr(), sheet.len()) }, ())
}
