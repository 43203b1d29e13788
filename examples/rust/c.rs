//! The archive's functions as C sees them: each slice is a pointer and a length. include/jundrethol.h says what they take and answer.

extern "C" {
    pub fn jundrethol_run(
        sheet: *const u8,
        sheet_length: usize,
        present: u8,
        record: *mut u32,
        record_length: usize,
        revealed: *mut u32,
        revealed_length: usize,
        registers: *mut u32,
        registers_length: usize,
        marks: *mut u8,
        marks_length: usize,
        counts: *mut u64,
        counts_length: usize,
    ) -> u32;

    pub fn jundrethol_forecast(place: *mut u64, head: *const u8, head_length: usize) -> u32;

    pub fn jundrethol_replay(
        party: u32,
        head: *const u8,
        head_length: usize,
        part: *const u8,
        part_length: usize,
        record: *const u32,
        record_length: usize,
        cells: *mut u32,
        cells_length: usize,
        counts: *mut u64,
        counts_length: usize,
    ) -> u32;

    pub fn jundrethol_share(
        field: u32,
        n: u32,
        t: u32,
        secret: u32,
        coefficients: *const u32,
        coefficients_length: usize,
        shares: *mut u32,
        shares_length: usize,
    ) -> u32;

    pub fn jundrethol_recover(
        field: u32,
        n: u32,
        t: u32,
        secret: *mut u32,
        row: *const u32,
        row_length: usize,
        coefficients: *mut u32,
        coefficients_length: usize,
    ) -> u32;

    pub fn jundrethol_sum(field: u32, n: u32, t: u32, sum: *mut u64, row: *const u32, row_length: usize) -> u32;

    pub fn jundrethol_encode(field: u32, k: u32, number: i64, value: *mut u32) -> u32;

    pub fn jundrethol_decode(field: u32, value: u32, number: *mut i64) -> u32;

    pub fn jundrethol_import(calls: *mut u64, list: *const u8, list_length: usize, seconds: *mut u32, seconds_length: usize) -> u32;

    pub fn jundrethol_to_columns(sheet: *const u8, sheet_length: usize, columns: *mut u8, columns_length: usize) -> u32;

    pub fn jundrethol_to_sheet(columns: *const u8, columns_length: usize, sheet: *mut u8, sheet_length: usize) -> u32;
}
