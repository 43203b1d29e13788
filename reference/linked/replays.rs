//! The proved library's replay, told like that of the reference.

use reference::compare::Replayed;
use reference::replay::case::Case;

extern "C" {
    fn jundrethol_replay(
        party: u32,
        head: *const u8,
        head_length: usize,
        part: *const u8,
        part_length: usize,
        record: *const u32,
        record_length: usize,
        cells: *mut u32,
        cells_length: usize,
        counts: *mut u64,
        counts_length: usize,
    ) -> u32;
}

/// Replays the party's column.
pub fn replay(replayed: &mut Replayed, case: &Case) {
    replayed.number = unsafe {
        jundrethol_replay(
            case.party,
            case.head.as_ptr(),
            case.head.len(),
            case.part.as_ptr(),
            case.part.len(),
            case.record.as_ptr(),
            case.record.len(),
            replayed.cells.as_mut_ptr(),
            replayed.cells.len(),
            replayed.counts.as_mut_ptr(),
            replayed.counts.len(),
        )
    };
}
