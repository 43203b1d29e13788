//! The column form of a sheet: the same header and script, then all of party 1's shares, then party
//! 2's, and so on. Of a sheet and of a column form only header and length are looked at.

pub mod case;
mod draft;
pub mod drawn;
mod fault;
pub mod held;
pub mod stored;

use crate::refusal;
use crate::sheet::header::Header;

/// The bytes of a share.
const SHARE: usize = 4;

#[derive(Clone, Copy, Debug, PartialEq, Eq, Hash)]
pub enum Way {
    ToColumns,
    ToSheet,
}

impl Way {
    pub const BOTH: [Way; 2] = [Way::ToColumns, Way::ToSheet];

    /// Turns the input this way. Answers the number.
    pub fn turn(self, input: &[u8], output: &mut [u8]) -> u32 {
        match self {
            Way::ToColumns => to_columns(input, output),
            Way::ToSheet => to_sheet(input, output),
        }
    }
}

/// Writes the column form of the sheet. Answers the number; a refusal writes nothing.
pub fn to_columns(sheet: &[u8], output: &mut [u8]) -> u32 {
    number(turn(sheet, output, put_columns))
}

/// Writes the sheet that has this column form. Answers the number; a refusal writes nothing.
pub fn to_sheet(columns: &[u8], output: &mut [u8]) -> u32 {
    number(turn(columns, output, put_rows))
}

fn number(outcome: Result<(), u32>) -> u32 {
    outcome.err().unwrap_or(refusal::NONE)
}

/// Tries 1 to 4, then 15. Copies header and script; put takes the input's shares, the places for them,
/// and the number of parties.
fn turn(input: &[u8], output: &mut [u8], put: fn(&[u8], &mut [u8], usize)) -> Result<(), u32> {
    let header = Header::read(input)?;
    let output = output.get_mut(..input.len());
    let output = output.ok_or(refusal::OUTPUT_SHORT)?;
    let head = header.head_length();
    let (output_head, output_shares) = output.split_at_mut(head);
    output_head.copy_from_slice(&input[..head]);
    put(&input[head..], output_shares, header.parties);
    Ok(())
}

/// Writes the columns part after part: a party's part has its share of every row.
fn put_columns(rows: &[u8], mut columns: &mut [u8], parties: usize) {
    let length = rows.len() / parties;
    for party in 0..parties {
        let (part, rest) = columns.split_at_mut(length);
        let places = part.chunks_exact_mut(SHARE);
        for (place, row) in places.zip(rows.chunks_exact(SHARE * parties)) {
            place.copy_from_slice(&row[SHARE * party..][..SHARE]);
        }
        columns = rest;
    }
}

/// Fills the rows party after party: its shares are those of its part, one for each row.
fn put_rows(mut columns: &[u8], rows: &mut [u8], parties: usize) {
    let length = rows.len() / parties;
    for party in 0..parties {
        let (part, rest) = columns.split_at(length);
        let shares = part.chunks_exact(SHARE);
        for (row, share) in rows.chunks_exact_mut(SHARE * parties).zip(shares) {
            row[SHARE * party..][..SHARE].copy_from_slice(share);
        }
        columns = rest;
    }
}

#[cfg(test)]
mod tests {
    use super::case::filling;
    use super::*;

    /// Field 0 with 3 parties: a script of two bytes, and two input rows.
    const SHEET: [u8; 37] = [
        0, 3, 1, 2, 0, 0, 0, 0, 0, 2, 0, 90, 91, //
        1, 2, 3, 4, 11, 12, 13, 14, 21, 22, 23, 24, //
        5, 6, 7, 8, 15, 16, 17, 18, 25, 26, 27, 28,
    ];
    const COLUMNS: [u8; 37] = [
        0, 3, 1, 2, 0, 0, 0, 0, 0, 2, 0, 90, 91, //
        1, 2, 3, 4, 5, 6, 7, 8, //
        11, 12, 13, 14, 15, 16, 17, 18, //
        21, 22, 23, 24, 25, 26, 27, 28,
    ];

    #[test]
    fn shares_of_one_party_stand_together_and_go_back() {
        let mut output = [0; 37];
        assert_eq!(to_columns(&SHEET, &mut output), 0);
        assert_eq!(output, COLUMNS);
        assert_eq!(to_sheet(&COLUMNS, &mut output), 0);
        assert_eq!(output, SHEET);
    }

    #[test]
    fn a_longer_output_keeps_its_tail() {
        let mut output: [u8; 40] = std::array::from_fn(filling);
        assert_eq!(to_columns(&SHEET, &mut output), 0);
        assert_eq!(output[..37], COLUMNS);
        assert_eq!(output[37..], [37, 38, 39]);
    }

    #[test]
    fn a_shorter_output_is_refused_after_all_else() {
        for way in Way::BOTH {
            let before: [u8; 36] = std::array::from_fn(filling);
            let mut output = before;
            assert_eq!(way.turn(&SHEET, &mut output), 15);
            assert_eq!(way.turn(&SHEET[..36], &mut output), 4);
            assert_eq!(way.turn(&SHEET[..10], &mut output), 1);
            assert_eq!(output, before);
        }
    }

    #[test]
    fn a_sheet_without_rows_stays_as_it_is() {
        let sheet = [0, 3, 1, 0, 0, 0, 0, 0, 0, 1, 0, 255];
        for way in Way::BOTH {
            let mut output = [7; 12];
            assert_eq!(way.turn(&sheet, &mut output), 0);
            assert_eq!(output, sheet);
        }
    }
}
