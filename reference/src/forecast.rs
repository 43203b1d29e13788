//! Whether a script would come to END, given large enough buffers: number and place of its run, from header
//! and script alone, which are the head of a sheet. No row is looked at.

pub mod case;
mod course;
mod draft;
pub mod drawn;
pub mod examples;
pub(crate) mod fault;
pub mod gate;
pub mod held;
pub mod printed;
pub mod stored;

use crate::refusal;
use crate::script::{self, Line, Refused};
use crate::sheet::header::{self, Header};
use course::Stop;

/// Number and place with which every sheet runs, with everyone present, that has this header and script,
/// the length that they imply, and rows that 5 to 8 do not refuse.
pub fn forecast(head: &[u8]) -> (u32, usize) {
    match read(head) {
        Ok((header, lines)) => {
            let stop = Stop::of(&header, &lines);
            (stop.number, stop.line.place)
        }
        Err(refused) => (refused.number, refused.place),
    }
}

/// Tries 1 to 4, then 9 to 11.
fn read(head: &[u8]) -> Result<(Header, Vec<Line>), Refused> {
    let header = read_header(head).map_err(|number| Refused { number, place: 0 })?;
    let lines = script::read(&head[header::BYTES..], header.field)?;
    Ok((header, lines))
}

/// Tries 1 to 4. The input is to be header and script, and nothing else.
fn read_header(head: &[u8]) -> Result<Header, u32> {
    let header = Header::begin(head)?;
    let right = header.is_within_limits() && header.head_length() == head.len();
    right.then_some(header).ok_or(refusal::LENGTH)
}

/// Header and script of a sheet; the whole sheet where it is shorter than they, or has no header.
pub fn head_of(sheet: &[u8]) -> &[u8] {
    let length = match sheet {
        &[_, _, _, _, _, _, _, _, _, low, high, ..] => {
            header::BYTES + usize::from(u16::from_le_bytes([low, high]))
        }
        _ => sheet.len(),
    };
    &sheet[..length.min(sheet.len())]
}

#[cfg(test)]
mod tests {
    use super::*;
    use crate::sheets::bench;

    /// Two inputs and a triple in field 0: LOAD 0, LOAD 1, MUL 2 0 1, REVEAL 2, END.
    const HEAD: [u8; 22] = [
        0, 3, 1, 2, 0, 0, 0, 1, 0, 11, 0, //
        1, 0, 1, 1, 6, 2, 0, 1, 12, 2, 0,
    ];

    fn with(changes: &[(usize, u8)]) -> Vec<u8> {
        let mut head = HEAD.to_vec();
        for &(place, byte) in changes {
            head[place] = byte;
        }
        head
    }

    #[test]
    fn the_script_of_the_paper_comes_to_its_end() {
        assert_eq!(forecast(&HEAD), (0, 10));
        assert_eq!(head_of(&bench::small()), HEAD);
    }

    #[test]
    fn a_deal_that_does_not_last_is_told_with_its_command() {
        assert_eq!(forecast(&with(&[(3, 1)])), (22, 2));
        assert_eq!(forecast(&with(&[(7, 0)])), (24, 4));
        assert_eq!(forecast(&with(&[(17, 3)])), (21, 4));
        // LTZ 2 0 3 in the place of MUL 2 0 1
        let sign = with(&[(15, 9), (18, 3)]);
        assert_eq!(forecast(&sign), (23, 4));
    }

    #[test]
    fn only_header_and_script_have_the_right_length() {
        assert_eq!(forecast(&bench::small()), (4, 0));
        assert_eq!(forecast(&HEAD[..21]), (4, 0));
        assert_eq!(forecast(&[&HEAD[..], &[0]].concat()), (4, 0));
        assert_eq!(forecast(&with(&[(3, 65)])), (4, 0));
    }

    #[test]
    fn the_whole_script_is_read_before_a_command_is_tried() {
        assert_eq!(forecast(&with(&[(3, 0), (19, 15)])), (9, 8));
        assert_eq!(forecast(&with(&[(3, 0), (21, 12)])), (10, 10));
        assert_eq!(forecast(&with(&[(3, 0), (20, 64)])), (11, 8));
    }

    #[test]
    fn a_sheet_without_a_whole_head_is_its_own_head() {
        for length in [0, 5, 10, 11, 21, 22] {
            assert_eq!(head_of(&HEAD[..length]), &HEAD[..length]);
        }
    }
}
