//! The input of a forecast, its form as bytes, and the line of its answer.

use super::forecast;
use crate::stored_bytes::{read_each, with_lengths};

#[derive(Clone, Debug, PartialEq, Eq, Hash)]
pub struct Case {
    /// Header and script, or any bytes.
    pub head: Vec<u8>,
}

impl Case {
    /// A little-endian word, the length; then the input.
    pub fn to_bytes(&self) -> Vec<u8> {
        with_lengths(&[self.head.len()], &self.head)
    }
}

/// Reads the cases that the bytes consist of.
pub fn read_all(bytes: &[u8]) -> Result<Vec<Case>, String> {
    read_each(bytes, read_one)
}

fn read_one(bytes: &[u8]) -> Result<(Case, &[u8]), String> {
    let (&length, rest) = bytes.split_first_chunk().ok_or("its length is cut off")?;
    let length = u32::from_le_bytes(length) as usize;
    let (head, rest) = rest
        .split_at_checked(length)
        .ok_or("its input is cut off")?;
    let head = head.to_vec();
    Ok((Case { head }, rest))
}

/// Number and place.
pub fn line(case: &Case) -> String {
    end_line(forecast(&case.head))
}

pub fn end_line((number, place): (u32, usize)) -> String {
    format!("end {number} at {place}\n")
}

#[cfg(test)]
mod tests {
    use super::*;

    fn case(head: &[u8]) -> Case {
        let head = head.to_vec();
        Case { head }
    }

    /// REVEAL 0, which is unset, and END.
    const UNSET: &[u8] = &[0, 3, 1, 0, 0, 0, 0, 0, 0, 3, 0, 12, 0, 0];

    #[test]
    fn the_line_has_number_and_place() {
        assert_eq!(line(&case(UNSET)), "end 21 at 0\n");
        assert_eq!(line(&case(&UNSET[..13])), "end 4 at 0\n");
        assert_eq!(line(&case(b"")), "end 1 at 0\n");
    }

    #[test]
    fn a_case_has_its_length_before_its_input() {
        assert_eq!(case(b"ab").to_bytes(), b"\x02\0\0\0ab");
        let cases = vec![case(UNSET), case(b""), case(&[7; 300])];
        let bytes: Vec<u8> = cases.iter().flat_map(Case::to_bytes).collect();
        assert_eq!(read_all(&bytes), Ok(cases));
    }

    #[test]
    fn refuses_bytes_that_are_no_cases() {
        let bytes = case(UNSET).to_bytes();
        for length in [1, 3, 4, bytes.len() - 1] {
            assert!(read_all(&bytes[..length]).is_err());
        }
        let said = "case 0: its input is cut off";
        assert_eq!(read_all(&bytes[..5]), Err(said.to_owned()));
    }
}
