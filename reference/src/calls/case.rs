//! A list with the length of the lent buffer, its form as bytes, and the lines of its answer.

use super::import;
use crate::stored_bytes::{read_each, with_lengths};

pub const LONGEST: usize = 600;

/// What every number of the buffer is before the import.
pub const FILLING: u32 = 7_777_777;

#[derive(Clone, Debug, PartialEq)]
pub struct Case {
    pub list: Vec<u8>,
    pub lent: usize,
}

/// What an import leaves.
pub struct Outcome {
    pub number: u32,
    pub calls: usize,
    pub seconds: Vec<u32>,
}

impl Case {
    pub fn outcome(&self) -> Outcome {
        let mut seconds = vec![FILLING; self.lent];
        let (number, calls) = import(&self.list, &mut seconds);
        Outcome {
            number,
            calls,
            seconds,
        }
    }

    /// Two little-endian words, the lengths of list and buffer; then the list.
    pub fn to_bytes(&self) -> Vec<u8> {
        with_lengths(&[self.list.len(), self.lent], &self.list)
    }
}

/// Reads the cases that the bytes consist of.
pub fn read_all(bytes: &[u8]) -> Result<Vec<Case>, String> {
    read_each(bytes, read_one)
}

fn read_one(bytes: &[u8]) -> Result<(Case, &[u8]), String> {
    let cut = "its lengths are cut off";
    let (length, rest) = bytes.split_first_chunk().ok_or(cut)?;
    let (lent, rest) = rest.split_first_chunk().ok_or(cut)?;
    let [length, lent] = [length, lent].map(|&word| u32::from_le_bytes(word) as usize);
    let (list, rest) = rest.split_at_checked(length).ok_or("its list is cut off")?;
    if lent > LONGEST {
        return Err(format!(
            "its buffer is to have {lent} numbers, and at most {LONGEST} are allowed"
        ));
    }
    let list = list.to_vec();
    Ok((Case { list, lent }, rest))
}

/// The end and the whole buffer.
pub fn lines(case: &Case) -> String {
    let outcome = case.outcome();
    let numbers = outcome.seconds.iter();
    let seconds: String = numbers.map(|number| format!(" {number}")).collect();
    format!(
        "{}seconds{seconds}\n",
        end_line(outcome.number, outcome.calls)
    )
}

/// What the program prints for a list: the seconds of each call on a line, and the end. No list has
/// as many lines as bytes.
pub fn printed(list: &[u8]) -> String {
    let mut seconds = vec![0; list.len()];
    let (number, calls) = import(list, &mut seconds);
    let written = seconds[..calls].iter();
    let lines: String = written.map(|call| format!("{call}\n")).collect();
    lines + &end_line(number, calls)
}

fn end_line(number: u32, calls: usize) -> String {
    format!("end {number} calls {calls}\n")
}

#[cfg(test)]
mod tests {
    use super::*;

    fn case(list: &[u8], lent: usize) -> Case {
        Case {
            list: list.to_vec(),
            lent,
        }
    }

    const TWO: &[u8] = b"a,1,2,3\r\nb,1,,3\r\n";

    #[test]
    fn lines_show_the_whole_buffer() {
        let expected = "end 0 calls 2\nseconds 1 0 7777777\n";
        assert_eq!(lines(&case(TWO, 3)), expected);
        assert_eq!(lines(&case(TWO, 1)), "end 33 calls 1\nseconds 1\n");
        assert_eq!(lines(&case(TWO, 0)), "end 33 calls 0\nseconds\n");
    }

    #[test]
    fn every_call_has_a_printed_line() {
        assert_eq!(printed(TWO), "1\n0\nend 0 calls 2\n");
        assert_eq!(printed(b""), "end 0 calls 0\n");
        assert_eq!(printed(b"a,1,2,3\r\nb"), "1\nend 31 calls 1\n");
    }

    #[test]
    fn a_case_has_its_lengths_before_its_list() {
        assert_eq!(case(b"ab", 258).to_bytes(), b"\x02\0\0\0\x02\x01\0\0ab");
        let cases = vec![case(TWO, 3), case(b"", 0), case(b"x", LONGEST)];
        let bytes: Vec<u8> = cases.iter().flat_map(Case::to_bytes).collect();
        assert_eq!(read_all(&bytes), Ok(cases));
    }

    #[test]
    fn refuses_bytes_that_are_no_cases() {
        let bytes = case(TWO, 3).to_bytes();
        for length in [1, 4, 7, 8, bytes.len() - 1] {
            assert!(read_all(&bytes[..length]).is_err());
        }
        let said = "case 0: its buffer is to have 601 numbers, and at most 600 are allowed";
        let longer = case(TWO, LONGEST + 1).to_bytes();
        assert_eq!(read_all(&longer), Err(said.to_owned()));
    }
}
