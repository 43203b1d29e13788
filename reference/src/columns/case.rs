//! An input to turn with the length of the lent output, its form as bytes, and the lines of its answer.

use super::Way;
use crate::stored_bytes::{read_each, with_lengths};

pub const LONGEST: usize = 60_000;

/// What a place of the output is before: another byte than those near it, so that a byte from another
/// place is seen.
pub fn filling(place: usize) -> u8 {
    (place % 251) as u8
}

#[derive(Clone, Debug, PartialEq, Eq, Hash)]
pub struct Case {
    pub way: Way,
    pub input: Vec<u8>,
    pub lent: usize,
}

/// What turning leaves.
pub struct Outcome {
    pub number: u32,
    pub output: Vec<u8>,
}

impl Case {
    pub fn outcome(&self) -> Outcome {
        self.outcome_on(filling)
    }

    /// With an output that has this byte in each place.
    pub fn outcome_on(&self, filling: fn(usize) -> u8) -> Outcome {
        let mut output: Vec<u8> = (0..self.lent).map(filling).collect();
        let number = self.way.turn(&self.input, &mut output);
        Outcome { number, output }
    }

    /// Three little-endian words, 0 for to_columns or 1 for to_sheet and the lengths of input and
    /// output; then the input.
    pub fn to_bytes(&self) -> Vec<u8> {
        let mut bytes = (self.way as u32).to_le_bytes().to_vec();
        bytes.extend(with_lengths(&[self.input.len(), self.lent], &self.input));
        bytes
    }
}

/// Reads the cases that the bytes consist of.
pub fn read_all(bytes: &[u8]) -> Result<Vec<Case>, String> {
    read_each(bytes, read_one)
}

fn read_one(bytes: &[u8]) -> Result<(Case, &[u8]), String> {
    let cut = "its words are cut off";
    let (way, rest) = bytes.split_first_chunk().ok_or(cut)?;
    let (length, rest) = rest.split_first_chunk().ok_or(cut)?;
    let (lent, rest) = rest.split_first_chunk().ok_or(cut)?;
    let [way, length, lent] = [way, length, lent].map(|&word| u32::from_le_bytes(word) as usize);
    let way = *Way::BOTH
        .get(way)
        .ok_or_else(|| format!("it starts with {way}, and 0 and 1 are allowed"))?;
    let (input, rest) = rest
        .split_at_checked(length)
        .ok_or("its input is cut off")?;
    if lent > LONGEST {
        return Err(format!(
            "its output is to have {lent} places, and at most {LONGEST} are allowed"
        ));
    }
    let input = input.to_vec();
    Ok((Case { way, input, lent }, rest))
}

/// The number and the whole output.
pub fn lines(case: &Case) -> String {
    let Outcome { number, output } = case.outcome();
    let bytes: String = output.iter().map(|byte| format!(" {byte}")).collect();
    format!("end {number}\nbytes{bytes}\n")
}

#[cfg(test)]
mod tests {
    use super::*;

    fn case(way: Way, input: &[u8], lent: usize) -> Case {
        Case {
            way,
            input: input.to_vec(),
            lent,
        }
    }

    const SCRIPT: &[u8] = &[0, 3, 1, 0, 0, 0, 0, 0, 0, 1, 0, 255];

    #[test]
    fn lines_show_the_whole_output() {
        let shown = |lent| lines(&case(Way::ToColumns, SCRIPT, lent));
        assert_eq!(shown(14), "end 0\nbytes 0 3 1 0 0 0 0 0 0 1 0 255 12 13\n");
        assert_eq!(shown(3), "end 15\nbytes 0 1 2\n");
        assert_eq!(shown(0), "end 15\nbytes\n");
    }

    #[test]
    fn places_are_filled_modulo_251() {
        let output = case(Way::ToSheet, b"", 504).outcome().output;
        assert_eq!(output[..3], [0, 1, 2]);
        assert_eq!(output[249..253], [249, 250, 0, 1]);
        assert_eq!(output[501..], [250, 0, 1]);
    }

    #[test]
    fn a_case_has_its_words_before_its_input() {
        let bytes = b"\x01\0\0\0\x02\0\0\0\x02\x01\0\0ab";
        assert_eq!(case(Way::ToSheet, b"ab", 258).to_bytes(), bytes);
        let cases = vec![
            case(Way::ToColumns, SCRIPT, 3),
            case(Way::ToSheet, b"", 0),
            case(Way::ToSheet, b"x", LONGEST),
        ];
        let bytes: Vec<u8> = cases.iter().flat_map(Case::to_bytes).collect();
        assert_eq!(read_all(&bytes), Ok(cases));
    }

    #[test]
    fn refuses_bytes_that_are_no_cases() {
        let mut bytes = case(Way::ToSheet, SCRIPT, 3).to_bytes();
        for length in [1, 4, 8, 11, 12, bytes.len() - 1] {
            assert!(read_all(&bytes[..length]).is_err());
        }
        bytes[0] = 2;
        let said = "case 0: it starts with 2, and 0 and 1 are allowed";
        assert_eq!(read_all(&bytes), Err(said.to_owned()));
        let longer = case(Way::ToSheet, SCRIPT, LONGEST + 1).to_bytes();
        let said = "case 0: its output is to have 60001 places, and at most 60000 are allowed";
        assert_eq!(read_all(&longer), Err(said.to_owned()));
    }
}
