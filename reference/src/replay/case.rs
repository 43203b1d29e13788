//! The inputs of a replay, their form as bytes, and the lines of the answer.

use super::{replay, Answer};
use crate::stored_bytes::{read_each, with_lengths};
use crate::table::end_line_of;

pub const LONGEST_HEAD: usize = 2_000;
pub const LONGEST_PART: usize = 9_000;
pub const LONGEST_RECORD: usize = 12_000;

#[derive(Clone, Debug, PartialEq, Eq, Hash)]
pub struct Case {
    pub party: u32,
    /// Header and script, or any bytes.
    pub head: Vec<u8>,
    /// The party's part of the column form, or any bytes.
    pub part: Vec<u8>,
    pub record: Vec<u32>,
}

impl Case {
    pub fn answer(&self) -> Answer {
        replay(self.party, &self.head, &self.part, &self.record)
    }

    /// Four little-endian words, the party, the lengths of head and part, and how many numbers the record
    /// has; then head, part and the record's numbers, each a little-endian word.
    pub fn to_bytes(&self) -> Vec<u8> {
        let numbers = self.record.iter().flat_map(|number| number.to_le_bytes());
        let mut bytes = self.head.clone();
        bytes.extend(&self.part);
        bytes.extend(numbers);
        let party = self.party as usize;
        let lengths = [party, self.head.len(), self.part.len(), self.record.len()];
        with_lengths(&lengths, &bytes)
    }
}

/// Reads the cases that the bytes consist of.
pub fn read_all(bytes: &[u8]) -> Result<Vec<Case>, String> {
    read_each(bytes, read_one)
}

fn read_one(bytes: &[u8]) -> Result<(Case, &[u8]), String> {
    let (words, rest) = bytes.split_at_checked(16).ok_or("its words are cut off")?;
    let [party, head, part, record] = [0, 4, 8, 12].map(|place| word(&words[place..]));
    let (head, part, record) = (head as usize, part as usize, record as usize);
    check_length("head", head, LONGEST_HEAD)?;
    check_length("part", part, LONGEST_PART)?;
    check_length("record", record, LONGEST_RECORD)?;
    let (head, rest) = rest.split_at_checked(head).ok_or("its head is cut off")?;
    let (part, rest) = rest.split_at_checked(part).ok_or("its part is cut off")?;
    let (record, rest) = rest
        .split_at_checked(4 * record)
        .ok_or("its record is cut off")?;
    let case = Case {
        party,
        head: head.to_vec(),
        part: part.to_vec(),
        record: record.chunks_exact(4).map(word).collect(),
    };
    Ok((case, rest))
}

fn word(four: &[u8]) -> u32 {
    u32::from_le_bytes([four[0], four[1], four[2], four[3]])
}

fn check_length(name: &str, length: usize, longest: usize) -> Result<(), String> {
    if length > longest {
        return Err(format!(
            "its {name} has the length {length}, and at most {longest} is allowed"
        ));
    }
    Ok(())
}

/// The end, the number of REVEALs, and all cells.
pub fn lines(case: &Case) -> String {
    let Answer {
        number,
        place,
        cells,
        counts,
    } = case.answer();
    let taken = [counts.inputs, counts.masks, counts.triples, counts.openings];
    let cells: String = cells.iter().map(|cell| format!(" {cell}")).collect();
    let end = end_line_of(number, place, taken);
    format!("{end}revealed {}\ncells{cells}\n", counts.revealed)
}

#[cfg(test)]
mod tests {
    use super::*;

    /// REVEAL 0 of an input, and END, in field 0.
    const HEAD: &[u8] = &[0, 3, 1, 1, 0, 0, 0, 0, 0, 5, 0, 1, 0, 12, 0, 0];

    fn case(record: &[u32]) -> Case {
        Case {
            party: 2,
            head: HEAD.to_vec(),
            part: vec![9, 0, 0, 0],
            record: record.to_vec(),
        }
    }

    #[test]
    fn lines_show_the_whole_answer() {
        let zeros = " 0".repeat(63);
        let cells = format!("cells 9{zeros}\n");
        let end = "end 0 at 4 inputs 1 masks 0 triples 0 openings 1\nrevealed 1\n";
        assert_eq!(lines(&case(&[7, 9, 11])), format!("{end}{cells}"));
        let end = "end 43 at 2 inputs 1 masks 0 triples 0 openings 0\nrevealed 0\n";
        assert_eq!(lines(&case(&[])), format!("{end}{cells}"));
        let refused = Case {
            party: 4,
            ..case(&[7, 9, 11])
        };
        let end = "end 3 at 0 inputs 0 masks 0 triples 0 openings 0\nrevealed 0\n";
        assert_eq!(lines(&refused), format!("{end}cells 0{zeros}\n"));
    }

    #[test]
    fn a_case_has_its_words_before_its_lists() {
        let small = Case {
            party: 258,
            head: b"a".to_vec(),
            part: b"bc".to_vec(),
            record: vec![1, u32::MAX, 2],
        };
        let words = b"\x02\x01\0\0\x01\0\0\0\x02\0\0\0\x03\0\0\0";
        let lists = b"abc\x01\0\0\0\xff\xff\xff\xff\x02\0\0\0";
        assert_eq!(small.to_bytes(), [&words[..], lists].concat());
        let empty = Case {
            party: u32::MAX,
            head: vec![],
            part: vec![],
            record: vec![],
        };
        let cases = vec![small, empty, case(&[7, 9, 11])];
        let bytes: Vec<u8> = cases.iter().flat_map(Case::to_bytes).collect();
        assert_eq!(read_all(&bytes), Ok(cases));
    }

    #[test]
    fn refuses_bytes_that_are_no_cases() {
        let bytes = case(&[7, 9, 11]).to_bytes();
        for length in [1, 15, 16, 31, 32, 35, 36, bytes.len() - 1] {
            assert!(read_all(&bytes[..length]).is_err());
        }
        let said = "case 0: its record is cut off";
        assert_eq!(read_all(&bytes[..40]), Err(said.to_owned()));
        let longer = case(&vec![0; LONGEST_RECORD + 1]).to_bytes();
        let said = "case 0: its record has the length 12001, and at most 12000 is allowed";
        assert_eq!(read_all(&longer), Err(said.to_owned()));
    }
}
