//! A sheet with the parties that are present and the lengths of the lent buffers, its form as bytes, and
//! the lines of its answer.

use crate::present::everyone_of;
use crate::run::{run, Answer};
use crate::stored_bytes::{read_each, with_lengths};
use crate::table::{end_line, RECORD, REVEALED};

pub const LONGEST_RECORD: usize = 12_000;
pub const LONGEST_REVEALED: usize = 600;

/// What every number of both buffers is before the run.
pub const FILLING: u32 = 7_777_777;

#[derive(Clone, Debug, PartialEq)]
pub struct Case {
    pub sheet: Vec<u8>,
    /// Bit j - 1 says that party j is present.
    pub present: u8,
    pub record: usize,
    pub revealed: usize,
}

/// What a run leaves.
pub struct Outcome {
    pub answer: Answer,
    pub record: Vec<u32>,
    pub revealed: Vec<u32>,
}

impl Case {
    /// The sheet with everyone present, and buffers that take all it writes, and some numbers more.
    pub fn with_room(sheet: Vec<u8>) -> Case {
        let present = everyone_of(&sheet);
        let answer = run(&sheet, present, &mut [0; RECORD], &mut [0; REVEALED]);
        let parties = sheet.get(1).map_or(0, |&n| usize::from(n));
        Case {
            present,
            record: answer.openings * parties + 3,
            revealed: answer.revealed + 2,
            sheet,
        }
    }

    /// The same with other parties present: what is written has the same length for every permitted set.
    pub fn with_present(self, present: u8) -> Case {
        Case { present, ..self }
    }

    pub fn outcome(&self) -> Outcome {
        let mut record = vec![FILLING; self.record];
        let mut revealed = vec![FILLING; self.revealed];
        Outcome {
            answer: run(&self.sheet, self.present, &mut record, &mut revealed),
            record,
            revealed,
        }
    }

    /// Three little-endian words, the lengths of sheet, record and revealed list; the byte of the present
    /// parties; then the sheet.
    pub fn to_bytes(&self) -> Vec<u8> {
        let lengths = [self.sheet.len(), self.record, self.revealed];
        with_lengths(&lengths, &[&[self.present], &self.sheet[..]].concat())
    }
}

/// Reads the cases that the bytes consist of.
pub fn read_all(bytes: &[u8]) -> Result<Vec<Case>, String> {
    read_each(bytes, read_one)
}

fn read_one(bytes: &[u8]) -> Result<(Case, &[u8]), String> {
    let (lengths, rest) = bytes
        .split_at_checked(12)
        .ok_or("its lengths are cut off")?;
    let length = |i: usize| {
        let word = &lengths[4 * i..][..4];
        u32::from_le_bytes([word[0], word[1], word[2], word[3]]) as usize
    };
    let (&present, rest) = rest.split_first().ok_or("who is present is cut off")?;
    let (sheet, rest) = rest
        .split_at_checked(length(0))
        .ok_or("its sheet is cut off")?;
    let case = Case {
        sheet: sheet.to_vec(),
        present,
        record: length(1),
        revealed: length(2),
    };
    check_length("record", case.record, LONGEST_RECORD)?;
    check_length("revealed list", case.revealed, LONGEST_REVEALED)?;
    Ok((case, rest))
}

fn check_length(name: &str, length: usize, longest: usize) -> Result<(), String> {
    if length > longest {
        return Err(format!(
            "its {name} is to have {length} numbers, and at most {longest} are allowed"
        ));
    }
    Ok(())
}

/// The end, the set registers, how many cells of unset ones are 0, and both buffers. All cells of
/// unset registers are to be 0, so there are seven for each.
pub fn lines(case: &Case) -> String {
    let Outcome {
        answer,
        record,
        revealed,
    } = case.outcome();
    let mut lines = end_line(&answer);
    let mut rest = 0;
    for (register, (cells, &set)) in answer.registers.iter().zip(&answer.set).enumerate() {
        if set {
            lines += &format!("register {register}{}\n", list(cells));
        } else {
            rest += cells.iter().filter(|&&cell| cell == 0).count();
        }
    }
    lines += &format!("rest {rest}\n");
    lines += &format!("record{}\n", list(&record));
    lines + &format!("revealed{}\n", list(&revealed))
}

/// Each number with a space before it.
fn list(numbers: &[u32]) -> String {
    numbers.iter().map(|number| format!(" {number}")).collect()
}

#[cfg(test)]
mod tests {
    use super::*;
    use crate::sheets::bench;

    #[test]
    fn lines_show_the_whole_answer() {
        let case = Case::with_room(bench::small());
        assert_eq!((case.record, case.revealed), (12, 3));
        let expected = "\
end 0 at 10 inputs 2 masks 0 triples 1 openings 3
register 0 7 9 11 0 0 0 0
register 1 7 11 2 0 0 0 0
register 2 7 12 4 0 0 0 0
rest 427
record 5 6 7 2 3 4 7 12 4 7777777 7777777 7777777
revealed 2 7777777 7777777
";
        assert_eq!(lines(&case), expected);
    }

    /// The product of the paper's printed run is worked from shares 2 and 3: 3 times 6 less 2 times 7 is
    /// 4, as is 2 times 5 less 6. Party 1's column is worked like the others.
    #[test]
    fn an_absent_party_has_registers_and_no_share_in_the_record() {
        let everyone = Case::with_room(bench::small());
        let expected =
            lines(&everyone).replace("record 5 6 7 2 3 4 7 12 4", "record 13 6 7 13 3 4 13 12 4");
        assert_eq!(lines(&everyone.with_present(0b110)), expected);
    }

    /// The product takes six shares, so nothing of it is done where the record takes five.
    #[test]
    fn empty_buffers_are_words_alone() {
        let case = |record| Case {
            record,
            revealed: 0,
            ..Case::with_room(bench::small())
        };
        let expected = "\
end 25 at 4 inputs 2 masks 0 triples 0 openings 0
register 0 7 9 11 0 0 0 0
register 1 7 11 2 0 0 0 0
rest 434
record
revealed
";
        assert_eq!(lines(&case(0)), expected);
        let filling = " 7777777".repeat(5);
        let expected = expected.replace("record", &format!("record{filling}"));
        assert_eq!(lines(&case(5)), expected);
    }

    #[test]
    fn refuses_bytes_that_are_no_cases() {
        let bytes = Case::with_room(bench::small()).to_bytes();
        assert_eq!(read_all(&bytes).map(|cases| cases.len()), Ok(1));
        for length in [1, 11, 12, 13, bytes.len() - 1] {
            assert!(read_all(&bytes[..length]).is_err());
        }
        for (place, value, said) in [
            (
                6,
                1,
                "its record is to have 65548 numbers, and at most 12000 are allowed",
            ),
            (
                9,
                3,
                "its revealed list is to have 771 numbers, and at most 600 are allowed",
            ),
        ] {
            let mut bytes = bytes.clone();
            bytes[place] = value;
            assert_eq!(read_all(&bytes), Err(format!("case 0: {said}")));
        }
    }
}
