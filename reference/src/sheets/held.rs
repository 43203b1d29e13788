//! Small sheets that hold the model's definitions: crate model computes the run of each, and the stored cases have them too.

mod commands;
mod fields;
mod present;
mod refused;
mod scripts;
mod stops;

use super::draft::Draft;
use crate::present::everyone_of;
use crate::run::{run, Answer};
use crate::run_case::Case;
use crate::table::{RECORD, REVEALED};

/// What every number of both buffers is before the run, in the model's tables.
pub const FILLING: u32 = 99;

/// A sheet by its header's bytes, its script and its shares, with the lengths of the lent buffers.
#[derive(Clone, Debug, PartialEq)]
pub struct Held {
    /// What the sheet is for. It starts with the number that the paper says, and with none where that is 0.
    pub says: &'static str,
    pub header: Vec<u8>,
    pub script: Vec<u8>,
    pub shares: Vec<u32>,
    /// Bit j - 1 says that party j is present.
    pub present: u8,
    pub record: usize,
    pub revealed: usize,
}

/// What a run leaves.
pub struct Left {
    pub answer: Answer,
    pub record: Vec<u32>,
    pub revealed: Vec<u32>,
}

impl Held {
    /// A sheet with everyone present, three numbers lent for the record and one for the revealed list.
    fn plain(says: &'static str, header: &[u8], script: &[u8], shares: &[u32]) -> Held {
        Held {
            says,
            header: header.to_vec(),
            script: script.to_vec(),
            shares: shares.to_vec(),
            present: everyone_of(header),
            record: 3,
            revealed: 1,
        }
    }

    /// A draft's sheet with everyone present and buffers of these lengths.
    fn of(says: &'static str, draft: &Draft, record: usize, revealed: usize) -> Held {
        let bytes = draft.to_bytes();
        let (header, rest) = bytes.split_at(11);
        let (script, rows) = rest.split_at(draft.script.len());
        let word = |four: &[u8]| u32::from_le_bytes([four[0], four[1], four[2], four[3]]);
        let shares: Vec<u32> = rows.chunks_exact(4).map(word).collect();
        Held {
            record,
            revealed,
            ..Held::plain(says, header, script, &shares)
        }
    }

    /// A draft's sheet with buffers that take all it writes, and a number more.
    fn with_room(says: &'static str, draft: &Draft) -> Held {
        let held = Held::of(says, draft, RECORD, REVEALED);
        let answer = held.left().answer;
        Held {
            record: answer.openings * usize::from(draft.parties) + 1,
            revealed: answer.revealed + 1,
            ..held
        }
    }

    /// The same with other parties present.
    fn with_present(self, present: u8) -> Held {
        Held { present, ..self }
    }

    pub fn bytes(&self) -> Vec<u8> {
        let shares = self.shares.iter().flat_map(|share| share.to_le_bytes());
        let start = self.header.iter().chain(&self.script).copied();
        start.chain(shares).collect()
    }

    pub fn left(&self) -> Left {
        let mut record = vec![FILLING; self.record];
        let mut revealed = vec![FILLING; self.revealed];
        Left {
            answer: run(&self.bytes(), self.present, &mut record, &mut revealed),
            record,
            revealed,
        }
    }

    fn case(&self) -> Case {
        Case {
            sheet: self.bytes(),
            present: self.present,
            record: self.record,
            revealed: self.revealed,
        }
    }
}

/// Sheets that 1 to 8 refuse, and the last that they let through.
pub fn sheets() -> Vec<Held> {
    refused::all()
}

/// Scripts that 9 to 11 refuse, and the last that they let through.
pub fn scripts() -> Vec<Held> {
    scripts::all()
}

/// Runs of the commands that take no mask, and the numbers 21 to 26.
pub fn runs() -> Vec<Held> {
    let mut all = commands::plain();
    all.extend(fields::linear());
    all.extend(stops::all());
    all
}

/// Runs of the commands that take a mask.
pub fn masked() -> Vec<Held> {
    let mut all = commands::masked();
    all.extend(fields::masked());
    all
}

/// Runs with absent parties, and the sets that 12 refuses.
pub fn present() -> Vec<Held> {
    present::all()
}

pub fn all() -> Vec<Held> {
    [sheets(), scripts(), runs(), masked(), present()].concat()
}

/// All of them, as the stored cases have them.
pub fn cases() -> Vec<Case> {
    all().iter().map(Held::case).collect()
}

/// The number that a comment starts with, before a colon or "before"; else 0.
pub fn number_said(says: &str) -> u32 {
    let (start, rest) = says.split_at(says.find(|c: char| !c.is_ascii_digit()).unwrap_or(0));
    if rest.starts_with(':') || rest.starts_with(" before ") {
        start.parse().unwrap_or(0)
    } else {
        0
    }
}

#[cfg(test)]
mod tests {
    use super::*;

    #[test]
    fn each_comment_starts_with_the_number_answered() {
        for held in all() {
            let number = held.left().answer.number;
            assert_eq!(number, number_said(held.says), "{held:?}");
        }
    }

    #[test]
    fn every_number_is_answered() {
        let all = all();
        for number in (0..=12).chain(21..=26) {
            let found = all.iter().filter(|held| number_said(held.says) == number);
            assert!(found.count() >= 2, "{number}");
        }
    }

    /// Rows of these tables do not say who is present.
    #[test]
    fn everyone_is_present_but_in_the_table_of_present_parties() {
        for held in [sheets(), scripts(), runs(), masked()].concat() {
            assert_eq!(held.present, everyone_of(&held.header), "{}", held.says);
        }
    }

    #[test]
    fn sheets_are_refused_at_place_0_and_leave_nothing() {
        for held in sheets() {
            let left = held.left();
            assert_eq!(left.answer.place, 0, "{}", held.says);
            assert_eq!(left.answer.set, [false; 64]);
            assert_eq!((left.record, left.revealed), (vec![99; 3], vec![99]));
        }
    }

    /// The places, counted by hand.
    #[test]
    fn scripts_are_refused_at_the_places_of_the_paper() {
        for (script, number, place) in [
            (&[1, 0][..], 10, 2),
            (&[1, 0, 0, 0], 10, 3),
            (&[0, 0], 10, 1),
            (&[1, 0, 15, 0], 9, 2),
            (&[1, 0, 3, 64, 0], 10, 2),
            (&[1, 0, 2, 64, 4, 0, 0, 0, 0], 11, 2),
            (&[1, 0, 13, 1, 3, 3, 4, 0, 0, 0], 10, 10),
        ] {
            let found = scripts().into_iter().find(|held| held.script == script);
            let answer = found.expect("the script is in the table").left().answer;
            assert_eq!((answer.number, answer.place), (number, place), "{script:?}");
        }
    }

    /// -1 and -4 are below 0.
    #[test]
    fn signs_are_those_that_the_comments_say() {
        for (says, signs) in [
            ("LTZS k=2 of -1 and 1: 1, 0", [1, 0]),
            ("LTZS k=3 of 3 and -4, d = a: 0, 1", [0, 1]),
        ] {
            let found = masked().into_iter().find(|held| held.says == says);
            let left = found.expect("the run is in the table").left();
            assert_eq!(left.revealed[..2], signs, "{says}");
        }
    }

    /// After a refusal of LTZS the two constants before it stand, and nothing else.
    #[test]
    fn refused_signs_leave_nothing() {
        let all = runs();
        let signs = all.iter().filter(|held| held.says.contains("LTZS"));
        let refused: Vec<_> = signs.filter(|held| number_said(held.says) > 0).collect();
        assert_eq!(refused.len(), 4);
        for held in refused {
            let Left { answer, record, .. } = held.left();
            assert_eq!(answer.place, 12, "{}", held.says);
            assert_eq!((answer.masks, answer.triples, answer.openings), (0, 0, 0));
            assert_eq!(answer.set.iter().filter(|&&set| set).count(), 2);
            assert!(record.iter().all(|&number| number == FILLING));
        }
    }

    /// What the commands leave, by the paper's formulas: TRUNC of -3 by 2 is -2, LTZ of -1 is 1, and so on.
    #[test]
    fn revealed_values_are_those_that_the_comments_say() {
        for (says, value) in [
            ("TRUNC m=1, -3: -2, that is 11", 11),
            ("TRUNC m=2, 3: 0", 0),
            ("LTZ -1: 1", 1),
            ("LTZ k=2 of 1: 0", 0),
            ("LTZ of 4, out of range: 12", 12),
            ("OVER v=2 of 3: 1", 1),
            ("OVER k=2 v=2 of 2: 0", 0),
            ("BLOCKS m=1, 2: 1, and no second one is begun", 1),
            ("BLOCKS m=1, 1: 1, which is begun", 1),
            (
                "BLOCKS m=2, 6: 12; 6 + 3 is out of range, though 9 - 13 is in it",
                12,
            ),
            (
                "BLOCKS k=2 m=1, -3: 12; -3 + 1 is the lowest number in range",
                12,
            ),
            (
                "BLOCKS k=2 m=1, -4: 5; -4 + 1 is out of range, though with k=3 it is in it",
                5,
            ),
            ("MOD m=2, -1: 3", 3),
            ("field 1, MOD k=7 m=2, -41: 3", 3),
        ] {
            let found = masked().into_iter().find(|held| held.says == says);
            let left = found.expect("the run is in the table").left();
            assert_eq!(left.revealed, [value, FILLING], "{says}");
        }
    }
}
