//! A finished run done again for one party alone, from its own shares and the record: one column of the
//! table, and the counts.

pub mod case;
mod change;
mod dealt;
pub mod drawn;
mod fault;
pub mod held;
mod machine;
mod part;
mod record;
pub mod recorded;
mod steps;
pub mod stored;

use crate::refusal;
use crate::run::REGISTERS;
use crate::script::{self, Line, Refused};
use crate::sheet::header::{self, Header};
use machine::Machine;
use part::Part;
use record::Record;

/// What the finished commands have taken and opened.
#[derive(Clone, Copy, Debug, Default, PartialEq, Eq)]
pub struct Counts {
    pub inputs: usize,
    pub masks: usize,
    pub triples: usize,
    pub openings: usize,
    /// How many REVEALs finished.
    pub revealed: usize,
}

#[derive(Clone, Debug, PartialEq, Eq)]
pub struct Answer {
    pub number: u32,
    pub place: usize,
    /// The party's cell of each register, 0 where the register is unset.
    pub cells: [u32; REGISTERS],
    pub counts: Counts,
}

/// Replays the party's column: `head` is header and script, `part` the party's part of the column form, and
/// `record` what the run recorded.
pub fn replay(party: u32, head: &[u8], part: &[u8], record: &[u32]) -> Answer {
    match read(party, head, part) {
        Ok((header, part, lines)) => {
            let record = Record::new(&header, record);
            Machine::new(&header, party as usize, &part, record).run(&lines)
        }
        Err(refused) => without_run(refused),
    }
}

/// Tries 1 to 5, then 9 to 11.
fn read(party: u32, head: &[u8], part: &[u8]) -> Result<(Header, Part, Vec<Line>), Refused> {
    let (header, part) =
        read_shares(party, head, part).map_err(|number| Refused { number, place: 0 })?;
    let lines = script::read(&head[header::BYTES..], header.field)?;
    Ok((header, part, lines))
}

/// Tries 1 to 5.
fn read_shares(party: u32, head: &[u8], part: &[u8]) -> Result<(Header, Part), u32> {
    let header = Header::begin(head)?;
    if !(1..=header.parties as u32).contains(&party) {
        return Err(refusal::PARTIES);
    }
    let right = header.is_within_limits()
        && header.head_length() == head.len()
        && header.part_length() == part.len();
    if !right {
        return Err(refusal::LENGTH);
    }
    let part = Part::read(&header, part)?;
    Ok((header, part))
}

fn without_run(refused: Refused) -> Answer {
    Answer {
        number: refused.number,
        place: refused.place,
        cells: [0; REGISTERS],
        counts: Counts::default(),
    }
}

#[cfg(test)]
mod tests {
    use super::*;

    /// The paper's printed run: LOAD 0, LOAD 1, MUL 2 0 1, REVEAL 2 and END.
    const HEAD: [u8; 22] = [
        0, 3, 1, 2, 0, 0, 0, 1, 0, 11, 0, //
        1, 0, 1, 1, 6, 2, 0, 1, 12, 2, 0,
    ];

    /// Inputs and triple of each party, from the paper's rows.
    const PARTS: [[u32; 5]; 3] = [[7, 7, 2, 5, 7], [9, 11, 3, 8, 12], [11, 2, 4, 11, 4]];

    const RECORD: [u32; 9] = [5, 6, 7, 2, 3, 4, 7, 12, 4];

    fn part(party: u32) -> Vec<u8> {
        let shares = PARTS[party as usize - 1];
        shares
            .iter()
            .flat_map(|share| share.to_le_bytes())
            .collect()
    }

    fn number(party: u32, record: &[u32]) -> (u32, usize) {
        let answer = replay(party, &HEAD, &part(party), record);
        (answer.number, answer.place)
    }

    /// Number and place with one number of the record changed.
    fn changed(party: u32, place: usize, number_there: u32) -> (u32, usize) {
        let mut record = RECORD;
        record[place] = number_there;
        number(party, &record)
    }

    #[test]
    fn every_party_replays_the_run_of_the_paper() {
        for (party, cells) in [(1, [7, 7, 7]), (2, [9, 11, 12]), (3, [11, 2, 4])] {
            let answer = replay(party, &HEAD, &part(party), &RECORD);
            assert_eq!((answer.number, answer.place), (0, 10));
            assert_eq!(answer.cells[..3], cells);
            assert_eq!(answer.cells[3..], [0; 61]);
            let counts = Counts {
                inputs: 2,
                masks: 0,
                triples: 1,
                openings: 3,
                revealed: 1,
            };
            assert_eq!(answer.counts, counts);
        }
    }

    #[test]
    fn a_refused_command_leaves_what_was_before_it() {
        let answer = replay(1, &HEAD, &part(1), &RECORD[..5]);
        assert_eq!((answer.number, answer.place), (43, 4));
        assert_eq!(answer.cells[..3], [7, 7, 0]);
        let counts = Counts {
            inputs: 2,
            ..Counts::default()
        };
        assert_eq!(answer.counts, counts);
    }

    #[test]
    fn a_record_is_short_where_an_opening_is_not_whole() {
        for length in 0..6 {
            assert_eq!(number(2, &RECORD[..length]), (43, 4));
        }
        for length in 6..9 {
            assert_eq!(number(2, &RECORD[..length]), (43, 8));
        }
        assert_eq!(number(2, &[&RECORD[..], &[99, 13]].concat()), (0, 10));
    }

    #[test]
    fn shares_are_to_be_on_one_polynomial() {
        for party in 1..=3 {
            for place in 0..9 {
                let command = if place < 6 { 4 } else { 8 };
                let other = (RECORD[place] + 1) % 13;
                assert_eq!(changed(party, place, other), (42, command));
                assert_eq!(changed(party, place, 14), (42, command));
                assert_eq!(changed(party, place, 13), (0, 10));
            }
        }
        // party 1 alone is present at the second opening
        assert_eq!(number(1, &[5, 6, 7, 2, 13, 13, 7, 12, 4]), (42, 4));
    }

    /// Another line, 1 2 3: its shares are not the party's own.
    #[test]
    fn the_own_share_is_compared_where_it_is_present() {
        let other = [1, 2, 3, 2, 3, 4, 7, 12, 4];
        assert_eq!(number(1, &other), (41, 4));
        let absent = [13, 2, 3, 2, 3, 4, 7, 12, 4];
        // the value of the first opening is 0 and not 4, so the product's share is 11 less
        assert_eq!(number(1, &absent), (41, 8));
        let absent = [13, 2, 3, 2, 3, 4, 13, 12, 4];
        let answer = replay(1, &HEAD, &part(1), &absent);
        // 7 + 0 times 5 + 1 times 2 + 0 times 1
        assert_eq!((answer.number, answer.cells[2]), (0, 9));
    }

    #[test]
    fn a_party_is_one_of_the_n() {
        for party in [0, 4, 7, 256 + 1, u32::MAX] {
            let answer = replay(party, &HEAD, &part(1), &RECORD);
            assert_eq!((answer.number, answer.place), (3, 0));
            assert_eq!(answer.cells, [0; REGISTERS]);
        }
    }
}
