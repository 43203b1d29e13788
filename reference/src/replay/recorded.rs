//! Runs of sheets with their records, for their parties to replay.

use super::case::Case;
use super::{Answer, Counts};
use crate::columns::to_columns;
use crate::forecast::head_of;
use crate::run::{self, run};
use crate::table::{RECORD, REVEALED};

/// A sheet's run: what its parties have of the sheet, what was recorded, and how the run ended.
#[derive(Clone, Debug)]
pub struct Recorded {
    pub head: Vec<u8>,
    /// The part of the column form of each party, party 1 first.
    pub parts: Vec<Vec<u8>>,
    pub record: Vec<u32>,
    pub answer: run::Answer,
}

impl Recorded {
    /// The run with these parties present, and buffers that it does not outgrow. None if the input is refused.
    pub fn of(sheet: &[u8], present: u8) -> Option<Recorded> {
        Recorded::with_buffers(sheet, present, (RECORD, REVEALED))
    }

    /// The same with a record and a revealed list of these lengths.
    pub fn with_buffers(
        sheet: &[u8],
        present: u8,
        (record, revealed): (usize, usize),
    ) -> Option<Recorded> {
        let (mut record, mut revealed) = (vec![0; record], vec![0; revealed]);
        let answer = run(sheet, present, &mut record, &mut revealed);
        let parts = parts_of(sheet)?;
        record.truncate(answer.openings * parts.len());
        let head = head_of(sheet).to_vec();
        let is_refused = (1..=12).contains(&answer.number);
        (!is_refused).then_some(Recorded {
            head,
            parts,
            record,
            answer,
        })
    }

    /// The replay of this party, from 1 to n.
    pub fn case(&self, party: usize) -> Case {
        Case {
            party: party as u32,
            head: self.head.clone(),
            part: self.parts[party - 1].clone(),
            record: self.record.clone(),
        }
    }

    /// The replays of all parties, party 1 first.
    pub fn cases(&self) -> Vec<Case> {
        let parties = 1..=self.parts.len();
        parties.map(|party| self.case(party)).collect()
    }

    /// What the party's replay is to answer where the run came to END: its column, and the same counts.
    pub fn column(&self, party: usize) -> Answer {
        let answer = &self.answer;
        Answer {
            number: answer.number,
            place: answer.place,
            cells: answer.registers.map(|cells| cells[party - 1]),
            counts: Counts {
                inputs: answer.inputs,
                masks: answer.masks,
                triples: answer.triples,
                openings: answer.openings,
                revealed: answer.revealed,
            },
        }
    }
}

/// Each party's part of the sheet's column form, if the sheet has one.
pub fn parts_of(sheet: &[u8]) -> Option<Vec<Vec<u8>>> {
    let mut columns = vec![0; sheet.len()];
    if to_columns(sheet, &mut columns) != 0 {
        return None;
    }
    let parties = usize::from(sheet[1]);
    let shares = &columns[head_of(sheet).len()..];
    let length = shares.len() / parties;
    let part = |party| shares[party * length..][..length].to_vec();
    Some((0..parties).map(part).collect())
}

#[cfg(test)]
mod tests {
    use super::*;
    use crate::present::everyone;
    use crate::sheets::bench;

    #[test]
    fn every_party_replays_the_run_of_the_paper() {
        let recorded = Recorded::of(&bench::small(), everyone(3)).unwrap();
        assert_eq!(recorded.record, [5, 6, 7, 2, 3, 4, 7, 12, 4]);
        for (case, party) in recorded.cases().into_iter().zip(1..) {
            assert_eq!(case.answer(), recorded.column(party));
        }
    }

    #[test]
    fn a_refused_sheet_is_not_recorded() {
        let sheet = bench::small();
        assert!(Recorded::of(&sheet[..81], everyone(3)).is_none());
        assert!(Recorded::of(&sheet, 0b100).is_none());
        assert!(Recorded::of(&[], 0).is_none());
    }
}
