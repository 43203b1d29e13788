//! What a replay leaves, and where two replays, or a replay and the run, differ.

use super::{difference, drawn_length, filling, list_difference, put, Ran, COUNTS};
use crate::cases::generator::Generator;
use crate::replay::case::Case;
use crate::replay::Answer;
use crate::row::MOST_PARTIES;
use crate::run::REGISTERS;

/// What a replay answers, and the lists that it writes to.
#[derive(Clone, Debug, PartialEq)]
pub struct Replayed {
    pub number: u32,
    pub cells: Vec<u32>,
    /// Place, inputs, masks, triples, openings and how many values were revealed.
    pub counts: Vec<u64>,
}

impl Replayed {
    /// Before the replay: numbers that none writes.
    pub fn before() -> Replayed {
        Replayed::with_lengths(REGISTERS, COUNTS)
    }

    /// The same, at times with lists that are too short or too long.
    pub fn drawn_before(generator: &mut Generator) -> Replayed {
        if generator.below(4) > 0 {
            return Replayed::before();
        }
        let mut length = |whole| drawn_length(generator, whole);
        Replayed::with_lengths(length(REGISTERS), length(COUNTS))
    }

    fn with_lengths(cells: usize, counts: usize) -> Replayed {
        Replayed {
            number: u32::MAX,
            cells: filling(cells),
            counts: (u64::MAX - 100..).take(counts).collect(),
        }
    }

    /// Replays by the reference.
    pub fn by_reference(&mut self, case: &Case) {
        let Answer {
            number,
            place,
            cells,
            counts,
        } = case.answer();
        self.number = number;
        put(&mut self.cells, cells);
        let counts = [
            place,
            counts.inputs,
            counts.masks,
            counts.triples,
            counts.openings,
            counts.revealed,
        ];
        put(&mut self.counts, counts.map(|count| count as u64));
    }

    /// Where the library's replay differs first from this one, the reference's.
    pub fn difference(&self, library: &Replayed) -> Option<String> {
        difference("number", self.number, library.number)
            .or_else(|| list_difference("counts", &self.counts, &library.counts))
            .or_else(|| list_difference("cells", &self.cells, &library.cells))
    }

    /// Where this replay differs from the column and the counts of the run, all lists being whole.
    pub fn run_difference(&self, party: usize, ran: &Ran) -> Option<String> {
        let cells = ran.registers.chunks_exact(MOST_PARTIES);
        let expected = Replayed {
            number: ran.number,
            cells: cells.map(|cells| cells[party - 1]).collect(),
            counts: ran.counts.clone(),
        };
        let differ = expected != *self;
        differ.then(|| format!("party {party} of the run {expected:?}, its replay {self:?}"))
    }
}

#[cfg(test)]
mod tests {
    use super::super::Lengths;
    use super::*;
    use crate::present::everyone;
    use crate::replay::recorded::Recorded;
    use crate::sheets::bench;

    fn replayed(before: Replayed) -> Replayed {
        let recorded = Recorded::of(&bench::small(), everyone(3)).unwrap();
        let mut replayed = before;
        replayed.by_reference(&recorded.case(2));
        replayed
    }

    #[test]
    fn a_replay_is_told_whole() {
        let whole = replayed(Replayed::before());
        assert_eq!((whole.number, &whole.cells[..4]), (0, &[9, 11, 12, 0][..]));
        assert_eq!(whole.counts, [10, 2, 0, 1, 3, 1]);
        let other = replayed(Replayed::with_lengths(66, 3));
        assert_eq!(other.cells[63..], [0, 4_000_000_065, 4_000_000_066]);
        assert_eq!(other.counts, [10, 2, 0]);
        let longer = replayed(Replayed::with_lengths(2, 7));
        assert_eq!(longer.cells, [9, 11]);
        assert_eq!(longer.counts[5..], [1, u64::MAX - 94]);
    }

    #[test]
    fn every_change_of_a_replay_is_a_difference() {
        let whole = replayed(Replayed::before());
        assert_eq!(whole.difference(&whole.clone()), None);
        let seen = |change: &dyn Fn(&mut Replayed)| {
            let mut other = whole.clone();
            change(&mut other);
            whole.difference(&other).expect("a difference")
        };
        let number = seen(&|other| other.number = 41);
        assert_eq!(number, "number: reference 0, library 41");
        let cell = seen(&|other| other.cells[2] = 7);
        assert_eq!(cell, "cells[2]: reference 12, library 7");
        for place in 0..REGISTERS {
            seen(&|other| other.cells[place] += 1);
        }
        for place in 0..COUNTS {
            seen(&|other| other.counts[place] += 1);
        }
    }

    #[test]
    fn every_other_column_or_count_of_the_run_is_a_difference() {
        let mut ran = Ran::before(12, 3, Lengths::WHOLE);
        ran.by_reference(&bench::small(), everyone(3));
        let whole = replayed(Replayed::before());
        assert_eq!(whole.run_difference(2, &ran), None);
        assert!(whole.run_difference(1, &ran).is_some());
        for count in 0..COUNTS {
            let mut ran = ran.clone();
            ran.counts[count] += 1;
            assert!(whole.run_difference(2, &ran).is_some());
        }
        ran.number = 24;
        assert!(whole.run_difference(2, &ran).is_some());
    }
}
