//! What a call leaves in everything that its caller lends, and where two calls differ.

pub mod forecasts;
mod replayed;
pub mod summed;
mod turned;

pub use forecasts::Forecast;
pub use replayed::Replayed;
pub use turned::Turned;

use std::fmt::Display;

use crate::calls;
use crate::case::Case;
use crate::cases::generator::Generator;
use crate::run;
use crate::sharing::{recover, share};
use crate::signed::{decode, encode};
use crate::summing::sum;

pub const CELLS: usize = 448;
pub const MARKS: usize = 64;
pub const COUNTS: usize = 6;

/// The lengths of the lists that a run of the library fills besides its two buffers.
#[derive(Clone, Copy, Debug, PartialEq)]
pub struct Lengths {
    pub registers: usize,
    pub marks: usize,
    pub counts: usize,
}

impl Lengths {
    pub const WHOLE: Lengths = Lengths {
        registers: CELLS,
        marks: MARKS,
        counts: COUNTS,
    };

    /// Mostly the whole lists; else each of them whole, longer or too short.
    pub fn draw(generator: &mut Generator) -> Lengths {
        if generator.below(4) > 0 {
            return Lengths::WHOLE;
        }
        let mut length = |whole| drawn_length(generator, whole);
        Lengths {
            registers: length(CELLS),
            marks: length(MARKS),
            counts: length(COUNTS),
        }
    }
}

/// Mostly the whole list, else too short or longer.
fn drawn_length(generator: &mut Generator, whole: usize) -> usize {
    match generator.below(4) {
        0 => generator.below(whole as u32) as usize,
        1 => whole + 1 + generator.below(9) as usize,
        _ => whole,
    }
}

/// What a run answers, and all that it writes to.
#[derive(Clone, Debug, PartialEq)]
pub struct Ran {
    pub number: u32,
    pub record: Vec<u32>,
    pub revealed: Vec<u32>,
    pub registers: Vec<u32>,
    pub marks: Vec<u8>,
    pub counts: Vec<u64>,
}

impl Ran {
    /// Before the run: numbers that no run writes. In the buffers no two are the same.
    pub fn before(record: usize, revealed: usize, lengths: Lengths) -> Ran {
        Ran {
            number: u32::MAX,
            record: filling(record),
            revealed: filling(revealed),
            registers: filling(lengths.registers),
            marks: vec![0xA5; lengths.marks],
            counts: (u64::MAX - 100..).take(lengths.counts).collect(),
        }
    }

    /// Runs the sheet by the reference, with these parties present.
    pub fn by_reference(&mut self, sheet: &[u8], present: u8) {
        let answer = run::run(sheet, present, &mut self.record, &mut self.revealed);
        self.number = answer.number;
        put(&mut self.registers, answer.registers.into_iter().flatten());
        put(&mut self.marks, answer.set.into_iter().map(u8::from));
        let counts = [
            answer.place,
            answer.inputs,
            answer.masks,
            answer.triples,
            answer.openings,
            answer.revealed,
        ];
        put(&mut self.counts, counts.map(|count| count as u64));
    }

    /// Where the library's run differs first from this one, the reference's.
    pub fn difference(&self, library: &Ran) -> Option<String> {
        difference("number", self.number, library.number)
            .or_else(|| list_difference("counts", &self.counts, &library.counts))
            .or_else(|| list_difference("marks", &self.marks, &library.marks))
            .or_else(|| list_difference("registers", &self.registers, &library.registers))
            .or_else(|| list_difference("record", &self.record, &library.record))
            .or_else(|| list_difference("revealed", &self.revealed, &library.revealed))
    }
}

/// What one of the small entries answers, and all that it writes to.
#[derive(Clone, Debug, PartialEq)]
pub struct Entered {
    pub number: u32,
    /// The secret, the value, the signed number or the sum, which all fit; 0 for sharing, which has
    /// none.
    pub value: i128,
    pub lent: Vec<u32>,
}

impl Entered {
    /// Calls the reference.
    pub fn by_reference(case: &Case) -> Entered {
        let mut lent = Vec::new();
        let (number, value) = match case {
            Case::Share(call) => {
                lent.clone_from(&call.lent);
                let (n, t) = (call.parties, call.threshold);
                let number = share(call.field, n, t, call.secret, &call.coefficients, &mut lent);
                (number, 0)
            }
            Case::Recover(call) => {
                lent.clone_from(&call.lent);
                let (n, t) = (call.parties, call.threshold);
                let (number, secret) = recover(call.field, n, t, &call.row, &mut lent);
                (number, i128::from(secret))
            }
            Case::Encode { field, k, a } => {
                let (number, value) = encode(*field, *k, *a);
                (number, i128::from(value))
            }
            Case::Decode { field, v } => {
                let (number, signed) = decode(*field, *v);
                (number, i128::from(signed))
            }
            Case::Sum(call) => {
                let (number, sum) = sum(call.field, call.parties, call.threshold, &call.row);
                (number, i128::from(sum))
            }
        };
        Entered {
            number,
            value,
            lent,
        }
    }

    /// Where the library's call differs first from this one, the reference's.
    pub fn difference(&self, library: &Entered) -> Option<String> {
        difference("number", self.number, library.number)
            .or_else(|| difference("value", self.value, library.value))
            .or_else(|| list_difference("lent", &self.lent, &library.lent))
    }
}

/// What the import of a list answers, and all that it writes to.
#[derive(Clone, Debug, PartialEq)]
pub struct Imported {
    pub number: u32,
    pub calls: u64,
    pub seconds: Vec<u32>,
}

impl Imported {
    /// Before the import: numbers that none writes.
    pub fn before(lent: usize) -> Imported {
        Imported {
            number: u32::MAX,
            calls: u64::MAX,
            seconds: filling(lent),
        }
    }

    /// Imports the list by the reference.
    pub fn by_reference(&mut self, list: &[u8]) {
        let (number, calls) = calls::import(list, &mut self.seconds);
        self.number = number;
        self.calls = calls as u64;
    }

    /// Where the library's import differs first from this one, the reference's.
    pub fn difference(&self, library: &Imported) -> Option<String> {
        difference("number", self.number, library.number)
            .or_else(|| difference("calls", self.calls, library.calls))
            .or_else(|| list_difference("seconds", &self.seconds, &library.seconds))
    }
}

/// Numbers above every modulus and every call's seconds, no two the same.
fn filling(length: usize) -> Vec<u32> {
    (4_000_000_001..).take(length).collect()
}

/// As many values as the list has places for; past them it is unchanged.
fn put<T>(list: &mut [T], values: impl IntoIterator<Item = T>) {
    for (place, value) in list.iter_mut().zip(values) {
        *place = value;
    }
}

fn difference<T: PartialEq + Display>(name: &str, reference: T, library: T) -> Option<String> {
    let differ = reference != library;
    differ.then(|| format!("{name}: reference {reference}, library {library}"))
}

fn list_difference<T: PartialEq + Display>(
    name: &str,
    reference: &[T],
    library: &[T],
) -> Option<String> {
    if reference.len() != library.len() {
        let name = format!("length of {name}");
        return difference(&name, reference.len(), library.len());
    }
    let place = (0..reference.len()).find(|&place| reference[place] != library[place])?;
    let name = format!("{name}[{place}]");
    difference(&name, &reference[place], &library[place])
}

#[cfg(test)]
mod tests {
    use super::*;
    use crate::cases::{case_for, sum_for};
    use crate::present::everyone;
    use crate::sheets::{bench, sheet_for};

    fn ran(lengths: Lengths) -> Ran {
        let mut ran = Ran::before(12, 3, lengths);
        ran.by_reference(&bench::small(), everyone(3));
        ran
    }

    #[test]
    fn a_run_is_told_whole() {
        let ran = ran(Lengths::WHOLE);
        assert_eq!((ran.number, &ran.counts[..]), (0, &[10, 2, 0, 1, 3, 1][..]));
        assert_eq!(ran.registers[14..18], [7, 12, 4, 0]);
        assert_eq!((ran.marks[2], ran.marks[3]), (1, 0));
        assert_eq!(ran.record[..9], [5, 6, 7, 2, 3, 4, 7, 12, 4]);
        assert_eq!(
            ran.record[9..],
            [4_000_000_010, 4_000_000_011, 4_000_000_012]
        );
        assert_eq!(ran.revealed, [2, 4_000_000_002, 4_000_000_003]);
    }

    #[test]
    fn lists_of_other_lengths_get_what_they_have_places_for() {
        let lengths = Lengths {
            registers: 450,
            marks: 3,
            counts: 7,
        };
        let ran = ran(lengths);
        assert_eq!(ran.registers[447..], [0, 4_000_000_449, 4_000_000_450]);
        assert_eq!(ran.marks, [1, 1, 1]);
        assert_eq!(ran.counts[4..], [3, 1, u64::MAX - 94]);
    }

    #[test]
    fn every_change_of_a_run_is_a_difference() {
        let whole = ran(Lengths::WHOLE);
        assert_eq!(whole.difference(&whole.clone()), None);
        let seen = |change: &dyn Fn(&mut Ran)| {
            let mut other = whole.clone();
            change(&mut other);
            whole.difference(&other).expect("a difference")
        };
        let number = seen(&|ran| ran.number = 4);
        assert_eq!(number, "number: reference 0, library 4");
        let triples = seen(&|ran| ran.counts[3] = 2);
        assert_eq!(triples, "counts[3]: reference 1, library 2");
        for place in 0..COUNTS {
            seen(&|ran| ran.counts[place] += 1);
        }
        for place in 0..MARKS {
            seen(&|ran| ran.marks[place] ^= 1);
        }
        for place in 0..CELLS {
            seen(&|ran| ran.registers[place] += 1);
        }
        for place in 0..12 {
            seen(&|ran| ran.record[place] -= 1);
        }
        for place in 0..3 {
            seen(&|ran| ran.revealed[place] -= 1);
        }
        let shorter = seen(&|ran| ran.record.truncate(11));
        assert_eq!(shorter, "length of record: reference 12, library 11");
    }

    #[test]
    fn a_refused_sheet_leaves_both_buffers() {
        let case = sheet_for(1, 0);
        let before = Ran::before(case.record, case.revealed, Lengths::WHOLE);
        let mut ran = before.clone();
        ran.by_reference(&case.sheet[..10], case.present);
        assert_eq!((ran.number, &ran.counts), (1, &vec![0; COUNTS]));
        assert_eq!((ran.registers, ran.marks), (vec![0; CELLS], vec![0; MARKS]));
        assert_eq!((ran.record, ran.revealed), (before.record, before.revealed));
    }

    #[test]
    fn every_change_of_an_entry_is_a_difference() {
        for case in (0..200).flat_map(|index| [case_for(1, index), sum_for(1, index)]) {
            let entered = Entered::by_reference(&case);
            assert_eq!(entered.difference(&entered.clone()), None);
            let mut other = entered.clone();
            other.value += 1;
            assert!(entered.difference(&other).is_some());
            for place in 0..entered.lent.len() {
                let mut other = entered.clone();
                other.lent[place] ^= 1;
                assert!(entered.difference(&other).is_some());
            }
        }
    }

    #[test]
    fn every_change_of_an_import_is_a_difference() {
        let mut before = Imported::before(3);
        let filling = [4_000_000_001, 4_000_000_002, 4_000_000_003];
        assert_eq!(before.seconds, filling);
        before.by_reference(b"a,1,2,9\r\nb");
        let imported = before;
        assert_eq!((imported.number, imported.calls), (31, 1));
        assert_eq!(imported.seconds, [7, filling[1], filling[2]]);
        assert_eq!(imported.difference(&imported.clone()), None);
        let seen = |change: &dyn Fn(&mut Imported)| {
            let mut other = imported.clone();
            change(&mut other);
            imported.difference(&other).expect("a difference")
        };
        let number = seen(&|other| other.number = 32);
        assert_eq!(number, "number: reference 31, library 32");
        let calls = seen(&|other| other.calls = 2);
        assert_eq!(calls, "calls: reference 1, library 2");
        for place in 0..3 {
            seen(&|other| other.seconds[place] += 1);
        }
    }
}
