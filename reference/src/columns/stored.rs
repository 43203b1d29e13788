//! The stored cases, ordered by subject. All but those of the model's table and the drawn ones say
//! what is answered.

mod bodies;
mod drawn;
mod largest;
mod numbers;
mod room;
mod shapes;

use std::collections::HashSet;

use super::case::Case;
use super::{held, Way};
use crate::cases::generator::Generator;

const SEED: u64 = 0x5EED_000B;

/// An input, the length of its output, and its number, which is the same either way.
type Told = (Vec<u8>, usize, u32);

/// No two are the same: what is chosen for two subjects stands where it comes first.
pub fn all() -> Vec<Case> {
    let mut stored = HashSet::new();
    let mut cases = by_subject();
    cases.retain(|case| stored.insert(case.clone()));
    cases
}

fn by_subject() -> Vec<Case> {
    let mut cases: Vec<Case> = told().iter().flat_map(both_ways).collect();
    cases.extend(bodies::there_and_back());
    cases.extend(held::cases());
    cases.extend(drawn::all());
    cases.extend(largest::all());
    cases
}

fn told() -> Vec<Told> {
    let mut generator = Generator::new(SEED);
    let mut told = numbers::alone(&mut generator);
    told.extend(numbers::in_order(&mut generator));
    told.extend(shapes::all(&mut generator));
    told.extend(room::all(&mut generator));
    told.extend(bodies::all());
    told
}

fn both_ways((input, lent, _): &Told) -> [Case; 2] {
    Way::BOTH.map(|way| Case {
        way,
        input: input.clone(),
        lent: *lent,
    })
}

#[cfg(test)]
mod tests {
    use super::*;
    use crate::columns::case::{lines, read_all};
    use crate::stored_bytes::asked::Stored;

    const STORED: Stored<Case> = Stored {
        all,
        to_bytes: Case::to_bytes,
        read_all,
        lines,
    };

    #[test]
    fn cases_answer_what_is_said() {
        for told in told() {
            for case in both_ways(&told) {
                let header = &told.0[..told.0.len().min(11)];
                assert_eq!(case.outcome().number, told.2, "{header:?} {}", told.1);
            }
        }
    }

    #[test]
    fn cases_are_always_the_same_and_read_back() {
        STORED.is_always_the_same_and_read_back();
    }

    #[test]
    fn no_two_cases_are_the_same() {
        let cases = all();
        let different: HashSet<_> = cases.iter().collect();
        assert_eq!(different.len(), cases.len());
    }

    #[test]
    fn answers_are_within_bounds() {
        STORED.is_within(600..=1_000, 1_500_000);
    }

    #[test]
    fn every_number_is_answered_often_either_way() {
        for way in Way::BOTH {
            for number in [0, 1, 2, 3, 4, 15] {
                let cases = all();
                let of_way = cases.iter().filter(|case| case.way == way);
                let found = of_way.filter(|case| case.outcome().number == number);
                let count = found.count();
                assert!(count >= 10, "{way:?} {number}: {count}");
            }
        }
    }
}
