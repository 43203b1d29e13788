//! The stored cases, ordered by subject. All but those of the model's table and the drawn ones say what is
//! answered.

mod absent;
mod drawn;
mod numbers;
mod openings;
mod runs;
mod scripts;
mod shares;
mod stops;

use std::collections::HashSet;

use super::case::Case;
use super::held;

/// A replay with its number and place.
type Told = (Case, u32, usize);

/// No two are the same: what is chosen for two subjects stands where it comes first.
pub fn all() -> Vec<Case> {
    let mut stored = HashSet::new();
    let mut cases = by_subject();
    cases.retain(|case| stored.insert(case.clone()));
    cases
}

fn by_subject() -> Vec<Case> {
    let mut cases: Vec<Case> = told().into_iter().map(|(case, ..)| case).collect();
    cases.extend(held::cases());
    cases.extend(drawn::all());
    cases
}

fn told() -> Vec<Told> {
    let mut told = numbers::all();
    told.extend(scripts::all());
    told.extend(stops::all());
    told.extend(runs::all());
    told.extend(absent::all());
    told.extend(openings::all());
    told.extend(shares::all());
    told
}

#[cfg(test)]
mod tests {
    use super::*;
    use crate::replay::case::{lines, read_all};
    use crate::stored_bytes::asked::Stored;

    const STORED: Stored<Case> = Stored {
        all,
        to_bytes: Case::to_bytes,
        read_all,
        lines,
    };

    #[test]
    fn cases_answer_what_is_said() {
        for (case, number, place) in told() {
            let answer = case.answer();
            let shown = &case.head[..case.head.len().min(60)];
            let party = case.party;
            assert_eq!(
                (answer.number, answer.place),
                (number, place),
                "party {party} {shown:?} {:?}",
                &case.record[..case.record.len().min(30)]
            );
        }
    }

    #[test]
    fn cases_are_always_the_same_and_read_back() {
        STORED.is_always_the_same_and_read_back();
    }

    #[test]
    fn cases_and_answers_are_within_bounds() {
        STORED.is_within(2_000..=3_500, 800_000);
        let length: usize = all().iter().map(|case| case.to_bytes().len()).sum();
        assert!(length < 600_000, "{length}");
    }

    #[test]
    fn every_number_is_answered_often() {
        let mut seen = [0; 44];
        for case in all() {
            seen[case.answer().number as usize] += 1;
        }
        let numbers = (0..=5).chain(9..=11).chain(21..=24).chain(41..=43);
        for number in numbers {
            assert!(seen[number] >= 10, "{number}: {seen:?}");
        }
    }
}
