//! The stored cases, ordered by subject. All but those of the model's table, the sheets' and the drawn ones
//! say what is answered.

mod drawn;
mod longest;
mod needs;
mod numbers;
mod scripts;
mod sheets;
mod stops;

use std::collections::HashSet;

use super::case::Case;
use super::held;

/// Header and script, or other bytes, with number and place.
type Told = (Vec<u8>, u32, usize);

/// No two are the same: what is chosen for two subjects stands where it comes first.
pub fn all() -> Vec<Case> {
    let mut stored = HashSet::new();
    let mut cases = by_subject();
    cases.retain(|case| stored.insert(case.clone()));
    cases
}

fn by_subject() -> Vec<Case> {
    let mut cases: Vec<Case> = told().into_iter().map(|(head, ..)| Case { head }).collect();
    cases.extend(held::cases());
    cases.extend(sheets::heads());
    cases.extend(drawn::all());
    cases
}

fn told() -> Vec<Told> {
    let mut told = numbers::alone();
    told.extend(numbers::in_order());
    told.extend(scripts::all());
    told.extend(stops::all());
    told.extend(needs::all());
    told.extend(sheets::whole());
    told.extend(longest::all());
    told
}

#[cfg(test)]
mod tests {
    use super::*;
    use crate::forecast::case::{line, read_all};
    use crate::forecast::forecast;
    use crate::stored_bytes::asked::Stored;

    const STORED: Stored<Case> = Stored {
        all,
        to_bytes: Case::to_bytes,
        read_all,
        lines: line,
    };

    #[test]
    fn cases_answer_what_is_said() {
        for (head, number, place) in told() {
            let shown = &head[..head.len().min(60)];
            assert_eq!(forecast(&head), (number, place), "{shown:?}");
        }
    }

    #[test]
    fn cases_are_always_the_same_and_read_back() {
        STORED.is_always_the_same_and_read_back();
    }

    #[test]
    fn no_two_cases_are_the_same() {
        let cases = all();
        let different: HashSet<_> = cases.iter().collect();
        assert_eq!(different.len(), cases.len());
    }

    #[test]
    fn cases_and_answers_are_within_bounds() {
        STORED.is_within(1_000..=3_500, 50_000);
    }

    #[test]
    fn every_number_is_answered_often() {
        let mut seen = [0; 25];
        for case in all() {
            seen[forecast(&case.head).0 as usize] += 1;
        }
        for number in (0..=4).chain(9..=11).chain(21..=24) {
            assert!(seen[number] >= 10, "{number}: {seen:?}");
        }
    }
}
