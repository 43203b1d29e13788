//! Small replays that hold the model's definition of the replay: crate model computes each, and the stored
//! cases have them too.

mod headers;
mod openings;
mod runs;
mod scripts;
mod stops;

use super::case::Case;
use super::recorded::Recorded;
use crate::present::everyone;
use crate::sheets::bench;

pub struct Held {
    /// What the replay is for. It starts with the number that is answered, and with none where that is 0.
    pub says: String,
    pub case: Case,
}

fn held(says: &str, case: Case) -> Held {
    let says = says.to_owned();
    Held { says, case }
}

/// The run that the paper prints: LOAD 0, LOAD 1, MUL 2 0 1 at 4, REVEAL 2 at 8 and END at 10. It opens 5 6 7
/// and 2 3 4 for the product, then 7 12 4.
fn printed() -> Recorded {
    let run = Recorded::of(&bench::small(), everyone(3));
    run.expect("the paper's sheet is accepted")
}

pub fn all() -> Vec<Held> {
    let mut all = headers::all();
    all.extend(scripts::all());
    all.extend(stops::all());
    all.extend(runs::all());
    all.extend(openings::all());
    all
}

/// All of them, as the stored cases have them.
pub fn cases() -> Vec<Case> {
    all().into_iter().map(|held| held.case).collect()
}

#[cfg(test)]
mod tests {
    use super::*;
    use crate::replay::Counts;
    use crate::sheets::held::number_said;

    #[test]
    fn each_comment_starts_with_the_number_answered() {
        for held in all() {
            let number = held.case.answer().number;
            assert_eq!(number, number_said(&held.says), "{}", held.says);
        }
    }

    #[test]
    fn every_number_is_answered() {
        let all = all();
        for number in (0..=5).chain(9..=11).chain(21..=24).chain(41..=43) {
            let found = all.iter().filter(|held| number_said(&held.says) == number);
            assert!(found.count() >= 2, "{number}");
        }
    }

    #[test]
    fn no_two_comments_are_the_same() {
        let mut comments: Vec<_> = all().into_iter().map(|held| held.says).collect();
        let count = comments.len();
        assert!((60..=100).contains(&count), "{count}");
        comments.sort();
        comments.dedup();
        assert_eq!(comments.len(), count);
    }

    /// The model computes each row in the proof. A part of 0s costs it little.
    #[test]
    fn rows_are_small() {
        for Held { says, case } in all() {
            assert!(case.record.len() <= 150, "{says}");
            let is_0 = case.part.iter().all(|&byte| byte == 0);
            assert!(case.part.len() <= 300 || is_0, "{says}");
        }
    }

    fn named(says: &str) -> Case {
        let found = all().into_iter().find(|held| held.says == says);
        let held = found.unwrap_or_else(|| panic!("not in the table: {says}"));
        held.case
    }

    /// The places, counted by hand.
    #[test]
    fn places_are_those_of_the_request() {
        for (says, place) in PLACES {
            assert_eq!(named(says).answer().place, place, "{says}");
        }
    }

    const PLACES: [(&str, usize); 20] = [
        ("the paper's printed run, party 1", 10),
        ("5 before 9: the last share is p", 0),
        ("9: a byte that is no command", 2),
        ("10: no END, the place is the script length", 10),
        ("10: a byte after END, which has the place", 11),
        ("11: register 64", 8),
        ("21: REVEAL of an unset register", 6),
        ("22: no input row left", 2),
        ("23: no mask left", 6),
        ("24 before 43: a product without a triple", 2),
        ("43: no number", 4),
        ("43: one opening of the product's two", 4),
        ("43: the second opening without its last number", 4),
        ("43: the opening of REVEAL is missing", 8),
        ("42: another's share of the first opening", 4),
        ("42: another's share of the second opening", 4),
        ("42: another's share of REVEAL's opening", 8),
        ("41: another polynomial in the first opening", 4),
        ("41: another polynomial in REVEAL's opening", 8),
        ("41 before 42: the first opening before the second", 4),
    ];

    /// What the commands before the refused one leave, by hand.
    #[test]
    fn a_refused_command_keeps_what_was_before_it() {
        let inputs = |inputs| Counts {
            inputs,
            ..Counts::default()
        };
        for says in [
            "43: the second opening without its last number",
            "42: another's share of the second opening",
            "41: another polynomial in the second opening",
        ] {
            let answer = named(says).answer();
            assert_eq!(answer.cells[..4], [7, 7, 0, 0], "{says}");
            assert_eq!(answer.counts, inputs(2), "{says}");
        }
        let answer = named("42: another's share of REVEAL's opening").answer();
        assert_eq!(answer.cells[..4], [7, 7, 7, 0]);
        let product = Counts {
            triples: 1,
            openings: 2,
            ..inputs(2)
        };
        assert_eq!(answer.counts, product);
    }

    #[test]
    fn refused_inputs_leave_nothing() {
        for held in all() {
            let answer = held.case.answer();
            if (1..=11).contains(&answer.number) {
                assert_eq!(answer.cells, [0; 64], "{}", held.says);
                assert_eq!(answer.counts, Counts::default(), "{}", held.says);
            }
        }
    }
}
