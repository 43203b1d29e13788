//! Short heads that hold the model's definition of the forecast: crate model computes each, and the stored
//! cases have them too.

mod headers;
mod needs;
mod scripts;
mod stops;

use super::case::Case;
use super::draft::Draft;

/// Header and script, or other bytes.
pub struct Held {
    /// What the bytes are for. It starts with the number that is answered, and with none where that is 0.
    pub says: String,
    pub head: Vec<u8>,
}

fn held(says: &str, draft: Draft) -> Held {
    held_bytes(says, draft.to_bytes())
}

fn held_bytes(says: &str, head: Vec<u8>) -> Held {
    let says = says.to_owned();
    Held { says, head }
}

pub fn all() -> Vec<Held> {
    let mut all = headers::all();
    all.extend(scripts::all());
    all.extend(stops::all());
    all.extend(needs::all());
    all
}

/// All of them, as the stored cases have them.
pub fn cases() -> Vec<Case> {
    let case = |held: Held| Case { head: held.head };
    all().into_iter().map(case).collect()
}

#[cfg(test)]
mod tests {
    use super::*;
    use crate::forecast::forecast;
    use crate::sheets::held::number_said;

    #[test]
    fn each_comment_starts_with_the_number_answered() {
        for held in all() {
            let (number, _) = forecast(&held.head);
            assert_eq!(number, number_said(&held.says), "{}", held.says);
        }
    }

    #[test]
    fn every_number_is_answered() {
        let all = all();
        for number in (0..=4).chain(9..=11).chain(21..=24) {
            let found = all.iter().filter(|held| number_said(&held.says) == number);
            assert!(found.count() >= 2, "{number}");
        }
    }

    #[test]
    fn no_two_comments_are_the_same() {
        let mut comments: Vec<_> = all().into_iter().map(|held| held.says).collect();
        let count = comments.len();
        assert!((40..=80).contains(&count), "{count}");
        comments.sort();
        comments.dedup();
        assert_eq!(comments.len(), count);
    }

    #[test]
    fn heads_are_short_but_for_four_scripts() {
        let all = all();
        let long = all.iter().filter(|held| held.head.len() > 40);
        let says: Vec<_> = long.map(|held| &held.says).collect();
        let expected = [
            "9: a script of 1,024 bytes, which are no commands",
            "4: a script of 1,025 bytes",
            "64 additions, and END after 255",
            "24: a product after 255 without a triple",
        ];
        assert_eq!(says, expected);
    }

    /// The places, counted by hand.
    #[test]
    fn places_are_those_of_the_paper() {
        for (says, place) in [
            ("END alone", 0),
            ("10 before 21: no END, the place is the script length", 2),
            ("10 before 21: a byte after END, which has the place", 3),
            ("11 before 21: register 64 in a later command", 2),
            ("21 before 22: the first of two commands", 0),
            ("22: two LOADs on one input row", 2),
            ("23: two LTZs on one mask", 6),
            ("24: the second of two products on one triple", 6),
            ("LTZ k=3 takes 6 triples, since m is 2", 6),
            ("24: LTZ k=3 with a triple less", 2),
            ("21 before 23: the middle register of LTZS is unset", 4),
            ("23: LTZS of two registers on one mask", 4),
            ("LTZS sets its last register", 11),
            ("24: LTZS h=2 k=3 with a triple less", 4),
            ("64 additions, and END after 255", 258),
            ("24: a product after 255 without a triple", 258),
        ] {
            let found = all().into_iter().find(|held| held.says == says);
            let head = found
                .unwrap_or_else(|| panic!("not in the table: {says}"))
                .head;
            assert_eq!(forecast(&head).1, place, "{says}");
        }
    }
}
