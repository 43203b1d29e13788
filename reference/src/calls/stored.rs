//! The stored cases, ordered by subject. All but the drawn ones say what is answered.

mod breaks;
mod bytes;
mod drawn;
mod fields;
mod order;
mod quotes;
mod room;
mod times;
mod turns;

use super::case::Case;
use super::held;

/// A list, its number, and the seconds that are written.
type Told = (Vec<u8>, u32, Vec<u32>);

/// A list, the length of its buffer, its number, and the seconds that are written.
type Lent = (Vec<u8>, usize, u32, Vec<u32>);

pub fn all() -> Vec<Case> {
    let mut cases: Vec<Case> = told().into_iter().map(with_room).collect();
    cases.extend(
        lent()
            .into_iter()
            .map(|(list, lent, ..)| Case { list, lent }),
    );
    cases.extend(held::cases());
    cases.extend(drawn::all());
    cases
}

fn told() -> Vec<Told> {
    let mut told = quotes::all();
    told.extend(bytes::all());
    told.extend(fields::all());
    told.extend(breaks::all());
    told.extend(times::all());
    told.extend(order::all());
    told.extend(turns::all());
    told
}

fn lent() -> Vec<Lent> {
    let mut lent = bytes::every();
    lent.extend(breaks::pairs());
    lent.extend(turns::full());
    lent.extend(room::all());
    lent
}

/// With a buffer that takes all that is written, and two numbers more.
fn with_room((list, _, seconds): Told) -> Case {
    let lent = seconds.len() + 2;
    Case { list, lent }
}

fn good<const N: usize>(rows: [(&str, &[u32]); N]) -> Vec<Told> {
    let told = |(list, seconds): (&str, &[u32])| (list.into(), 0, seconds.to_vec());
    rows.map(told).into()
}

/// Lists of one line that this number refuses.
fn refused<const N: usize>(number: u32, lists: [&str; N]) -> Vec<Told> {
    lists.map(|list| (list.into(), number, vec![])).into()
}

#[cfg(test)]
mod tests {
    use super::*;
    use crate::calls::case::{lines, read_all, FILLING};
    use crate::stored_bytes::asked::Stored;

    const STORED: Stored<Case> = Stored {
        all,
        to_bytes: Case::to_bytes,
        read_all,
        lines,
    };

    fn is_left(case: &Case, number: u32, seconds: &[u32]) {
        let outcome = case.outcome();
        let list = case.list.escape_ascii();
        let (written, tail) = outcome.seconds.split_at(outcome.calls);
        assert_eq!((outcome.number, written), (number, seconds), "{list}");
        assert!(tail.iter().all(|&left| left == FILLING), "{list}");
    }

    #[test]
    fn cases_answer_what_is_said() {
        for told in told() {
            is_left(&with_room(told.clone()), told.1, &told.2);
        }
        for (list, lent, number, seconds) in lent() {
            is_left(&Case { list, lent }, number, &seconds);
        }
    }

    #[test]
    fn cases_are_always_the_same_and_read_back() {
        STORED.is_always_the_same_and_read_back();
    }

    #[test]
    fn answers_are_within_bounds() {
        STORED.is_within(3_000..=4_000, 150_000);
    }

    #[test]
    fn every_number_is_answered_often() {
        for number in [0, 31, 32, 33] {
            let found = all()
                .iter()
                .filter(|case| case.outcome().number == number)
                .count();
            assert!(found >= 15, "{number}: {found}");
        }
    }
}
