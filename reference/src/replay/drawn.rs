//! Replays drawn from a seed and an index.

use super::case::{Case, LONGEST_HEAD, LONGEST_PART};
use super::fault;
use super::recorded::Recorded;
use crate::cases::generator::Generator;
use crate::forecast::head_of;
use crate::present::{everyone_of, permitted};
use crate::sheets::sheet_for;

/// Apart from the sheet's own sequence, so that one does not decide the other.
const REPLAYS_SEED: u64 = 0x5EED_0015;

/// The recorded run of a drawn sheet, mostly with something changed; or, of a sheet that is refused, what its
/// bytes are in the place of a head and a part.
pub fn replay_for(seed: u64, index: u64) -> Case {
    let sheet = sheet_for(seed, index).sheet;
    let mut generator = Generator::at(seed ^ REPLAYS_SEED, index);
    match recorded(&mut generator, &sheet) {
        Some(recorded) => damaged(&mut generator, &recorded),
        None => refused(&mut generator, &sheet),
    }
}

/// The run of the sheet with a drawn set, if it is accepted.
pub fn recorded(generator: &mut Generator, sheet: &[u8]) -> Option<Recorded> {
    let [_, n, t, ..] = *sheet else {
        return None;
    };
    let sets = permitted(n.into(), t.into());
    let set = match sets.is_empty() || generator.below(2) == 0 {
        true => everyone_of(sheet),
        false => generator.pick(&sets),
    };
    Recorded::of(sheet, set)
}

/// Some of the changes, mostly one.
fn damaged(generator: &mut Generator, recorded: &Recorded) -> Case {
    let party = 1 + generator.below(recorded.parts.len() as u32) as usize;
    let mut case = recorded.case(party);
    for _ in 0..generator.pick(&[0, 0, 0, 1, 1, 1, 1, 2, 3]) {
        case = fault::drawn(generator, recorded, case);
    }
    case
}

/// Head and part are of bounded length, as they are of a stored case.
fn refused(generator: &mut Generator, sheet: &[u8]) -> Case {
    let head = head_of(sheet);
    let rest = &sheet[head.len()..];
    let parties = sheet.get(1).map_or(1, |&n| usize::from(n).max(1));
    let part = &rest[..(rest.len() / parties).min(LONGEST_PART)];
    let openings = generator.below(4) as usize;
    Case {
        party: 1 + generator.below(parties.min(7) as u32),
        head: head[..head.len().min(LONGEST_HEAD)].to_vec(),
        part: part.to_vec(),
        record: generator.list(3 * openings, 14),
    }
}

#[cfg(test)]
mod tests {
    use super::*;
    use crate::replay::case::LONGEST_RECORD;

    #[test]
    fn the_same_index_gives_the_same_replay() {
        let replays = |seed| (0..50).map(move |index| replay_for(seed, index));
        assert!(replays(1).eq(replays(1)));
        assert!(replays(1).ne(replays(2)));
    }

    #[test]
    fn every_number_is_drawn_often() {
        let mut seen = [0; 44];
        for index in 0..20_000 {
            seen[replay_for(5, index).answer().number as usize] += 1;
        }
        let numbers = (0..=5).chain(9..=11).chain(21..=24).chain(41..=43);
        for number in numbers {
            assert!(seen[number] >= 100, "{number}: {seen:?}");
        }
        assert!(seen[0] >= 4_000, "{seen:?}");
    }

    /// A refused opening is often not the first of its run.
    #[test]
    fn openings_are_refused_after_others() {
        let answers = (0..10_000).map(|index| replay_for(6, index).answer());
        let refused = answers.filter(|answer| answer.number >= 41);
        let (first, later): (Vec<_>, Vec<_>) =
            refused.partition(|answer| answer.counts.openings == 0);
        assert!(first.len() > 300 && later.len() > 300);
    }

    #[test]
    fn replays_are_no_longer_than_stored_ones_may_be() {
        for index in 0..5_000 {
            let case = replay_for(7, index);
            assert!(case.head.len() <= LONGEST_HEAD && case.part.len() <= LONGEST_PART);
            assert!(case.record.len() <= LONGEST_RECORD);
        }
    }
}
