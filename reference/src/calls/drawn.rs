//! Lists drawn from a seed and an index.

use super::case::{Case, LONGEST};
use super::draft;
use super::fault;
use crate::cases::generator::Generator;

/// A good list, a near miss or a damaged list, with a buffer of any length.
pub fn list_for(seed: u64, index: u64) -> Case {
    let mut generator = Generator::at(seed, index);
    let count = generator.pick(&[0, 1, 1, 2, 2, 3, 3, 4, 5, 8, 13, 30]);
    let mut lines: Vec<_> = (0..count).map(|_| draft::good(&mut generator)).collect();
    let lent = lent(&mut generator, count);
    let kind = generator.below(16);
    if (8..=11).contains(&kind) {
        fault::in_lines(&mut generator, &mut lines);
    }
    let mut list = draft::bytes_of(&lines);
    list.extend(last_break(&mut generator));
    match kind {
        12..=14 => fault::in_bytes(&mut generator, &mut list),
        15 => fault::damage(&mut generator, &mut list),
        _ => {}
    }
    Case { list, lent }
}

/// Mostly room for all lines, else for fewer.
fn lent(generator: &mut Generator, count: usize) -> usize {
    let lent = match generator.below(16) {
        0..=5 => count,
        6..=9 => count + generator.below(6) as usize,
        10..=11 => count.saturating_sub(1),
        12 => 0,
        _ => generator.below(count as u32 + 1) as usize,
    };
    lent.min(LONGEST)
}

/// There, missing, or rarely doubled.
fn last_break(generator: &mut Generator) -> &'static [u8] {
    match generator.below(16) {
        0..=8 => b"\r\n",
        9..=14 => b"",
        _ => b"\r\n\r\n",
    }
}

#[cfg(test)]
mod tests {
    use super::*;

    #[test]
    fn the_same_index_gives_the_same_list() {
        let lists = |seed| (0..50).map(move |index| list_for(seed, index));
        assert!(lists(1).eq(lists(1)));
        assert!(lists(1).ne(lists(2)));
    }

    #[test]
    fn every_number_is_drawn_often_and_lists_have_several_calls() {
        let mut seen = [0; 34];
        let mut several = 0;
        for index in 0..20_000 {
            let outcome = list_for(5, index).outcome();
            seen[outcome.number as usize] += 1;
            several += usize::from(outcome.calls > 2);
        }
        for number in [0, 31, 32, 33] {
            assert!(seen[number] >= 2_000, "{number}: {seen:?}");
        }
        assert!(several >= 6_000, "{several}");
    }

    /// A fault is mostly not in the first line.
    #[test]
    fn calls_stand_before_many_refusals() {
        for number in [31, 32, 33] {
            let refused = (0..20_000)
                .map(|index| list_for(6, index).outcome())
                .filter(|outcome| outcome.number == number && outcome.calls > 0);
            assert!(refused.count() >= 1_000, "{number}");
        }
    }
}
