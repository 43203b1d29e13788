//! Inputs of the forecast drawn from a seed and an index.

use super::case::Case;
use super::{fault, head_of};
use crate::cases::generator::Generator;
use crate::sheets::sheet_for;

/// Apart from the sheet's own sequence, so that one does not decide the other.
const HEADS_SEED: u64 = 0x5EED_0010;

/// Mostly the head of a sheet as it is drawn for runs; else the whole sheet, or the head with something
/// changed.
pub fn head_for(seed: u64, index: u64) -> Case {
    let sheet = sheet_for(seed, index).sheet;
    let mut generator = Generator::at(seed ^ HEADS_SEED, index);
    let mut head = head_of(&sheet).to_vec();
    match generator.below(16) {
        0..=6 => {}
        7..=10 => fault::in_counts(&mut generator, &mut head),
        11..=12 => fault::in_script(&mut generator, &mut head),
        13 => fault::in_header(&mut generator, &mut head),
        14 => fault::in_length(&mut generator, &mut head),
        _ => head = sheet,
    }
    Case { head }
}

#[cfg(test)]
mod tests {
    use super::*;
    use crate::forecast::forecast;

    #[test]
    fn the_same_index_gives_the_same_input() {
        let heads = |seed| (0..50).map(move |index| head_for(seed, index));
        assert!(heads(1).eq(heads(1)));
        assert!(heads(1).ne(heads(2)));
    }

    #[test]
    fn every_number_is_drawn_often() {
        let mut seen = [0; 25];
        for index in 0..20_000 {
            let (number, _) = forecast(&head_for(5, index).head);
            seen[number as usize] += 1;
        }
        for number in (0..=4).chain(9..=11).chain(21..=24) {
            assert!(seen[number] >= 200, "{number}: {seen:?}");
        }
        assert!(seen[0] >= 5_000, "{seen:?}");
    }

    /// A refusal is mostly not of the first command.
    #[test]
    fn commands_stand_before_many_refusals() {
        let mut seen = [0; 25];
        for index in 0..20_000 {
            let (number, place) = forecast(&head_for(6, index).head);
            seen[number as usize] += usize::from(place > 4);
        }
        for number in (9..=11).chain(21..=24) {
            assert!(seen[number] >= 100, "{number}: {seen:?}");
        }
    }
}
