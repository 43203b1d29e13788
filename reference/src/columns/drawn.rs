//! Inputs drawn from a seed and an index.

use super::case::{Case, LONGEST};
use super::draft::Draft;
use super::{fault, Way};
use crate::cases::generator::Generator;
use crate::field::FIELDS;
use crate::sheets::sheet_for;

/// A sheet as it is drawn for runs, or any input, turned either way, with an output of any length.
pub fn turn_for(seed: u64, index: u64) -> Case {
    let mut generator = Generator::at(seed, index);
    let way = generator.pick(&Way::BOTH);
    let input = match generator.below(8) {
        0 => sheet_for(seed, index).sheet,
        _ => input(&mut generator),
    };
    let lent = lent(&mut generator, input.len());
    Case { way, input, lent }
}

/// A good input or a damaged one. At times all shares are below every p.
fn input(generator: &mut Generator) -> Vec<u8> {
    let mut draft = draft(generator);
    let kind = generator.below(16);
    if (9..=12).contains(&kind) {
        for _ in 0..generator.pick(&[1, 1, 1, 2, 3]) {
            fault::in_numbers(generator, &mut draft);
        }
    }
    let mut input = match generator.below(8) {
        0 => draft.drawn_below(generator, FIELDS[0].modulus),
        _ => draft.drawn(generator),
    };
    if (12..=15).contains(&kind) {
        fault::in_bytes(generator, &mut input);
    }
    input
}

/// Counts are mostly small, and at times at their limits.
fn draft(generator: &mut Generator) -> Draft {
    let parties = 3 + generator.below(5) as u8;
    let threshold = 1 + generator.below((u32::from(parties) - 1) / 2) as u8;
    let field = generator.below(4) as u8;
    let below = |generator: &mut Generator, bound| generator.below(bound) as u16;
    let inputs = match generator.below(16) {
        0 => 64,
        1 => below(generator, 65),
        _ => below(generator, 4),
    };
    let masks = match generator.below(16) {
        0 => 16,
        1 => below(generator, 17),
        2..=6 => 1,
        _ => 0,
    };
    let triples = match generator.below(32) {
        0 => generator.pick(&[255, 256, 257, 511, 512]),
        1 => below(generator, 513),
        _ => below(generator, 4),
    };
    let script = match generator.below(16) {
        0 => generator.pick(&[255, 256, 257, 1023, 1024]),
        1 => below(generator, 1025),
        _ => below(generator, 24),
    };
    Draft::new(field, parties, threshold)
        .with_rows(inputs, masks, triples)
        .with_script(script)
}

/// Mostly as long as the input, or near it; at times far from it.
fn lent(generator: &mut Generator, length: usize) -> usize {
    let lent = match generator.below(16) {
        0..=5 => length,
        6 => length + 1,
        7..=8 => length + 1 + generator.below(60) as usize,
        9 => length + generator.below(2_000) as usize,
        10..=11 => length.saturating_sub(1),
        12 => length.saturating_sub(1 + generator.below(40) as usize),
        13 => 0,
        14 => 11,
        _ => generator.below(length as u32 + 1) as usize,
    };
    lent.min(LONGEST)
}

#[cfg(test)]
mod tests {
    use super::*;

    #[test]
    fn the_same_index_gives_the_same_input() {
        let turns = |seed| (0..50).map(move |index| turn_for(seed, index));
        assert!(turns(1).eq(turns(1)));
        assert!(turns(1).ne(turns(2)));
    }

    #[test]
    fn every_number_is_drawn_often_either_way() {
        let mut seen = [[0; 16]; 2];
        for index in 0..20_000 {
            let case = turn_for(5, index);
            seen[case.way as usize][case.outcome().number as usize] += 1;
        }
        for (numbers, least) in [
            (0, 3_000),
            (1, 80),
            (2, 300),
            (3, 300),
            (4, 1_000),
            (15, 1_000),
        ]
        .into_iter()
        .flat_map(|row| seen.map(|counts| (counts, row)))
        .map(|(counts, (number, least))| (counts[number], least))
        {
            assert!(numbers >= least, "{seen:?}");
        }
    }

    /// With so many parties in each field, and at the limits of the counts.
    #[test]
    fn many_kinds_of_header_are_turned() {
        let turned = (0..20_000)
            .map(|index| turn_for(6, index))
            .filter(|case| case.outcome().number == 0);
        let mut headers = [[0; 8]; 4];
        let mut limits = [0; 4];
        for case in turned {
            let header = &case.input[..11];
            headers[usize::from(header[0])][usize::from(header[1])] += 1;
            for (place, limit) in [64, 16, 512, 1024u16].into_iter().enumerate() {
                let count = &header[3 + 2 * place..][..2];
                limits[place] += usize::from(count == limit.to_le_bytes());
            }
        }
        let common = headers
            .iter()
            .all(|by_parties| by_parties[3..].iter().all(|&count| count > 200));
        assert!(common, "{headers:?}");
        assert!(limits.iter().all(|&count| count > 20), "{limits:?}");
    }
}
