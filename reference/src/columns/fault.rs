//! What can be wrong with an input.

use super::draft::Draft;
use crate::cases::generator::Generator;

/// Changes one number of the header; the bytes after it are then those that it implies.
pub fn in_numbers(generator: &mut Generator, draft: &mut Draft) {
    let any = generator.any() as u8;
    match generator.below(8) {
        0..=1 => draft.field = generator.pick(&[4, 5, 16, 17, 18, 19, 128, 255, any]),
        2 => draft.parties = generator.pick(&[0, 1, 2, 8, 9, 19, 128]),
        3 => draft.threshold = generator.pick(&[0, draft.parties.div_ceil(2), 4, 255, any]),
        4 => draft.inputs = generator.pick(&[65, 66, 128, 256, 320]),
        5 => draft.masks = generator.pick(&[17, 18, 32]),
        6 => draft.triples = generator.pick(&[513, 514]),
        _ => draft.script = generator.pick(&[1025, 1026, 1280, 2048]),
    }
}

/// Changes bytes of the header, or the length.
pub fn in_bytes(generator: &mut Generator, input: &mut Vec<u8>) {
    let length = input.len() as u32;
    let any = generator.any() as u8;
    let place = generator.below(11) as usize;
    match generator.below(8) {
        0 => input.truncate(generator.below(11) as usize),
        1 => input.truncate(generator.below(length) as usize),
        2 => drop(input.pop()),
        3 => input.push(any),
        4 => input.extend((0..=generator.below(30)).map(|_| generator.any() as u8)),
        5 => input[place] = any,
        6 => input[place] ^= 1 << generator.below(8),
        _ => input[place] = input[place].wrapping_add(generator.pick(&[1, 255])),
    }
}
