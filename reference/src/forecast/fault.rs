//! What can be changed in a head.

use crate::cases::generator::Generator;
use crate::sheet::header;

/// Changes how many input rows, masks or triples there are: mostly a little, at times to a limit or past
/// it. The length stays right, since no row follows.
pub fn in_counts(generator: &mut Generator, head: &mut [u8]) {
    let (place, limit) = generator.pick(&[(3, 64), (5, 16), (7, 512), (7, 512)]);
    let Some(bytes) = head.get_mut(place..place + 2) else {
        return;
    };
    let count = u16::from_le_bytes([bytes[0], bytes[1]]);
    let fewer = generator.below(u32::from(count) + 1) as u16;
    let count = match generator.below(16) {
        0..=5 => count.saturating_sub(1),
        6..=7 => count.saturating_add(1),
        8..=11 => fewer,
        12..=13 => 0,
        14 => limit,
        _ => limit + generator.pick(&[1, 2, 256]),
    };
    bytes.copy_from_slice(&count.to_le_bytes());
}

/// Changes a byte of the script, if there is one.
pub fn in_script(generator: &mut Generator, head: &mut [u8]) {
    let Some(script) = head.get_mut(header::BYTES..) else {
        return;
    };
    change(generator, script);
}

/// Changes a byte of the header.
pub fn in_header(generator: &mut Generator, head: &mut [u8]) {
    let length = head.len().min(header::BYTES);
    change(generator, &mut head[..length]);
}

fn change(generator: &mut Generator, bytes: &mut [u8]) {
    if bytes.is_empty() {
        return;
    }
    let place = generator.below(bytes.len() as u32) as usize;
    let any = generator.any() as u8;
    bytes[place] = match generator.below(4) {
        0 => any,
        1 => any % 64,
        2 => bytes[place] ^ 1 << (any % 8),
        _ => bytes[place].wrapping_add(generator.pick(&[1, 255])),
    };
}

/// Cuts bytes off, or adds some.
pub fn in_length(generator: &mut Generator, head: &mut Vec<u8>) {
    match generator.below(4) {
        0 => drop(head.pop()),
        1 => head.push(generator.any() as u8),
        2 => head.truncate(generator.below(12) as usize),
        _ => head.truncate(generator.below(head.len() as u32 + 1) as usize),
    }
}
