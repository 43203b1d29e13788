//! What can be wrong with a list.

use super::draft::{Field, Line, LARGEST_TIME};
use crate::cases::generator::Generator;

/// Bytes that the grammar or a time gives a meaning, their neighbours, and some that it has not.
const BYTES: [u8; 20] = [
    b'"', b'"', b'"', b',', b',', b'\r', b'\n', b' ', b'0', b'9', b'/', b':', b'+', b'-', b'~',
    0x09, 0x1F, 0x7F, 0x80, 0xFF,
];

/// Changes a field of one line, if there is a line.
pub fn in_lines(generator: &mut Generator, lines: &mut [Line]) {
    if lines.is_empty() {
        return;
    }
    let line = &mut lines[generator.below(lines.len() as u32) as usize];
    let place = generator.below(4) as usize;
    let time = 1 + generator.below(3) as usize;
    match generator.below(12) {
        0 => drop(line.remove(place)),
        1 => line.insert(place, line[place].clone()),
        2 => line[place].quoted ^= true,
        3 => line.swap(time, place),
        4 => line[time].text.clear(),
        5..=8 => move_time(generator, &mut line[time]),
        _ => spoil_time(generator, &mut line[time]),
    }
}

/// To a time near it, or to another end of the range.
fn move_time(generator: &mut Generator, field: &mut Field) {
    let text = String::from_utf8_lossy(&field.text);
    let time: u32 = text.parse().unwrap_or(0);
    let near = [time.saturating_sub(1), time.saturating_sub(2), time + 1];
    let any = generator.below(LARGEST_TIME + 1);
    let choices = [near[0], near[0], near[1], near[2], 0, LARGEST_TIME, any];
    field.text = generator.pick(&choices).to_string().into_bytes();
}

/// To what is no time, mostly.
fn spoil_time(generator: &mut Generator, field: &mut Field) {
    let place = generator.below(field.text.len() as u32 + 1) as usize;
    let byte = generator.pick(b" +-/:.x09\"");
    match generator.below(4) {
        0 => field.text.splice(0..0, *b"0000000").for_each(drop),
        1 => field.text.resize(8, b'1'),
        _ => field.text.insert(place, byte),
    }
}

/// Changes, removes or inserts one byte, often beside one that parts fields or lines.
pub fn in_bytes(generator: &mut Generator, list: &mut Vec<u8>) {
    let place = place(generator, list);
    let any = generator.any() as u8;
    let byte = generator.pick(&BYTES);
    let byte = generator.pick(&[byte, byte, byte, any]);
    match generator.below(4) {
        0 if place < list.len() => list[place] = byte,
        1 if place < list.len() => drop(list.remove(place)),
        2 if place < list.len() => list.insert(place, list[place]),
        _ => list.insert(place, byte),
    }
}

fn place(generator: &mut Generator, list: &[u8]) -> usize {
    let any = generator.below(list.len() as u32 + 1) as usize;
    let parting = |&place: &usize| b"\",\r\n".contains(&list[place]);
    let places: Vec<usize> = (0..list.len()).filter(parting).collect();
    if places.is_empty() {
        return any;
    }
    let beside = generator.pick(&places) + generator.below(2) as usize;
    generator.pick(&[beside, beside, any])
}

/// Several bytes, the list cut off, or bytes that were never a list.
pub fn damage(generator: &mut Generator, list: &mut Vec<u8>) {
    match generator.below(4) {
        0 => list.truncate(generator.below(list.len() as u32 + 1) as usize),
        1 => {
            let length = generator.below(40);
            *list = (0..length).map(|_| generator.pick(&BYTES)).collect();
        }
        _ => {
            for _ in 0..2 + generator.below(4) {
                in_bytes(generator, list);
            }
        }
    }
}
