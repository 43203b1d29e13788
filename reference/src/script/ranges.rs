//! The ranges of the operands.

use super::command::Command;
use crate::field::Field;

impl Command {
    pub fn is_in_range(&self, field: &Field) -> bool {
        let below = |v| field.contains(v);
        match *self {
            Command::End => true,
            Command::Load { d } => registers(&[d]),
            Command::Const { d, v } => registers(&[d]) && below(v),
            Command::Add { d, a, b } | Command::Sub { d, a, b } | Command::Mul { d, a, b } => {
                registers(&[d, a, b])
            }
            Command::Scale { d, a, v } => registers(&[d, a]) && below(v),
            Command::Mod { d, a, k, m }
            | Command::Trunc { d, a, k, m }
            | Command::Blocks { d, a, k, m } => {
                registers(&[d, a]) && width(k, field) && 1 <= m && m < k
            }
            Command::Ltz { d, a, k } => registers(&[d, a]) && width(k, field),
            Command::Over { d, a, k, v } => registers(&[d, a]) && width(k, field) && below(v),
            Command::Reveal { a } => registers(&[a]),
            Command::Bitlt { d, b, w, v } => registers(&[d, b]) && comparison(b, w, v),
            Command::Ltzs { d, a, h, k } => stretches(d, a, h) && width(k, field),
        }
    }
}

fn registers(numbers: &[u8]) -> bool {
    numbers.iter().all(|&number| number <= 63)
}

fn width(k: u8, field: &Field) -> bool {
    2 <= k && u32::from(k) <= field.largest_k
}

/// The bits stand in registers b to b + w - 1, and v has no more bits than they.
fn comparison(b: u8, w: u8, v: u32) -> bool {
    (1..=31).contains(&w) && b + w <= 64 && v < 1 << w
}

/// 1 to 16 registers from d on, and as many from a on: the same ones, or none in both.
fn stretches(d: u8, a: u8, h: u8) -> bool {
    let is_in_table = |first: u8| first <= 64 - h;
    (1..=16).contains(&h) && is_in_table(d) && is_in_table(a) && (d == a || d.abs_diff(a) >= h)
}

#[cfg(test)]
mod tests {
    use super::*;
    use crate::field::FIELDS;
    use std::collections::HashSet;

    /// The registers of a stretch, as far as there can be such numbers.
    fn stretch(first: u8, h: u8) -> HashSet<u16> {
        (first.into()..u16::from(first) + u16::from(h)).collect()
    }

    /// The numbers up to the last, and some that a byte does not hold with an h.
    fn to(last: u8) -> impl Iterator<Item = u8> {
        (0..=last).chain([128, 240, 254, 255])
    }

    #[test]
    fn stretches_are_equal_or_share_no_register() {
        for (d, a) in to(66).flat_map(|d| to(66).map(move |a| (d, a))) {
            for h in to(18) {
                let (left, read) = (stretch(d, h), stretch(a, h));
                let is_in_table = left.union(&read).all(|&register| register < 64);
                let apart = left == read || left.is_disjoint(&read);
                let right = (1..=16).contains(&h) && is_in_table && apart;
                let command = Command::Ltzs { d, a, h, k: 2 };
                assert_eq!(command.is_in_range(&FIELDS[0]), right, "{command:?}");
            }
        }
    }

    #[test]
    fn signs_have_the_widths_of_ltz() {
        let (d, a) = (7, 7);
        for field in &FIELDS {
            for k in 0..=255 {
                let ltz = Command::Ltz { d, a, k }.is_in_range(field);
                let ltzs = Command::Ltzs { d, a, h: 3, k }.is_in_range(field);
                assert_eq!(ltzs, ltz, "{k}");
            }
        }
    }
}
