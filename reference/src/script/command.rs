//! The commands, their bytes, what they read and what they spend.

use std::ops::Range;

use crate::field::Field;

#[derive(Clone, Copy, Debug, PartialEq)]
pub enum Command {
    End,
    Load { d: u8 },
    Const { d: u8, v: u32 },
    Add { d: u8, a: u8, b: u8 },
    Sub { d: u8, a: u8, b: u8 },
    Scale { d: u8, a: u8, v: u32 },
    Mul { d: u8, a: u8, b: u8 },
    Mod { d: u8, a: u8, k: u8, m: u8 },
    Trunc { d: u8, a: u8, k: u8, m: u8 },
    Ltz { d: u8, a: u8, k: u8 },
    Over { d: u8, a: u8, k: u8, v: u32 },
    Blocks { d: u8, a: u8, k: u8, m: u8 },
    Reveal { a: u8 },
    Bitlt { d: u8, b: u8, w: u8, v: u32 },
    Ltzs { d: u8, a: u8, h: u8, k: u8 },
}

/// The number of operand bytes of each command, in the order of the command bytes.
pub const OPERANDS: [usize; 15] = [0, 1, 5, 3, 3, 6, 3, 4, 4, 3, 7, 4, 1, 7, 4];

/// The names of paper and requests, in the order of the command bytes.
pub const NAMES: [&str; 15] = [
    "END", "LOAD", "CONST", "ADD", "SUB", "SCALE", "MUL", "MOD", "TRUNC", "LTZ", "OVER", "BLOCKS",
    "REVEAL", "BITLT", "LTZS",
];

/// What a finished command has taken.
#[derive(Clone, Copy, Debug, Default, PartialEq)]
pub struct Cost {
    pub inputs: usize,
    pub masks: usize,
    pub triples: usize,
    pub revealed: usize,
}

impl Cost {
    /// A mask is opened with once, a triple twice.
    pub fn openings(&self) -> usize {
        self.masks + 2 * self.triples + self.revealed
    }

    /// What so many commands of this cost take together.
    fn times(self, count: usize) -> Cost {
        Cost {
            inputs: count * self.inputs,
            masks: count * self.masks,
            triples: count * self.triples,
            revealed: count * self.revealed,
        }
    }
}

impl Command {
    /// The command with this byte and as many operand bytes as it has.
    pub fn decode(byte: u8, operands: &[u8]) -> Command {
        match (byte, operands) {
            (0x00, []) => Command::End,
            (0x01, &[d]) => Command::Load { d },
            (0x02, &[d, ref v @ ..]) => Command::Const { d, v: word(v) },
            (0x03, &[d, a, b]) => Command::Add { d, a, b },
            (0x04, &[d, a, b]) => Command::Sub { d, a, b },
            (0x05, &[d, a, ref v @ ..]) => Command::Scale { d, a, v: word(v) },
            (0x06, &[d, a, b]) => Command::Mul { d, a, b },
            (0x07, &[d, a, k, m]) => Command::Mod { d, a, k, m },
            (0x08, &[d, a, k, m]) => Command::Trunc { d, a, k, m },
            (0x09, &[d, a, k]) => Command::Ltz { d, a, k },
            (0x0A, &[d, a, k, ref v @ ..]) => Command::Over {
                d,
                a,
                k,
                v: word(v),
            },
            (0x0B, &[d, a, k, m]) => Command::Blocks { d, a, k, m },
            (0x0C, &[a]) => Command::Reveal { a },
            (0x0D, &[d, b, w, ref v @ ..]) => Command::Bitlt {
                d,
                b,
                w,
                v: word(v),
            },
            (0x0E, &[d, a, h, k]) => Command::Ltzs { d, a, h, k },
            _ => unreachable!("a command byte has its number of operands"),
        }
    }

    pub fn to_bytes(&self) -> Vec<u8> {
        match *self {
            Command::End => vec![0x00],
            Command::Load { d } => vec![0x01, d],
            Command::Const { d, v } => with_word(&[0x02, d], v),
            Command::Add { d, a, b } => vec![0x03, d, a, b],
            Command::Sub { d, a, b } => vec![0x04, d, a, b],
            Command::Scale { d, a, v } => with_word(&[0x05, d, a], v),
            Command::Mul { d, a, b } => vec![0x06, d, a, b],
            Command::Mod { d, a, k, m } => vec![0x07, d, a, k, m],
            Command::Trunc { d, a, k, m } => vec![0x08, d, a, k, m],
            Command::Ltz { d, a, k } => vec![0x09, d, a, k],
            Command::Over { d, a, k, v } => with_word(&[0x0A, d, a, k], v),
            Command::Blocks { d, a, k, m } => vec![0x0B, d, a, k, m],
            Command::Reveal { a } => vec![0x0C, a],
            Command::Bitlt { d, b, w, v } => with_word(&[0x0D, d, b, w], v),
            Command::Ltzs { d, a, h, k } => vec![0x0E, d, a, h, k],
        }
    }

    /// The registers that the command leaves secrets in, one for each.
    pub fn writes(&self) -> Range<u8> {
        match *self {
            Command::End | Command::Reveal { .. } => 0..0,
            Command::Load { d }
            | Command::Const { d, .. }
            | Command::Add { d, .. }
            | Command::Sub { d, .. }
            | Command::Scale { d, .. }
            | Command::Mul { d, .. }
            | Command::Mod { d, .. }
            | Command::Trunc { d, .. }
            | Command::Ltz { d, .. }
            | Command::Over { d, .. }
            | Command::Blocks { d, .. }
            | Command::Bitlt { d, .. } => d..d + 1,
            Command::Ltzs { d, h, .. } => d..d + h,
        }
    }

    /// The registers that the command reads, in the order of its operands.
    pub fn reads(&self) -> Vec<u8> {
        match *self {
            Command::End | Command::Load { .. } | Command::Const { .. } => vec![],
            Command::Add { a, b, .. } | Command::Sub { a, b, .. } | Command::Mul { a, b, .. } => {
                vec![a, b]
            }
            Command::Scale { a, .. }
            | Command::Mod { a, .. }
            | Command::Trunc { a, .. }
            | Command::Ltz { a, .. }
            | Command::Over { a, .. }
            | Command::Blocks { a, .. }
            | Command::Reveal { a } => vec![a],
            Command::Bitlt { b, w, .. } => (b..b + w).collect(),
            Command::Ltzs { a, h, .. } => (a..a + h).collect(),
        }
    }

    pub fn cost(&self, field: &Field) -> Cost {
        let mut cost = Cost::default();
        match *self {
            Command::Load { .. } => cost.inputs = 1,
            Command::Mul { .. } => cost.triples = 1,
            Command::Bitlt { w, .. } => cost.triples = usize::from(w) - 1,
            Command::Mod { m, .. } | Command::Trunc { m, .. } | Command::Blocks { m, .. } => {
                return masked(field, m);
            }
            Command::Ltz { k, .. } | Command::Over { k, .. } => return masked(field, k - 1),
            Command::Ltzs { h, k, .. } => return masked(field, k - 1).times(h.into()),
            Command::Reveal { .. } => cost.revealed = 1,
            _ => {}
        }
        cost
    }
}

/// What a command with a mask takes that looks at the low m bits.
fn masked(field: &Field, m: u8) -> Cost {
    Cost {
        masks: 1,
        triples: field.bits() as usize + 2 * usize::from(m) - 2,
        ..Cost::default()
    }
}

fn word(four: &[u8]) -> u32 {
    u32::from_le_bytes([four[0], four[1], four[2], four[3]])
}

fn with_word(start: &[u8], v: u32) -> Vec<u8> {
    [start, &v.to_le_bytes()].concat()
}

/// The commands one after the other, and END.
pub fn script_of(commands: &[Command]) -> Vec<u8> {
    let ended = commands.iter().chain([&Command::End]);
    ended.flat_map(Command::to_bytes).collect()
}

#[cfg(test)]
mod tests {
    use super::*;
    use crate::field::FIELDS;

    #[test]
    fn every_command_is_its_byte_and_its_operands() {
        for (byte, &length) in (0..).zip(&OPERANDS) {
            let operands: Vec<u8> = (40..).take(length).collect();
            let bytes = Command::decode(byte, &operands).to_bytes();
            assert_eq!(bytes, [&[byte], operands.as_slice()].concat());
        }
    }

    #[test]
    fn costs_are_those_of_paper_and_requests() {
        let ltz = Command::Ltz { d: 0, a: 0, k: 15 }.cost(&FIELDS[2]);
        assert_eq!((ltz.masks, ltz.triples, ltz.openings()), (1, 42, 85));
        let (d, a, h, k) = (32, 16, 12, 15);
        let ltzs = Command::Ltzs { d, a, h, k }.cost(&FIELDS[2]);
        assert_eq!((ltzs.masks, ltzs.triples, ltzs.openings()), (12, 504, 1020));
        assert_eq!((ltzs.inputs, ltzs.revealed), (0, 0));
        let bitlt = Command::Bitlt {
            d: 0,
            b: 0,
            w: 1,
            v: 0,
        }
        .cost(&FIELDS[0]);
        assert_eq!((bitlt.triples, bitlt.openings()), (0, 0));
        let reveal = Command::Reveal { a: 0 }.cost(&FIELDS[0]);
        assert_eq!((reveal.triples, reveal.openings()), (0, 1));
    }

    #[test]
    fn signs_are_read_from_one_stretch_and_left_in_the_other() {
        let (d, a, h, k) = (40, 3, 3, 2);
        let ltzs = Command::Ltzs { d, a, h, k };
        assert_eq!((ltzs.reads(), ltzs.writes()), (vec![3, 4, 5], 40..43));
        let last = Command::Ltzs { d: 48, a, h: 16, k };
        assert_eq!(last.writes(), 48..64);
        assert_eq!(Command::Load { d: 63 }.writes(), 63..64);
        assert!(Command::Reveal { a }.writes().is_empty());
    }
}
