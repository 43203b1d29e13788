//! The ends of k, m and w, the ends of each k-bit range and their neighbours outside, and the masks 0 and p - 1.

use super::{bits_at, case};
use crate::cases::generator::Generator;
use crate::field::FIELDS;
use crate::run_case::Case;
use crate::script::command::Command;

pub fn all(generator: &mut Generator) -> Vec<Case> {
    let mut cases = Vec::new();
    for number in 0..4 {
        cases.extend(masked(generator, number));
    }
    cases.extend(widths(generator));
    cases.extend(no_bits(generator));
    cases
}

/// A command that takes a mask, by its byte, with its k and m.
pub type Masked = (u8, u8, u8);

/// A run of such a command: the number that it works on and its mask, both modulo p.
pub struct Run {
    pub masked: Masked,
    pub value: u32,
    pub r: u32,
}

fn masked(generator: &mut Generator, number: u32) -> Vec<Case> {
    sheets_of(generator, number, &runs(number))
}

/// Five commands to a sheet, since five take at most 435 of its 512 triples.
pub fn sheets_of(generator: &mut Generator, number: u32, runs: &[Run]) -> Vec<Case> {
    runs.chunks(5)
        .map(|runs| sheet_of(generator, number, runs))
        .collect()
}

fn sheet_of(generator: &mut Generator, number: u32, runs: &[Run]) -> Case {
    let p = FIELDS[number as usize].modulus;
    let mut commands = Vec::new();
    for (register, run) in (0..).zip(runs) {
        commands.extend([
            Command::Load { d: register },
            command(run, register, p),
            Command::Reveal { a: register },
        ]);
    }
    let secrets: Vec<u32> = runs.iter().map(|run| secret(run, p)).collect();
    let masks: Vec<u32> = runs.iter().map(|run| run.r).collect();
    case(generator, number, &commands, &secrets, &masks)
}

/// OVER works on v - a, which for v = 2a is a.
fn command(run: &Run, register: u8, p: u32) -> Command {
    let (d, a) = (register, register);
    let (byte, k, m) = run.masked;
    match byte {
        0x07 => Command::Mod { d, a, k, m },
        0x08 => Command::Trunc { d, a, k, m },
        0x09 => Command::Ltz { d, a, k },
        0x0A => {
            let v = 2 * run.value % p;
            Command::Over { d, a, k, v }
        }
        _ => Command::Blocks { d, a, k, m },
    }
}

/// The number that is shared for the run: BLOCKS works on a + 2^m - 1.
fn secret(run: &Run, p: u32) -> u32 {
    let (byte, _, m) = run.masked;
    match byte {
        0x0B => (run.value + p - ((1 << m) - 1)) % p,
        _ => run.value,
    }
}

/// The mask changes with every value and with every second command, so that each value has both.
pub fn runs(number: u32) -> Vec<Run> {
    let p = FIELDS[number as usize].modulus;
    let commands = masked_commands(FIELDS[number as usize].largest_k as u8);
    let with = |(turn, &masked): (usize, &Masked)| {
        let values = values(number, masked.1, turn);
        let run = move |(i, value)| Run {
            masked,
            value,
            r: (p - 1) * ((turn / 2 + i) as u32 % 2),
        };
        values.into_iter().enumerate().map(run).collect::<Vec<_>>()
    };
    commands.iter().enumerate().flat_map(with).collect()
}

/// The ends of k, and with the largest k those of m.
pub fn ends_of_k_and_m(largest: u8) -> [(u8, u8); 3] {
    [(2, 1), (largest, 1), (largest, largest - 1)]
}

/// The commands at these ends; LTZ and OVER have m = k - 1.
fn masked_commands(largest: u8) -> Vec<Masked> {
    let mut commands = Vec::new();
    for (k, m) in ends_of_k_and_m(largest) {
        let bytes: &[u8] = if m == k - 1 {
            &[0x07, 0x08, 0x09, 0x0A, 0x0B]
        } else {
            &[0x07, 0x08, 0x0B]
        };
        commands.extend(bytes.iter().map(|&byte| (byte, k, m)));
    }
    commands
}

/// The ends of the range, their neighbours outside, -1 and 0. The larger fields, whose masks take
/// many triples, have fewer of them, the last one by turns.
pub fn values(number: u32, k: u8, turn: usize) -> Vec<u32> {
    let p = FIELDS[number as usize].modulus;
    let half = 1u32 << (k - 1);
    let mut outside = [p - half - 1, half];
    let mut middle = [p - 1, 0];
    if turn % 2 == 1 {
        outside.reverse();
        middle.reverse();
    }
    let kept = [6, 5, 4, 3][number as usize];
    let values = [[p - half, half - 1], outside, middle];
    values.into_iter().flatten().take(kept).collect()
}

/// v at both ends of w = 1, 2 and 31, against itself and a neighbour.
fn widths(generator: &mut Generator) -> Vec<Case> {
    let mut cases = Vec::new();
    for (w, v) in [
        (1, 0),
        (1, 1),
        (2, 0),
        (2, 3),
        (31, 0),
        (31, (1u32 << 31) - 1),
        (31, 1 << 30),
    ] {
        for spelled in [v, v ^ 1] {
            let mut commands = bits_at(3, w, spelled);
            commands.push(Command::Bitlt { d: 2, b: 3, w, v });
            cases.push(case(generator, 3 * (v & 1), &commands, &[], &[]));
        }
    }
    cases
}

/// BITLT over registers that hold no bits.
fn no_bits(generator: &mut Generator) -> Vec<Case> {
    let mut cases = Vec::new();
    for number in 0..4 {
        let p = FIELDS[number as usize].modulus;
        let secrets = generator.list(5, p);
        for v in [0b10110, 31] {
            let mut commands: Vec<Command> = (0..5).map(|d| Command::Load { d }).collect();
            commands.push(Command::Bitlt {
                d: 5,
                b: 0,
                w: 5,
                v,
            });
            cases.push(case(generator, number, &commands, &secrets, &[]));
        }
    }
    cases
}
