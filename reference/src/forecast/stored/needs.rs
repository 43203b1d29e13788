//! Every command that takes something, in every field and for several k, m and w: with just enough, with one
//! less of each thing that it takes, and with more.

use super::Told;
use crate::field::FIELDS;
use crate::forecast::draft::Draft;
use crate::refusal::{NONE, NO_INPUT, NO_MASK, NO_TRIPLES};
use crate::script::command::{script_of, Command};

/// By the paper's table.
const BITS: [u16; 4] = [4, 8, 16, 31];

pub fn all() -> Vec<Told> {
    let mut all = Vec::new();
    for (field, bits) in (0..).zip(BITS) {
        let largest = FIELDS[usize::from(field)].largest_k as u8;
        all.extend(loaded(field));
        all.extend(multiplied(field));
        for (command, m) in masked(largest) {
            all.extend(around(field, command, 1, bits + 2 * u16::from(m) - 2));
        }
        for (h, k) in signs(largest) {
            let command = Command::Ltzs { d: 0, a: 0, h, k };
            let (masks, m) = (u16::from(h), u16::from(k) - 1);
            all.extend(around(field, command, masks, masks * (bits + 2 * m - 2)));
        }
    }
    all
}

fn loaded(field: u8) -> [Told; 3] {
    let with = |inputs, number, place| {
        let draft = Draft::of(field, &[Command::Load { d: 7 }]);
        (draft.with_counts([inputs, 0, 0]).to_bytes(), number, place)
    };
    [with(0, NO_INPUT, 0), with(1, NONE, 2), with(2, NONE, 2)]
}

/// MUL, and BITLT of some widths.
fn multiplied(field: u8) -> Vec<Told> {
    let mut all = around(field, Command::Mul { d: 1, a: 0, b: 0 }, 0, 1);
    for w in [1, 2, 3, 4, 8, 16, 30, 31] {
        let v = (1 << w) - 1;
        let command = Command::Bitlt { d: 0, b: 0, w, v };
        all.extend(around(field, command, 0, u16::from(w) - 1));
    }
    all
}

/// The commands with a mask, and the m that decides what they take.
fn masked(largest: u8) -> Vec<(Command, u8)> {
    use Command::*;
    let (d, a, v) = (1, 0, 1);
    let middle = largest.div_ceil(2);
    let mut widths = vec![
        (2, 1),
        (largest, 1),
        (largest, middle),
        (largest, largest - 1),
    ];
    widths.dedup();
    let mut all = Vec::new();
    for (k, m) in widths {
        all.extend([
            (Mod { d, a, k, m }, m),
            (Trunc { d, a, k, m }, m),
            (Blocks { d, a, k, m }, m),
        ]);
    }
    for k in [2, 3, middle.max(2), largest - 1, largest] {
        all.extend([(Ltz { d, a, k }, k - 1), (Over { d, a, k, v }, k - 1)]);
    }
    all
}

/// The h and k of LTZS: with the smallest k every h has room in every field, with the largest only a small h.
fn signs(largest: u8) -> Vec<(u8, u8)> {
    let mut all: Vec<(u8, u8)> = (1..=16).map(|h| (h, 2)).collect();
    all.extend([1, 2, 3, 5].map(|h| (h, largest)));
    all
}

/// The command after LOADs of all that it reads, with so many masks and triples, fewer and more.
fn around(field: u8, command: Command, masks: u16, triples: u16) -> Vec<Told> {
    let reads = command.reads();
    let loads = reads.iter().map(|&d| Command::Load { d });
    let commands: Vec<Command> = loads.chain([command]).collect();
    let inputs = commands.len() as u16 - 1;
    let (place, end) = (2 * usize::from(inputs), script_of(&commands).len() - 1);
    let with = |masks, triples, number, place| {
        let draft = Draft::of(field, &commands).with_counts([inputs, masks, triples]);
        (draft.to_bytes(), number, place)
    };
    // 16 are the most
    let more = (masks + 1).min(16);
    let mut all = vec![
        with(masks, triples, NONE, end),
        with(more, triples + 1, NONE, end),
    ];
    if masks > 0 {
        all.push(with(masks - 1, triples, NO_MASK, place));
    }
    if triples > 0 {
        all.push(with(masks, triples - 1, NO_TRIPLES, place));
        all.push(with(more, triples - 1, NO_TRIPLES, place));
    }
    all
}
