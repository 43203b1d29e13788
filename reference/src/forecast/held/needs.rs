//! Commands that take several triples, with just enough and with a triple less.

use super::{held, Draft, Held};
use crate::script::command::Command::{self, *};

/// A field's number, a command, what the comment says of it, and its triples by the paper's formulas.
type Needs = (u8, Command, &'static str, u16);

pub fn all() -> Vec<Held> {
    let needs = in_field_0().into_iter().chain(in_other_fields());
    needs.flat_map(rows).collect()
}

/// LOADs set what the command reads: three bits, the registers of LTZS, else one.
fn head((field, command, ..): Needs, triples: u16) -> Draft {
    let reads = command.reads();
    let inputs = reads.len() as u16;
    // a mask for each register that is read
    let masks = match command {
        Bitlt { .. } => 0,
        _ => inputs,
    };
    let loads = reads.into_iter().map(|d| Load { d });
    let commands: Vec<Command> = loads.chain([command]).collect();
    Draft::of(field, &commands).with_counts([inputs, masks, triples])
}

fn rows(needs: Needs) -> [Held; 2] {
    let (.., says, triples) = needs;
    let (name, _) = says
        .split_once(" takes ")
        .expect("it says what the command takes");
    let less = format!("24: {name} with a triple less");
    [
        held(says, head(needs, triples)),
        held(&less, head(needs, triples - 1)),
    ]
}

fn in_field_0() -> [Needs; 7] {
    let (d, a, b, h, k, m, v) = (0, 0, 0, 2, 3, 1, 1);
    [
        (0, Bitlt { d, b, w: 3, v }, "BITLT w=3 takes 2 triples", 2),
        (0, Mod { d, a, k, m }, "MOD m=1 takes 4 triples", 4),
        (0, Trunc { d, a, k, m: 2 }, "TRUNC m=2 takes 6 triples", 6),
        (
            0,
            Ltz { d, a, k },
            "LTZ k=3 takes 6 triples, since m is 2",
            6,
        ),
        (
            0,
            Over { d, a, k: 2, v },
            "OVER k=2 takes 4 triples, since m is 1",
            4,
        ),
        (0, Blocks { d, a, k, m }, "BLOCKS m=1 takes 4 triples", 4),
        (0, Ltzs { d, a, h, k }, "LTZS h=2 k=3 takes 12 triples", 12),
    ]
}

fn in_other_fields() -> [Needs; 3] {
    let (d, a, v) = (0, 0, 170);
    [
        (
            1,
            Trunc { d, a, k: 7, m: 3 },
            "TRUNC m=3 in field 1 takes 12 triples",
            12,
        ),
        (
            2,
            Over { d, a, k: 15, v },
            "OVER k=15 in field 2 takes 42 triples",
            42,
        ),
        (
            3,
            Ltz { d, a, k: 30 },
            "LTZ k=30 in field 3 takes 87 triples",
            87,
        ),
    ]
}
