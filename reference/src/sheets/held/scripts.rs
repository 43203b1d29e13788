//! Scripts that 9 to 11 refuse, each ground alone at its place and against the others, and operands at the ends of their ranges.
//! The sheets have no row, so that a script that is let through stops with 21 or 22 at its first command that reads or loads.

use super::Held;
use crate::field::FIELDS;
use crate::script::command::Command;

pub fn all() -> Vec<Held> {
    let mut all = commands();
    all.extend(ends());
    all.extend(sizes());
    all.extend(first_of_two());
    all.extend(registers());
    all.extend(widths());
    all.extend(values());
    all.extend(comparisons());
    all.extend(signs());
    all
}

/// Three parties, threshold 1, no row.
fn held(says: &'static str, field: u8, script: &[u8]) -> Held {
    let [low, high] = (script.len() as u16).to_le_bytes();
    let header = [field, 3, 1, 0, 0, 0, 0, 0, 0, low, high];
    Held::plain(says, &header, script, &[])
}

/// LOAD 0, the command, END: the command's place is 2.
fn after_load(says: &'static str, field: u8, command: Command) -> Held {
    held(
        says,
        field,
        &[&[1, 0], command.to_bytes().as_slice(), &[0]].concat(),
    )
}

/// The command and END: one that is let through stops at 0 with 21, or 22.
fn alone(says: &'static str, field: u8, command: Command) -> Held {
    held(says, field, &[command.to_bytes(), vec![0]].concat())
}

fn commands() -> Vec<Held> {
    vec![
        held("9: byte 0F", 0, &[15, 0]),
        held("9: its place is the command's offset", 0, &[1, 0, 15, 0]),
        held("9: byte FF", 0, &[1, 0, 255, 0]),
        held("9 before 10: no END either", 0, &[1, 0, 15]),
    ]
}

fn ends() -> Vec<Held> {
    vec![
        held("10: an empty script", 0, &[]),
        held("10: no END: the place is the script length", 0, &[1, 0]),
        held(
            "10: bytes after END: the place is the offset just after END",
            0,
            &[1, 0, 0, 0],
        ),
        held("10: END twice", 0, &[0, 0]),
        held("10: what follows END is not read", 0, &[1, 0, 0, 15]),
        held("10: nor is it tried for 11", 0, &[1, 0, 0, 1, 64, 0]),
        held(
            "22: 100 times LOAD 1, and END: a longer script is read whole",
            0,
            &[[1; 200].as_slice(), &[0]].concat(),
        ),
    ]
}

/// Each command from 01 to 0E.
fn every() -> Vec<Command> {
    use Command::*;
    let (d, a, b, k, m, v) = (1, 2, 3, 3, 1, 4);
    vec![
        Load { d },
        Const { d, v },
        Add { d, a, b },
        Sub { d, a, b },
        Scale { d, a, v },
        Mul { d, a, b },
        Mod { d, a, k, m },
        Trunc { d, a, k, m },
        Ltz { d, a, k },
        Over { d, a, k, v },
        Blocks { d, a, k, m },
        Reveal { a },
        Bitlt { d, b, w: 3, v },
        Ltzs { d, a, h: 1, k },
    ]
}

/// LOAD 0 and each command, without its last byte and then whole; END is missing.
fn sizes() -> Vec<Held> {
    let whole = |command: &Command| [vec![1, 0], command.to_bytes()].concat();
    let cut = every().into_iter().map(|command| {
        let whole = whole(&command);
        let says = "10: operands cut off: the place is the command's offset";
        held(says, 0, &whole[..whole.len() - 1])
    });
    let ended = every().into_iter().map(|command| {
        let says = "10: no END after the command";
        held(says, 0, &whole(&command))
    });
    cut.chain(ended).collect()
}

fn first_of_two() -> Vec<Held> {
    vec![
        held("10 before 11: ADD 64 0, cut off", 0, &[1, 0, 3, 64, 0]),
        held("11 before 9, command by command", 0, &[1, 0, 1, 64, 15, 0]),
        held("9 before 11, command by command", 0, &[1, 0, 15, 1, 64, 0]),
        held("11 before a missing END", 0, &[1, 0, 1, 64]),
        held("11 before bytes after END", 0, &[1, 0, 1, 64, 0, 0]),
        held("11 before operands cut off", 0, &[1, 0, 1, 64, 6, 0]),
    ]
}

/// Each register operand at 63 and at 64. CONST 63 is run in another table.
fn registers() -> Vec<Held> {
    use Command::*;
    let (k, m, v) = (3, 1, 4);
    let two = |(d, a)| {
        [
            Scale { d, a, v },
            Mod { d, a, k, m },
            Trunc { d, a, k, m },
            Ltz { d, a, k },
            Over { d, a, k, v },
            Blocks { d, a, k, m },
        ]
    };
    let three = |(d, a, b)| [Add { d, a, b }, Sub { d, a, b }, Mul { d, a, b }];
    let good = [Reveal { a: 63 }].into_iter();
    let good = good.chain(two((63, 63))).chain(three((63, 63, 63)));
    let ones = [Load { d: 64 }, Const { d: 64, v }, Reveal { a: 64 }];
    let twos = [(64, 0), (0, 64)].into_iter().flat_map(two);
    let threes = [(64, 0, 0), (0, 64, 0), (0, 0, 64)];
    let bad = ones.into_iter().chain(twos);
    let bad = bad.chain(threes.into_iter().flat_map(three));
    let mut all = vec![alone("22: register 63 is let through", 0, Load { d: 63 })];
    all.extend(good.map(|command| alone("21: register 63 is let through", 0, command)));
    all.extend(bad.map(|command| after_load("11: register 64", 0, command)));
    all
}

/// k from 2 to the field's largest, m from 1 to k - 1.
fn widths() -> Vec<Held> {
    use Command::*;
    let (d, a, v) = (0, 0, 4);
    let with_k = |k| [Ltz { d, a, k }, Over { d, a, k, v }];
    let with_m = |(k, m)| {
        [
            Mod { d, a, k, m },
            Trunc { d, a, k, m },
            Blocks { d, a, k, m },
        ]
    };
    let good = [2, 3].into_iter().flat_map(with_k);
    let good = good.chain([(2, 1), (3, 2)].into_iter().flat_map(with_m));
    let bad_k = [1, 4].into_iter().flat_map(with_k);
    let bad_k = bad_k.chain([(1, 1), (4, 1)].into_iter().flat_map(with_m));
    let bad_m = [(2, 0), (3, 3)].into_iter().flat_map(with_m);
    let mut all: Vec<Held> = good
        .map(|command| {
            alone(
                "21: k from 2 to 3, m from 1 to k - 1 are let through",
                0,
                command,
            )
        })
        .collect();
    all.extend(bad_k.map(|command| after_load("11: k is not from 2 to 3", 0, command)));
    all.extend(bad_m.map(|command| after_load("11: m is not from 1 to k - 1", 0, command)));
    for (number, field) in (1..).zip(&FIELDS[1..]) {
        let largest = field.largest_k as u8;
        let command = |k, m| Mod { d, a, k, m };
        all.push(alone(
            "21: the field's largest k",
            number,
            command(largest, largest - 1),
        ));
        all.push(after_load("11: one more", number, command(largest + 1, 1)));
    }
    all
}

/// v below p; its four bytes.
fn values() -> Vec<Held> {
    use Command::*;
    let (d, a, k) = (0, 0, 2);
    let with = |v| [Const { d, v }, Scale { d, a, v }, Over { d, a, k, v }];
    let mut all = vec![
        alone("21: v to p - 1", 0, Scale { d, a, v: 12 }),
        alone("21: v to p - 1", 0, Over { d, a, k, v: 12 }),
    ];
    all.extend(with(13).map(|command| after_load("11: v is p", 0, command)));
    all.extend(with(1 << 24).map(|command| after_load("11: v has four bytes", 0, command)));
    for (number, field) in (1..).zip(&FIELDS[1..]) {
        let p = field.modulus;
        all.push(alone("21: v to p - 1", number, Scale { d, a, v: p - 1 }));
        all.push(after_load("11: v is p", number, Scale { d, a, v: p }));
    }
    all
}

/// BITLT: w from 1 to 31, b + w at most 64, v below 2^w. The registers 0 to 63 are unset.
fn comparisons() -> Vec<Held> {
    let bitlt = |d, b, w, v| Command::Bitlt { d, b, w, v };
    let good = [
        (63, 63, 1, 0),
        (0, 63, 1, 1),
        (0, 33, 31, (1 << 31) - 1),
        (0, 62, 2, 3),
    ];
    let bad = [
        ("11: register 64", (64, 0, 1, 0)),
        ("11: register 64", (0, 64, 1, 0)),
        ("11: w is 0", (0, 0, 0, 0)),
        ("11: w is 32", (0, 0, 32, 0)),
        ("11: b + w is 65", (0, 63, 2, 0)),
        ("11: b + w is 65", (0, 34, 31, 0)),
        ("11: v is 2^w", (0, 0, 1, 2)),
        ("11: v is 2^w", (0, 0, 31, 1 << 31)),
        ("11: v is 2^w", (0, 0, 2, 4)),
    ];
    let good = good.map(|(d, b, w, v)| {
        alone(
            "21: w from 1 to 31, b + w to 64, v to 2^w - 1",
            0,
            bitlt(d, b, w, v),
        )
    });
    let bad = bad.map(|(says, (d, b, w, v))| after_load(says, 0, bitlt(d, b, w, v)));
    good.into_iter()
        .chain(bad)
        .chain([alone("21: v is not held to p", 0, bitlt(0, 0, 4, 15))])
        .collect()
}

/// LTZS: h from 1 to 16, both stretches to register 63, equal or with no register in both, and k as for LTZ in every
/// field.
fn signs() -> Vec<Held> {
    let good = [
        ("21: LTZS h = 1, d = a", 0, (63, 63, 1, 2)),
        ("21: LTZS h = 2, d = a", 0, (5, 5, 2, 3)),
        (
            "21: LTZS h = 16, the registers read to 63",
            0,
            (0, 48, 16, 2),
        ),
        (
            "21: LTZS h = 16, the registers left to 63",
            0,
            (48, 0, 16, 3),
        ),
        ("21: LTZS h = 2, d + h is a", 0, (0, 2, 2, 2)),
        ("21: LTZS h = 2, a + h is d", 0, (2, 0, 2, 2)),
        ("21: LTZS h = 16, d + h is a", 0, (0, 16, 16, 2)),
        ("21: LTZS h = 16, a + h is d", 0, (16, 0, 16, 2)),
        ("21: LTZS k = 7 in field 1", 1, (0, 5, 5, 7)),
        ("21: LTZS k = 15 in field 2", 2, (32, 16, 12, 15)),
        ("21: LTZS k = 30 in field 3", 3, (9, 0, 9, 30)),
    ];
    let bad = [
        ("11: LTZS, h is 0", 0, (0, 0, 0, 2)),
        ("11: LTZS, h is 17", 0, (0, 32, 17, 2)),
        ("11: LTZS, a + h is 65", 0, (0, 49, 16, 2)),
        ("11: LTZS, d + h is 65", 0, (49, 0, 16, 2)),
        ("11: LTZS h = 2, d + h is a + 1", 0, (0, 1, 2, 2)),
        ("11: LTZS h = 2, a + h is d + 1", 0, (1, 0, 2, 2)),
        ("11: LTZS h = 3, one register is in both", 0, (0, 2, 3, 2)),
        ("11: LTZS h = 3, two registers are in both", 0, (0, 1, 3, 2)),
        ("11: LTZS h = 16, d + h is a + 1", 0, (0, 15, 16, 2)),
        ("11: LTZS h = 16, a + h is d + 1", 0, (15, 0, 16, 2)),
        ("11: LTZS, k is 1", 0, (0, 0, 2, 1)),
        ("11: LTZS, k is 4", 0, (0, 0, 2, 4)),
        ("11: LTZS, k is 8 in field 1", 1, (0, 5, 5, 8)),
        ("11: LTZS, k is 16 in field 2", 2, (32, 16, 12, 16)),
        ("11: LTZS, k is 31 in field 3", 3, (9, 0, 9, 31)),
    ];
    let ltzs = |(d, a, h, k)| Command::Ltzs { d, a, h, k };
    let good = good.map(|(says, field, operands)| alone(says, field, ltzs(operands)));
    let bad = bad.map(|(says, field, operands)| after_load(says, field, ltzs(operands)));
    good.into_iter().chain(bad).collect()
}
