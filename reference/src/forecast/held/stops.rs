//! 21 to 24 where several commands stand: which is refused, and what those before it set and take.

use super::{held, Draft, Held};
use crate::script::command::Command::{self, *};

pub fn all() -> Vec<Held> {
    let mut all = unset();
    all.extend(short());
    all.extend(signs());
    all.extend(far());
    all
}

/// In field 0 with so many input rows, masks and triples.
fn of(says: &str, commands: &[Command], counts: [u16; 3]) -> Held {
    held(says, Draft::of(0, commands).with_counts(counts))
}

fn unset() -> Vec<Held> {
    let (d, a, b, w, v) = (0, 0, 0, 2, 1);
    let load = Load { d };
    let constant = [Const { d: 63, v }, Reveal { a: 63 }, Reveal { a: 63 }];
    vec![
        of(
            "a constant is set, and REVEAL takes nothing",
            &constant,
            [0; 3],
        ),
        of("21: d = a is not set before", &[Add { d, a, b }], [0; 3]),
        of(
            "21: a is unset and b is set",
            &[load, Sub { d, a: 1, b }],
            [1, 0, 0],
        ),
        of(
            "21: b is unset and a is set",
            &[load, Mul { d, a, b: 1 }],
            [1, 0, 1],
        ),
        of(
            "21: the second bit of BITLT is unset",
            &[load, Bitlt { d, b, w, v }],
            [1, 0, 1],
        ),
        of(
            "21 before 22: the first of two commands",
            &[Reveal { a }, load],
            [0; 3],
        ),
        of(
            "22 before 21: the first of two commands",
            &[load, Reveal { a: 1 }],
            [0; 3],
        ),
    ]
}

fn short() -> Vec<Held> {
    let (d, a, b, k, m, v) = (0, 0, 0, 2, 1, 1);
    let (load, sign, remainder) = (Load { d }, Ltz { d, a, k }, Mod { d, a, k, m });
    let squares = [load, Mul { d, a, b }, Mul { d, a, b }];
    vec![
        of("22: two LOADs on one input row", &[load, load], [1, 0, 0]),
        of("two LOADs on two input rows", &[load, load], [2, 0, 0]),
        of(
            "21 before 23 and 24: MOD of an unset register",
            &[remainder],
            [0; 3],
        ),
        of(
            "23 before 24: MOD without a mask and a triple",
            &[load, remainder],
            [1, 0, 0],
        ),
        of("23: two LTZs on one mask", &[load, sign, sign], [1, 1, 8]),
        of(
            "two LTZs on two masks and 8 triples",
            &[load, sign, sign],
            [1, 2, 8],
        ),
        of(
            "24: two LTZs on two masks and 7 triples",
            &[load, sign, sign],
            [1, 2, 7],
        ),
        of(
            "24: the second of two products on one triple",
            &squares,
            [1, 0, 1],
        ),
        of("two products on two triples", &squares, [1, 0, 2]),
        of(
            "BITLT with w = 1 takes no triple",
            &[load, Bitlt { d, b, w: 1, v }],
            [1, 0, 0],
        ),
    ]
}

/// LTZS of two or three registers, which needs a mask and 4 triples for each.
fn signs() -> Vec<Held> {
    let (d, a, h, k) = (5, 0, 2, 2);
    let loads = [Load { d: 0 }, Load { d: 1 }];
    let signs = [&loads[..], &[Ltzs { d, a, h, k }]].concat();
    let middle = [loads[0], Load { d: 2 }, Ltzs { d, a, h: 3, k }];
    let read = |register| [&signs[..], &[Reveal { a: register }]].concat();
    vec![
        of(
            "21 before 23: the middle register of LTZS is unset",
            &middle,
            [2, 0, 0],
        ),
        of("23: LTZS of two registers on one mask", &signs, [2, 1, 8]),
        of(
            "23 before 24: LTZS on a mask and 7 triples",
            &signs,
            [2, 1, 7],
        ),
        of("LTZS sets its last register", &read(6), [2, 2, 8]),
        of("21: LTZS sets no more", &read(7), [2, 2, 8]),
    ]
}

/// Places that a byte does not hold. ADD is the byte 3, and so is its register: the table needs only say how
/// often it stands.
fn far() -> Vec<Held> {
    let (d, a, b) = (3, 3, 3);
    let commands = [vec![Load { d }], vec![Add { d, a, b }; 64]].concat();
    let product = [&commands[..], &[Mul { d, a, b }]].concat();
    vec![
        of("64 additions, and END after 255", &commands, [1, 0, 0]),
        of(
            "24: a product after 255 without a triple",
            &product,
            [1, 0, 0],
        ),
    ]
}
