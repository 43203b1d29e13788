//! 1 to 5 where nothing else is wrong, what they let through, and each where the later ones apply too.

use super::Told;
use crate::cases::PERMITTED;
use crate::field::FIELDS;
use crate::refusal::{COMMAND, FIELD, HEADER, LENGTH, NONE, PARTIES, VALUE};
use crate::replay::case::Case;
use crate::replay::dealt::{product, recorded, Work};
use crate::script::command::script_of;
use crate::script::command::Command::*;

pub fn all() -> Vec<Told> {
    let mut all = headers();
    all.extend(parties());
    all.extend(counts());
    all.extend(lengths());
    all.extend(shares());
    all.extend(in_order());
    all
}

/// END alone.
fn end(field: u8, (n, t): (u8, u8)) -> Case {
    Case {
        party: 1,
        head: vec![field, n, t, 0, 0, 0, 0, 0, 0, 1, 0, 0],
        part: vec![],
        record: vec![],
    }
}

/// The product of two inputs, revealed: MUL at 4, REVEAL at 8 and END at 10.
fn run(field: u32) -> Case {
    product().recorded(70, (field, (3, 1))).case(2)
}

fn headers() -> Vec<Told> {
    let good = run(0);
    let mut all: Vec<Told> = (0..=10)
        .map(|length| (good.clone().with_head(&good.head[..length]), HEADER, 0))
        .collect();
    for field in [4, 5, 16, 17, 18, 19, 128, 255] {
        all.push((good.clone().with_byte(0, field), FIELD, 0));
    }
    for (n, t) in OUTSIDE {
        all.push((good.clone().with_byte(1, n).with_byte(2, t), PARTIES, 0));
    }
    all
}

/// n and t of which one is outside its range, or both.
const OUTSIDE: [(u8, u8); 12] = [
    (0, 0),
    (2, 0),
    (2, 1),
    (8, 1),
    (8, 3),
    (255, 1),
    (3, 0),
    (7, 0),
    (3, 2),
    (4, 2),
    (6, 3),
    (7, 4),
];

/// Every number of parties: each of them, and numbers that are none of them.
fn parties() -> Vec<Told> {
    let mut all = Vec::new();
    for (n, t) in PERMITTED {
        let end = |party| end(0, (n as u8, t as u8)).with_party(party);
        all.extend((1..=n).map(|party| (end(party), NONE, 0)));
        let none = [0, n + 1, 8, 255, 256, 257, 256 + n, 1 << 16, 1 << 31];
        all.extend(none.map(|party| (end(party), PARTIES, 0)));
        all.push((end(u32::MAX), PARTIES, 0));
    }
    all
}

/// Each count at its limit, one over it, and with a high byte alone, the part and the script being as long as
/// they imply.
fn counts() -> Vec<Told> {
    let mut all = Vec::new();
    for (place, limit, shares) in [(3, 64, 1), (5, 16, 4), (7, 512, 3)] {
        let with = |count: u16| {
            let [low, high] = count.to_le_bytes();
            let case = end(0, (3, 1)).with_byte(place, low);
            case.with_byte(place + 1, high)
        };
        let long = |count: u16| with(count).with_part(&vec![0; 4 * shares * usize::from(count)]);
        if place != 7 {
            all.push((long(limit), NONE, 0));
            all.push((long(limit + 1), LENGTH, 0));
        }
        let over = [limit + 1, 1 << 15, u16::MAX];
        all.extend(over.map(|count| (with(count), LENGTH, 0)));
    }
    let longest = longest();
    let longer = [&longest[..], &[0]].concat();
    all.push((end(0, (3, 1)).with_script(&longest), NONE, 1_023));
    all.push((end(0, (3, 1)).with_script(&longer), LENGTH, 0));
    all
}

/// A script of 1,024 bytes: commands of 1,008, 7, 4 and 4 bytes, and END.
fn longest() -> Vec<u8> {
    let (d, a, b, v) = (63, 63, 63, 5);
    let mut commands = vec![Const { d, v }; 168];
    commands.extend([Scale { d, a, v }, Add { d, a, b }, Add { d, a, b }]);
    script_of(&commands)
}

/// Head and part some bytes too short or too long.
fn lengths() -> Vec<Told> {
    let mut all = Vec::new();
    for field in 0..4 {
        let good = run(field);
        let (head, part) = (&good.head, &good.part);
        for less in [1, 2, 11] {
            let head = &head[..head.len() - less];
            all.push((good.clone().with_head(head), LENGTH, 0));
        }
        for more in [1, 2, 100] {
            let head = [&head[..], &vec![0; more]].concat();
            all.push((good.clone().with_head(&head), LENGTH, 0));
        }
        for less in [1, 2, 3, 4, 5, 8, part.len()] {
            let part = &part[..part.len() - less];
            all.push((good.clone().with_part(part), LENGTH, 0));
        }
        for more in [1, 2, 3, 4, 5, 8, part.len()] {
            let part = [&part[..], &vec![0; more]].concat();
            all.push((good.clone().with_part(&part), LENGTH, 0));
        }
        // the parts of all three parties
        let whole = [&part[..], part, part].concat();
        all.push((good.clone().with_part(&whole), LENGTH, 0));
    }
    all
}

/// Each share of inputs, masks and triples not below p; what is below it is taken. The record is empty, and
/// nothing is opened.
fn shares() -> Vec<Told> {
    let mut all = Vec::new();
    for (field, p) in (0..).zip(FIELDS.iter().map(|field| field.modulus)) {
        let work = Work::new(&[Load { d: 0 }, Load { d: 1 }], &[1, 2], &[3]);
        let mut draft = work.draft(71, (field, (3, 1)));
        draft.triples = product().draft(72, (field, (3, 1))).triples;
        let good = recorded(&draft).case(3);
        let count = good.part.len() / 4;
        for index in [0, 1, 2, count - 4, count - 3, count - 2, count - 1] {
            for share in [0, p - 1] {
                all.push((good.clone().with_share(index, share), NONE, 4));
            }
            for share in [p, p + 1, u32::MAX] {
                all.push((good.clone().with_share(index, share), VALUE, 0));
            }
        }
    }
    all
}

/// Every pair of 1 to 5 and 9, the first being answered.
fn in_order() -> Vec<Told> {
    type Fault = (u32, fn(Case) -> Case);
    let faults: [Fault; 10] = [
        (HEADER, |case| {
            let head = case.head[..10].to_vec();
            case.with_head(&head)
        }),
        (FIELD, |case| case.with_byte(0, 4)),
        (PARTIES, |case| case.with_byte(1, 2)),
        (PARTIES, |case| case.with_party(0)),
        (PARTIES, |case| case.with_party(4)),
        (LENGTH, |case| case.with_byte(3, 65)),
        (LENGTH, |case| {
            let part = case.part[..19].to_vec();
            case.with_part(&part)
        }),
        (LENGTH, |case| {
            let head = [&case.head[..], &[0]].concat();
            case.with_head(&head)
        }),
        (VALUE, |case| case.with_share(2, 13)),
        (COMMAND, |case| case.with_byte(11, 15)),
    ];
    let mut all = Vec::new();
    for (first, &(number, fault)) in faults.iter().enumerate() {
        all.push((fault(run(0)), number, 0));
        for &(_, later) in &faults[first + 1..] {
            // the later one first, since it needs the bytes that the first cuts off
            all.push((fault(later(run(0))), number, 0));
        }
    }
    all
}
