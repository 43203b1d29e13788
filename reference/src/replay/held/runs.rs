//! Runs that come to END: every party, every command, absent parties, and record left over.

use super::{held, printed, Held};
use crate::replay::dealt::{product, Setting, Work, SMALL};
use crate::script::command::Command::{self, *};

pub fn all() -> Vec<Held> {
    let mut all = parties();
    all.extend(absent());
    all.extend(left_over());
    all.extend(linear());
    all.extend(masked());
    all.extend(other_fields());
    all
}

fn parties() -> Vec<Held> {
    let of = |says, index, parties, party| {
        let case = product().recorded(index, (0, parties)).case(party);
        held(says, case)
    };
    let mut all: Vec<Held> = (1..=3)
        .map(|party| {
            let says = format!("the paper's printed run, party {party}");
            held(&says, printed().case(party))
        })
        .collect();
    all.extend([
        of("n = 5, t = 2, party 5", 2, (5, 2), 5),
        of("n = 7, t = 3, party 4", 3, (7, 3), 4),
    ]);
    all
}

/// An entry of p is an absent share, and each opening may have other ones.
fn absent() -> Vec<Held> {
    let small = |party| printed().case(party);
    let five = |party| product().recorded(2, (0, (5, 2))).case(party);
    let seven = |party| product().recorded(3, (0, (7, 3))).case(party);
    vec![
        held("party 2 absent, party 2", small(2).with_sets(&[0b101])),
        held(
            "another party absent in each opening",
            small(3).with_sets(&[0b110, 0b101, 0b011]),
        ),
        held(
            "party 1 absent, whose input share is another",
            small(1).with_sets(&[0b110]).with_share(0, 1),
        ),
        held(
            "n = 5, t = 2: 1, 3 and 5, then 2, 3 and 4",
            five(3).with_sets(&[0b10101, 0b01110]),
        ),
        held(
            "n = 7, t = 3: 4 to 7, party 2",
            seven(2).with_sets(&[0b1111000]),
        ),
    ]
}

/// What stands after the openings is ignored.
fn left_over() -> [Held; 2] {
    let case = || printed().case(2);
    [
        held(
            "an opening of numbers above p is left over",
            case().followed_by(&[14, u32::MAX, 99]),
        ),
        held(
            "nothing is opened, and a record is left",
            case().with_script(&[1, 0, 0]),
        ),
    ]
}

fn one(index: u64, (says, commands, secrets, masks): Small) -> Held {
    let work = Work::new(&commands, secrets, masks);
    let party = 1 + index as usize % 3;
    held(says, work.recorded(index, SMALL).case(party))
}

/// What it says, commands, secrets and masks.
type Small = (&'static str, Vec<Command>, &'static [u32], &'static [u32]);

fn linear() -> Vec<Held> {
    let loads = |count: u8| (0..count).map(|d| Load { d });
    let after = |count, commands: &[Command]| -> Vec<Command> {
        loads(count).chain(commands.iter().copied()).collect()
    };
    let sums = [
        Const { d: 63, v: 12 },
        Add { d: 2, a: 0, b: 1 },
        Sub { d: 3, a: 0, b: 1 },
        Scale { d: 0, a: 1, v: 5 },
    ];
    let (b, v) = (0, 5);
    let compared = [
        Bitlt { d: 4, b, w: 3, v },
        Bitlt {
            d: 5,
            b,
            w: 1,
            v: 0,
        },
    ];
    let all: [Small; 3] = [
        ("CONST, ADD, SUB and SCALE", after(2, &sums), &[3, 9], &[]),
        (
            "the square of a product, d being an operand",
            after(1, &[Mul { d: 0, a: 0, b: 0 }, Mul { d: 0, a: 0, b: 0 }]),
            &[7],
            &[],
        ),
        (
            "BITLT w=3, v=5 of 6, and w=1, which opens nothing",
            after(3, &compared),
            &[0, 1, 1],
            &[],
        ),
    ];
    (20..)
        .zip(all)
        .map(|(index, small)| one(index, small))
        .collect()
}

fn masked() -> Vec<Held> {
    let (d, a, k, m) = (1, 0, 3, 1);
    let with = |command| vec![Load { d: a }, command, Reveal { a: d }];
    let signs = |h: u8, d, k| -> Vec<Command> {
        let loads = (0..h).map(|d| Load { d });
        loads.chain([Ltzs { d, a: 0, h, k }]).collect()
    };
    let all: [Small; 6] = [
        (
            "MOD m=1, -3, r = 12",
            with(Mod { d, a, k, m }),
            &[10],
            &[12],
        ),
        ("TRUNC m=1, -3", with(Trunc { d, a, k, m }), &[10], &[5]),
        ("LTZ -4", with(Ltz { d, a, k }), &[9], &[0]),
        ("OVER v=2 of 3", with(Over { d, a, k, v: 2 }), &[3], &[7]),
        ("BLOCKS m=1 of 3", with(Blocks { d, a, k, m }), &[3], &[4]),
        (
            "LTZS of three, d = a",
            signs(3, 0, 2),
            &[1, 12, 0],
            &[1, 6, 11],
        ),
    ];
    (24..)
        .zip(all)
        .map(|(index, small)| one(index, small))
        .collect()
}

/// Without a mask but in field 1, where it has 8 bits, and in field 2, where it has 16.
fn other_fields() -> Vec<Held> {
    let of = |says, index, setting: Setting, work: &Work, party| {
        held(says, work.recorded(index, setting).case(party))
    };
    let (d, a) = (1, 0);
    let remainder = |k, m, secret, mask| {
        let commands = [Load { d: a }, Mod { d, a, k, m }];
        Work::new(&commands, &[secret], &[mask])
    };
    vec![
        of("a product in field 2", 51, (2, (3, 1)), &product(), 1),
        of("a product in field 3", 52, (3, (5, 2)), &product(), 4),
        of(
            "field 1, MOD k=7 m=2",
            53,
            (1, (3, 1)),
            &remainder(7, 2, 210, 77),
            3,
        ),
        of(
            "field 2, MOD k=15 m=1",
            54,
            (2, (3, 1)),
            &remainder(15, 1, 171, 40_000),
            1,
        ),
    ]
}
