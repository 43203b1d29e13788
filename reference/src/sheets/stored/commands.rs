//! Every command, in every field and for every number of parties and threshold.

use super::{bits_at, case};
use crate::cases::generator::Generator;
use crate::cases::PERMITTED;
use crate::dealer::Dealer;
use crate::field::FIELDS;
use crate::run_case::Case;
use crate::script::command::Command;
use crate::sheets::draft::Draft;

pub fn all(generator: &mut Generator) -> Vec<Case> {
    let mut cases = vec![case(generator, 0, &[], &[], &[])];
    for number in 0..4 {
        cases.extend(linear(generator, number));
        cases.extend(products(generator, number));
    }
    for number in 0..2 {
        cases.extend(masked(generator, number));
    }
    cases.extend(comparisons(generator));
    cases.extend(parties(generator));
    cases.push(tariff(generator));
    cases
}

fn pairs(number: u32) -> [(u32, u32); 3] {
    let p = FIELDS[number as usize].modulus;
    [(0, p - 1), (p - 1, p - 1), (p / 2, p / 2 + 1)]
}

/// CONST, ADD, SUB and SCALE of two values.
fn linear(generator: &mut Generator, number: u32) -> Vec<Case> {
    let with = |(x, v): (u32, u32)| {
        let commands = [
            Command::Load { d: 0 },
            Command::Const { d: 1, v },
            Command::Add { d: 2, a: 0, b: 1 },
            Command::Sub { d: 3, a: 0, b: 1 },
            Command::Sub { d: 4, a: 1, b: 0 },
            Command::Scale { d: 5, a: 0, v },
            Command::Reveal { a: 2 },
            Command::Reveal { a: 3 },
            Command::Reveal { a: 5 },
        ];
        case(generator, number, &commands, &[x], &[])
    };
    pairs(number).map(with).into()
}

fn products(generator: &mut Generator, number: u32) -> Vec<Case> {
    let with = |(x, y): (u32, u32)| {
        let commands = [
            Command::Load { d: 0 },
            Command::Load { d: 1 },
            Command::Mul { d: 2, a: 0, b: 1 },
            Command::Reveal { a: 2 },
        ];
        case(generator, number, &commands, &[x, y], &[])
    };
    pairs(number).map(with).into()
}

/// The commands that take a mask.
fn masked_commands() -> [Command; 5] {
    let (d, a, k, m) = (1, 0, 3, 2);
    [
        Command::Mod { d, a, k, m },
        Command::Trunc { d, a, k, m },
        Command::Ltz { d, a, k },
        Command::Over { d, a, k, v: 2 },
        Command::Blocks { d, a, k, m },
    ]
}

fn masked(generator: &mut Generator, number: u32) -> Vec<Case> {
    let p = FIELDS[number as usize].modulus;
    let with = |command| {
        let commands = [Command::Load { d: 0 }, command, Command::Reveal { a: 1 }];
        let r = generator.below(p);
        case(generator, number, &commands, &[p - 3], &[r])
    };
    masked_commands().map(with).into()
}

/// v of three bits against itself and a neighbour.
fn comparisons(generator: &mut Generator) -> Vec<Case> {
    let mut cases = Vec::new();
    for v in [0, 3, 5, 6] {
        for spelled in [v, v ^ 1] {
            let mut commands = bits_at(0, 3, spelled);
            commands.extend([
                Command::Bitlt {
                    d: 3,
                    b: 0,
                    w: 3,
                    v,
                },
                Command::Reveal { a: 3 },
            ]);
            cases.push(case(generator, v % 2, &commands, &[], &[]));
        }
    }
    cases
}

/// A product and a sign for every number of parties and threshold.
fn parties(generator: &mut Generator) -> Vec<Case> {
    let commands = [
        Command::Load { d: 0 },
        Command::Load { d: 1 },
        Command::Mul { d: 2, a: 0, b: 1 },
        Command::Ltz { d: 3, a: 2, k: 3 },
        Command::Reveal { a: 2 },
        Command::Reveal { a: 3 },
    ];
    let with = |parties| {
        let mut dealer = Dealer::new(generator, 0, parties);
        let secrets = [dealer.random_value(), dealer.random_value()];
        let draft = Draft::deal(&mut dealer, &commands, &secrets, &[7]);
        Case::with_room(draft.to_bytes())
    };
    PERMITTED.map(with).into()
}

/// Blocks charged only where the seconds are over a limit.
fn tariff(generator: &mut Generator) -> Case {
    let commands = [
        Command::Load { d: 10 },
        Command::Over {
            d: 11,
            a: 10,
            k: 15,
            v: 170,
        },
        Command::Blocks {
            d: 12,
            a: 10,
            k: 15,
            m: 6,
        },
        Command::Mul {
            d: 13,
            a: 11,
            b: 12,
        },
        Command::Reveal { a: 13 },
    ];
    case(generator, 2, &commands, &[179], &[65520, 5])
}
