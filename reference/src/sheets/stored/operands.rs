//! d as one of the operands, one register as both, and the first and last registers.

use super::{bits_at, case};
use crate::cases::generator::Generator;
use crate::run_case::Case;
use crate::script::command::Command;

pub fn all(generator: &mut Generator) -> Vec<Case> {
    let mut cases = Vec::new();
    for (x, y) in [(0, 1), (63, 0)] {
        for command in with_two(x, y) {
            let commands = [Command::Load { d: x }, Command::Load { d: y }, command];
            cases.push(case(generator, 0, &commands, &[9, 4], &[]));
        }
        for command in with_one(x) {
            let commands = [Command::Load { d: x }, command, Command::Reveal { a: x }];
            cases.push(case(generator, 0, &commands, &[11], &[8]));
        }
    }
    cases.extend(comparisons(generator));
    cases.extend(written_twice(generator));
    cases
}

fn with_two(x: u8, y: u8) -> Vec<Command> {
    let mut commands = Vec::new();
    for (d, a, b) in [(x, x, y), (y, x, x), (x, x, x)] {
        commands.extend([
            Command::Add { d, a, b },
            Command::Sub { d, a, b },
            Command::Mul { d, a, b },
        ]);
    }
    commands
}

fn with_one(x: u8) -> [Command; 6] {
    let (d, a, k, m) = (x, x, 3, 1);
    [
        Command::Scale { d, a, v: 7 },
        Command::Mod { d, a, k, m },
        Command::Trunc { d, a, k, m },
        Command::Ltz { d, a, k },
        Command::Over { d, a, k, v: 1 },
        Command::Blocks { d, a, k, m },
    ]
}

/// d as each of the bits and next to them; bits that end at the last register.
fn comparisons(generator: &mut Generator) -> Vec<Case> {
    let mut cases = Vec::new();
    for (d, b, w) in [
        (0, 0, 4),
        (1, 0, 4),
        (3, 0, 4),
        (4, 0, 4),
        (63, 63, 1),
        (0, 63, 1),
        (60, 60, 4),
        (63, 60, 4),
        (59, 60, 4),
        (33, 33, 31),
        (63, 33, 31),
        (31, 0, 31),
    ] {
        let spelled: u32 = 0x2AAA_AAAC & ((1 << w) - 1);
        let v = spelled.saturating_sub(1);
        let mut commands = bits_at(b, w, spelled);
        commands.extend([Command::Bitlt { d, b, w, v }, Command::Reveal { a: d }]);
        cases.push(case(generator, u32::from(w) % 2, &commands, &[], &[]));
    }
    cases
}

/// Registers that are set again.
fn written_twice(generator: &mut Generator) -> Vec<Case> {
    let first = [
        Command::Load { d: 5 },
        Command::Load { d: 5 },
        Command::Const { d: 63, v: 12 },
        Command::Const { d: 63, v: 0 },
        Command::Reveal { a: 5 },
        Command::Reveal { a: 63 },
        Command::Reveal { a: 5 },
    ];
    vec![case(generator, 0, &first, &[3, 8], &[])]
}

#[cfg(test)]
mod tests {
    use super::*;

    #[test]
    fn operands_are_read_before_d_is_written() {
        let run = |command| {
            let commands = [
                Command::Load { d: 0 },
                Command::Load { d: 1 },
                command,
                Command::Reveal { a: 1 },
            ];
            let case = case(&mut Generator::new(4), 0, &commands, &[9, 4], &[6]);
            case.outcome().revealed[0]
        };
        assert_eq!(run(Command::Sub { d: 1, a: 0, b: 1 }), 5);
        assert_eq!(run(Command::Sub { d: 1, a: 1, b: 0 }), 8);
        assert_eq!(run(Command::Mul { d: 1, a: 0, b: 1 }), 10);
        assert_eq!(run(Command::Mul { d: 1, a: 1, b: 1 }), 3);
        assert_eq!(run(Command::Ltz { d: 1, a: 1, k: 3 }), 12);
        assert_eq!(
            run(Command::Over {
                d: 1,
                a: 1,
                k: 3,
                v: 3
            }),
            1
        );
    }

    #[test]
    fn a_bit_of_a_comparison_can_be_its_target() {
        for d in 0..3 {
            let mut commands = bits_at(0, 3, 6);
            commands.extend([
                Command::Bitlt {
                    d,
                    b: 0,
                    w: 3,
                    v: 5,
                },
                Command::Reveal { a: d },
            ]);
            let outcome = case(&mut Generator::new(4), 0, &commands, &[], &[]).outcome();
            assert_eq!(outcome.revealed[0], 1);
        }
    }
}
