//! 21 of every command that reads.

use super::{head, head_of_command, Draft, Named};
use crate::script::command::Command::{self, *};

pub fn all() -> Vec<Named> {
    let mut all: Vec<Named> = of_commands().map(unset).into();
    let (d, a, b) = (0, 62, 63);
    let both = Draft::of(3, &[Sub { d, a, b }]);
    all.push(head("unset-both", both));
    all.extend(ends_of_signs());
    all
}

/// With the registers that are set before. The unset one is the first of two, the second, the only one, or
/// in the middle of a span.
fn of_commands() -> [(&'static [u8], Command); 12] {
    let (d, a, b, k, m, v) = (9, 0, 1, 3, 2, 1);
    [
        (&[0], Add { d, a, b }),
        (&[1], Sub { d, a, b }),
        (&[1], Scale { d, a, v }),
        (&[0], Mul { d, a, b }),
        (&[1], Mod { d, a, k, m }),
        (&[1], Trunc { d, a: 9, k, m }),
        (&[1], Ltz { d, a: 10, k }),
        (&[1], Over { d, a: 63, k, v }),
        (&[1], Blocks { d, a, k, m }),
        (&[9], Reveal { a: 10 }),
        (&[4, 5, 7], Bitlt { d, b: 4, w: 4, v }),
        (&[4, 5, 7], Ltzs { d, a: 4, h: 4, k }),
    ]
}

/// The first and the last of 16 registers, the others being set.
fn ends_of_signs() -> [Named; 2] {
    let (d, a, h, k) = (0, 48, 16, 2);
    let signs = Ltzs { d, a, h, k };
    let with = |name, unset| {
        let set = signs
            .reads()
            .into_iter()
            .filter(|&register| register != unset);
        let loads = set.map(|d| Load { d });
        let commands: Vec<Command> = loads.chain([signs]).collect();
        head(name, Draft::of(2, &commands).with_counts([15, 0, 0]))
    };
    [with("unset-first-of-16", 48), with("unset-last-of-16", 63)]
}

fn unset((set, command): (&[u8], Command)) -> Named {
    let loads = set.iter().map(|&d| Load { d });
    let commands: Vec<Command> = loads.chain([command]).collect();
    let draft = Draft::of(1, &commands).with_counts([3, 1, 12]);
    head_of_command("unset", &command, draft)
}
