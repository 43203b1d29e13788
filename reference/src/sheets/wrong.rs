//! Commands with one operand out of range.

use crate::field::Field;
use crate::script::command::Command;

/// Each register of each command at 64, and each number just outside its range.
pub fn commands(field: &Field) -> Vec<Command> {
    let mut all = registers(field.modulus - 1);
    all.extend(widths(field));
    all.extend(values(field.modulus));
    all.extend(comparisons());
    all.extend(signs(field.largest_k as u8));
    all
}

fn registers(v: u32) -> Vec<Command> {
    use Command::*;
    let mut all = vec![
        Load { d: 255 },
        Load { d: 64 },
        Const { d: 64, v },
        Reveal { a: 64 },
        Reveal { a: 255 },
    ];
    for (d, a, b) in [(64, 0, 0), (0, 64, 0), (0, 0, 64)] {
        all.extend([Add { d, a, b }, Sub { d, a, b }, Mul { d, a, b }]);
    }
    let (k, m) = (2, 1);
    for (d, a) in [(64, 0), (0, 64)] {
        all.extend([
            Scale { d, a, v },
            Mod { d, a, k, m },
            Trunc { d, a, k, m },
            Ltz { d, a, k },
            Over { d, a, k, v },
            Blocks { d, a, k, m },
        ]);
    }
    all
}

fn widths(field: &Field) -> Vec<Command> {
    use Command::*;
    let (d, a, v) = (0, 0, 0);
    let largest = field.largest_k as u8;
    let mut all = Vec::new();
    for k in [0, 1, largest + 1, 255] {
        all.extend([Ltz { d, a, k }, Over { d, a, k, v }, Mod { d, a, k, m: 1 }]);
    }
    for (k, m) in [
        (2, 0),
        (2, 2),
        (largest, largest),
        (largest, 255),
        (largest + 1, largest),
    ] {
        all.extend([
            Mod { d, a, k, m },
            Trunc { d, a, k, m },
            Blocks { d, a, k, m },
        ]);
    }
    all
}

fn values(p: u32) -> Vec<Command> {
    use Command::*;
    let with = |v| {
        [
            Const { d: 0, v },
            Scale { d: 0, a: 0, v },
            Over {
                d: 0,
                a: 0,
                k: 2,
                v,
            },
        ]
    };
    [p, u32::MAX].into_iter().flat_map(with).collect()
}

fn comparisons() -> Vec<Command> {
    let wrong = [
        (64, 0, 1, 0),
        (0, 64, 1, 0),
        (0, 0, 0, 0),
        (0, 0, 32, 0),
        (0, 0, 255, 0),
        (0, 255, 1, 0),
        (0, 63, 2, 0),
        (0, 34, 31, 0),
        (0, 0, 1, 2),
        (0, 0, 31, 1 << 31),
        (0, 0, 3, u32::MAX),
    ];
    wrong
        .into_iter()
        .map(|(d, b, w, v)| Command::Bitlt { d, b, w, v })
        .collect()
}

/// LTZS: an h that is none, stretches past the last register, and stretches that share some registers and
/// not all. The k of these is good in every field.
fn signs(largest: u8) -> Vec<Command> {
    let wrong = [
        (0, 0, 0),
        (0, 32, 17),
        (0, 0, 255),
        (64, 0, 1),
        (0, 64, 1),
        (255, 0, 1),
        (0, 255, 1),
        (240, 0, 16),
        (0, 240, 16),
        (63, 0, 2),
        (0, 63, 2),
        (49, 0, 16),
        (0, 49, 16),
        (49, 49, 16),
        (0, 1, 2),
        (1, 0, 2),
        (0, 15, 16),
        (15, 0, 16),
        (0, 1, 16),
        (48, 47, 16),
    ];
    let stretches = wrong.map(|(d, a, h)| Command::Ltzs { d, a, h, k: 2 });
    let widths = [0, 1, largest + 1, 255].map(|k| Command::Ltzs {
        d: 0,
        a: 0,
        h: 1,
        k,
    });
    stretches.into_iter().chain(widths).collect()
}

#[cfg(test)]
mod tests {
    use super::*;
    use crate::field::FIELDS;

    #[test]
    fn none_is_in_range() {
        for field in &FIELDS {
            for command in commands(field) {
                assert!(!command.is_in_range(field), "{command:?}");
            }
        }
    }
}
