//! 22 to 24, with and without the line about the whole script, and runs that come to END.

use super::{head, head_of_command, Draft, Named};
use crate::script::command::Command::{self, *};

pub fn all() -> Vec<Named> {
    let mut all = ends();
    all.extend(of_commands());
    all.extend(at_limits());
    all.extend(before_unset());
    all
}

/// It sets what the others read.
const FIRST: Command = Load { d: 0 };

/// In field 0.
fn with(name: &str, commands: &[Command], counts: [u16; 3]) -> Named {
    head(name, Draft::of(0, commands).with_counts(counts))
}

fn ends() -> Vec<Named> {
    let (d, a, b, k) = (0, 0, 0, 2);
    let commands = [FIRST, Ltz { d, a, k }, Mul { d, a, b }, Reveal { a }];
    let far = [vec![FIRST], vec![Reveal { a }; 500]].concat();
    vec![
        with("end-alone", &[], [0; 3]),
        with("end-with-all-taken", &commands, [1, 1, 5]),
        with("end-with-more", &commands, [64, 16, 512]),
        with("end-far-off", &far, [1, 0, 0]),
    ]
}

/// In field 0, in which the commands with a mask need 4 triples here.
fn of_commands() -> Vec<Named> {
    let (d, a, b, k, m, v) = (0, 0, 0, 2, 1, 1);
    let mut all = vec![
        with("short-load", &[FIRST], [0; 3]),
        with("short-mul", &[FIRST, Mul { d, a, b }], [1, 0, 0]),
    ];
    let mut bits: Vec<Command> = (0..3).map(|d| Load { d }).collect();
    bits.push(Bitlt { d, b, w: 3, v });
    all.push(with("short-bitlt", &bits, [3, 0, 1]));
    for command in [
        Mod { d, a, k, m },
        Trunc { d, a, k, m },
        Ltz { d, a, k },
        Over { d, a, k, v },
        Blocks { d, a, k, m },
    ] {
        let draft = Draft::of(0, &[FIRST, command]);
        let no_mask = draft.clone().with_counts([1, 0, 4]);
        all.push(head_of_command("no-mask", &command, no_mask));
        let short = draft.with_counts([1, 1, 3]);
        all.push(head_of_command("short", &command, short));
    }
    all.extend(of_signs());
    all
}

/// LTZS of one register, of two, and of the most: one mask or one triple less than it needs. In field 0 each
/// sign needs 4 triples here.
fn of_signs() -> Vec<Named> {
    let mut all = Vec::new();
    for (name, h) in [("ltzs", 2), ("one-sign", 1), ("16-signs", 16)] {
        let (d, a, k) = (0, 0, 2);
        let loads = (0..h).map(|d| Load { d });
        let commands: Vec<Command> = loads.chain([Ltzs { d, a, h, k }]).collect();
        let h = u16::from(h);
        let no_mask = format!("no-mask-{name}");
        all.push(with(&no_mask, &commands, [h, h - 1, 4 * h]));
        let short = format!("short-{name}");
        all.push(with(&short, &commands, [h, h, 4 * h - 1]));
    }
    all
}

/// What the whole script needs is at a header's limit, or one over it. In field 3 six commands need 512
/// triples, five times 87 and 77.
fn at_limits() -> Vec<Named> {
    let (d, a, b, k) = (0, 0, 0, 2);
    let masked = |count| [vec![FIRST], vec![Ltz { d, a, k }; count]].concat();
    let mut triples = [vec![FIRST], vec![Ltz { d, a, k: 30 }; 5]].concat();
    triples.push(Trunc { d, a, k: 30, m: 24 });
    let product = [triples.clone(), vec![Mul { d, a, b }]].concat();
    let in_field_3 =
        |name, commands: &[Command], counts| head(name, Draft::of(3, commands).with_counts(counts));
    vec![
        with("needs-64-inputs", &[FIRST; 64], [63, 0, 0]),
        with("needs-65-inputs", &[FIRST; 65], [64, 0, 0]),
        with("needs-16-masks", &masked(16), [1, 15, 512]),
        with("needs-17-masks", &masked(17), [1, 16, 512]),
        in_field_3("needs-512-triples", &triples, [1, 6, 511]),
        in_field_3("needs-513-triples", &product, [1, 6, 512]),
        in_field_3("needs-275616-triples", &many_signs(), [16, 16, 512]),
    ]
}

/// As many LTZS of 16 registers as a script has room for, each of which alone needs more triples than a header
/// may count; together they need more than two bytes can say.
fn many_signs() -> Vec<Command> {
    let (d, a, h, k) = (0, 0, 16, 30);
    let loads = (0..h).map(|d| Load { d });
    let signs = vec![Ltzs { d, a, h, k }; 198];
    loads.chain(signs).collect()
}

/// A later command reads a register that none sets, so that nothing is said of the whole script; and one
/// that only the refused command sets.
fn before_unset() -> Vec<Named> {
    let (d, a, b, k, m) = (0, 0, 0, 2, 1);
    let unset = Reveal { a: 2 };
    let second = Load { d: 1 };
    vec![
        with("unset-after-load", &[FIRST, second, unset], [1, 0, 0]),
        with(
            "unset-after-mod",
            &[FIRST, Mod { d, a, k, m }, unset],
            [1, 0, 0],
        ),
        with(
            "unset-after-mul",
            &[FIRST, Mul { d, a, b }, unset],
            [1, 0, 0],
        ),
        with(
            "set-by-refused",
            &[FIRST, second, Reveal { a: 1 }],
            [1, 0, 0],
        ),
    ]
}
