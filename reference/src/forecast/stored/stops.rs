//! 21 to 24: at the first, a middle and the last command, which of them comes first, and what the commands
//! before have set and taken.

use super::Told;
use crate::forecast::draft::Draft;
use crate::refusal::{NONE, NO_INPUT, NO_MASK, NO_TRIPLES, UNSET};
use crate::script::command::{script_of, Command};

pub fn all() -> Vec<Told> {
    let mut all = places();
    all.extend(unset());
    all.extend(own_register());
    all.extend(orders());
    all.extend(sums());
    all.extend(signs());
    all
}

/// The commands, END, and number and place with so many input rows, masks and triples.
fn told(field: u8, commands: &[Command], counts: [u16; 3], (number, place): (u32, usize)) -> Told {
    let draft = Draft::of(field, commands).with_counts(counts);
    (draft.to_bytes(), number, place)
}

/// Where the last of the commands stands.
fn last_place(commands: &[Command]) -> usize {
    script_of(&commands[..commands.len() - 1]).len() - 1
}

/// Where END stands.
fn end_place(commands: &[Command]) -> usize {
    script_of(commands).len() - 1
}

/// One command each that 21 to 24 refuse where registers 0 and 1 are set, and nothing is left.
fn refused() -> [(u32, Command); 11] {
    use Command::*;
    let (d, a, b, k, m, v) = (1, 0, 1, 2, 1, 1);
    let signs = |a| Ltzs { d: a, a, h: 2, k };
    [
        (UNSET, Reveal { a: 2 }),
        (UNSET, Mul { d, a, b: 2 }),
        (UNSET, Mod { d, a: 2, k, m }),
        (NO_INPUT, Load { d }),
        (NO_MASK, Trunc { d, a, k, m }),
        (NO_MASK, Over { d, a, k, v }),
        (NO_MASK, Blocks { d, a, k, m }),
        (NO_TRIPLES, Mul { d, a, b }),
        (NO_TRIPLES, Bitlt { d, b: 0, w: 2, v }),
        (UNSET, signs(1)),
        (NO_MASK, signs(0)),
    ]
}

/// Each as the first command that takes something, in the middle and at the end, in every field. 23 and 24
/// are of commands that read, so one stands before that sets their registers.
fn places() -> Vec<Told> {
    use Command::*;
    let (d, a, b, k, m) = (1, 0, 0, 2, 1);
    let first = [Const { d: 0, v: 1 }, Const { d: 1, v: 0 }];
    let spending = [
        Load { d },
        Mul { d, a, b },
        Mod { d, a, k, m },
        Reveal { a: 1 },
    ];
    let mut all = Vec::new();
    for (field, bits) in (0..).zip([4, 8, 16, 31]) {
        for (number, command) in refused() {
            if [UNSET, NO_INPUT].contains(&number) {
                all.push(told(field, &[command, first[0]], [0; 3], (number, 0)));
            }
            let commands = [&first[..], &[command, first[0]]].concat();
            all.push(told(field, &commands, [0; 3], (number, 12)));
            let spent = [1, 1, 1 + bits];
            let mut commands = [&first[..], &spending, &[command]].concat();
            let place = last_place(&commands);
            all.push(told(field, &commands, spent, (number, place)));
            commands.extend([Reveal { a: 1 }, Load { d: 5 }, Reveal { a: 6 }]);
            all.push(told(field, &commands, spent, (number, place)));
        }
        let commands = [&first[..], &spending].concat();
        let end = (NONE, end_place(&commands));
        all.push(told(field, &commands, [1, 1, 1 + bits], end));
        all.push(told(field, &commands, [64, 16, 512], end));
    }
    all
}

/// Input rows, masks and triples for four signs of three bits in field 0.
const ENOUGH: [u16; 3] = [8, 4, 24];

/// Commands that read one register, two, or several.
fn reading() -> [Command; 16] {
    use Command::*;
    let (d, a, b, k, m, v) = (9, 3, 5, 3, 2, 1);
    [
        Add { d, a, b },
        Sub { d, a, b },
        Scale { d, a, v },
        Mul { d, a, b },
        Mod { d, a, k, m },
        Trunc { d, a, k, m },
        Ltz { d, a, k },
        Over { d, a, k, v },
        Blocks { d, a, k, m },
        Reveal { a },
        Bitlt { d, b, w: 1, v },
        Bitlt { d, b, w: 4, v },
        Bitlt { d, b: 60, w: 4, v },
        Ltzs { d, a, h: 1, k },
        Ltzs { d, a: 5, h: 4, k },
        Ltzs { d, a: 60, h: 4, k },
    ]
}

/// Each command that reads, with each of its registers unset in turn, and with none. There is enough of
/// everything.
fn unset() -> Vec<Told> {
    use Command::*;
    let mut all = Vec::new();
    for command in reading() {
        let reads = command.reads();
        let with = |left_out: Option<u8>| -> Vec<Command> {
            let set = reads.iter().filter(|&&register| Some(register) != left_out);
            let loads = set.map(|&d| Load { d });
            // neighbours of what is read
            let others = [2, 4, 59].map(|d| Const { d, v: 0 });
            loads.chain(others).chain([command]).collect()
        };
        let whole = with(None);
        all.push(told(0, &whole, ENOUGH, (NONE, end_place(&whole))));
        for &register in &reads {
            let commands = with(Some(register));
            let place = last_place(&commands);
            all.push(told(0, &commands, ENOUGH, (UNSET, place)));
        }
    }
    all
}

/// d = a, where it is set and where it is not; a register that is set only later; and the ends of the table.
fn own_register() -> Vec<Told> {
    use Command::*;
    let (k, m, v) = (2, 1, 1);
    let mut all = Vec::new();
    for r in [0, 1, 62, 63] {
        let (d, a, b) = (r, r, r);
        for command in [
            Add { d, a, b },
            Sub { d, a, b },
            Scale { d, a, v },
            Mul { d, a, b },
            Mod { d, a, k, m },
            Trunc { d, a, k, m },
            Ltz { d, a, k },
            Over { d, a, k, v },
            Blocks { d, a, k, m },
            Bitlt { d, b, w: 1, v },
            Ltzs { d, a, h: 1, k },
        ] {
            let commands = [Load { d }, command, command, Reveal { a }];
            let end = (NONE, end_place(&commands));
            all.push(told(0, &commands, [1, 2, 8], end));
            all.push(told(0, &[command, Load { d }], [1, 2, 8], (UNSET, 0)));
        }
        all.push(told(0, &[Reveal { a }, Load { d }], [1, 0, 0], (UNSET, 0)));
    }
    all
}

/// What is tried first of one command: nothing set and nothing left, then one ground less each time.
fn orders() -> Vec<Told> {
    use Command::*;
    let (d, a, k, m, v) = (1, 0, 3, 2, 1);
    let load = Load { d: a };
    let mut all = Vec::new();
    for (field, triples) in (0..).zip([6, 10, 18, 33]) {
        for command in [
            Mod { d, a, k, m },
            Trunc { d, a, k, m },
            Ltz { d, a, k },
            Over { d, a, k, v },
            Blocks { d, a, k, m },
            Ltzs { d, a, h: 1, k },
        ] {
            let with = |commands: &[Command], masks, triples, end| {
                told(field, commands, [1, masks, triples], end)
            };
            let commands = [load, command];
            let end = (NONE, end_place(&commands));
            all.extend([
                with(&[command], 0, 0, (UNSET, 0)),
                with(&[command], 1, triples, (UNSET, 0)),
                with(&commands, 0, 0, (NO_MASK, 2)),
                with(&commands, 0, triples, (NO_MASK, 2)),
                with(&commands, 0, 512, (NO_MASK, 2)),
                with(&commands, 1, 0, (NO_TRIPLES, 2)),
                with(&commands, 16, triples - 1, (NO_TRIPLES, 2)),
                with(&commands, 1, triples, end),
            ]);
        }
    }
    all
}

/// Several of one kind and of different kinds: the counts are those of all commands before.
fn sums() -> Vec<Told> {
    use Command::*;
    let (d, a, b, k, m, v) = (1, 0, 0, 3, 1, 1);
    let mut all = Vec::new();
    for count in [1, 2, 63, 64] {
        let loads = vec![Load { d }; count as usize];
        let place = 2 * usize::from(count);
        all.push(told(1, &loads, [count, 0, 0], (NONE, place)));
        all.push(told(1, &loads, [count - 1, 16, 512], (NO_INPUT, place - 2)));
    }
    let loads = vec![Load { d }; 65];
    all.push(told(1, &loads, [64, 0, 0], (NO_INPUT, 128)));
    let mixed = [
        Load { d: 0 },
        Mod { d, a, k, m },
        Load { d: 1 },
        Bitlt {
            d: 2,
            b: 0,
            w: 2,
            v,
        },
        Mul { d: 3, a, b },
        Ltz { d: 4, a, k },
        Load { d: 5 },
        Over { d: 6, a, k: 2, v },
    ];
    // 4, 1, 1, 6 and 4 triples in field 0
    for (counts, number, commands) in [
        ([0, 3, 16], NO_INPUT, 1),
        ([3, 0, 16], NO_MASK, 2),
        ([3, 3, 3], NO_TRIPLES, 2),
        ([1, 3, 16], NO_INPUT, 3),
        ([3, 3, 4], NO_TRIPLES, 4),
        ([3, 3, 5], NO_TRIPLES, 5),
        ([3, 1, 16], NO_MASK, 6),
        ([3, 3, 11], NO_TRIPLES, 6),
        ([2, 3, 16], NO_INPUT, 7),
        ([3, 2, 16], NO_MASK, 8),
        ([3, 3, 15], NO_TRIPLES, 8),
    ] {
        let place = last_place(&mixed[..commands]);
        all.push(told(0, &mixed, counts, (number, place)));
    }
    let end = (NONE, end_place(&mixed));
    all.push(told(0, &mixed, [3, 3, 16], end));
    all.push(told(0, &mixed, [4, 4, 17], end));
    all
}

/// LTZS of three registers, into the same, into those just before and after, and far off: one ground less each
/// time, and enough for one or two of its signs.
fn signs() -> Vec<Told> {
    use Command::*;
    let (a, h, k) = (10, 3, 3);
    let mut all = Vec::new();
    for (field, triples) in (0..).zip([6, 10, 18, 33]) {
        for d in [10, 7, 13, 61] {
            let with = |registers: &[u8], masks, triples, number| {
                let loads = registers.iter().map(|&d| Load { d });
                let commands: Vec<Command> = loads.chain([Ltzs { d, a, h, k }]).collect();
                let place = match number {
                    NONE => end_place(&commands),
                    _ => last_place(&commands),
                };
                told(field, &commands, [3, masks, triples], (number, place))
            };
            let set = [10, 11, 12];
            all.extend([[11, 12], [10, 12], [10, 11]].map(|set| with(&set, 0, 0, UNSET)));
            all.extend([0, 1, 2].map(|masks| with(&set, masks, 0, NO_MASK)));
            all.extend([1, 2].map(|masks| with(&set, masks, 3 * triples, NO_MASK)));
            let few = [0, triples, 2 * triples, 3 * triples - 1];
            all.extend(few.map(|triples| with(&set, 3, triples, NO_TRIPLES)));
            all.push(with(&set, 3, 3 * triples, NONE));
        }
    }
    all
}
