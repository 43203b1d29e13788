//! Each command in field 0 with the rows that it opens, three parties, threshold 1.

use super::Held;
use crate::cases::generator::Generator;
use crate::dealer::Dealer;
use crate::script::command::Command;
use crate::sheets::bench;
use crate::sheets::draft::Draft;

const SEED: u64 = 0x5EED_0006;

/// Those that take no mask.
pub fn plain() -> Vec<Held> {
    let cases = linear().into_iter().chain(products()).chain(comparisons());
    let mut all = vec![printed()];
    all.extend((0..).zip(cases).map(held));
    all
}

/// Those that take a mask.
pub fn masked() -> Vec<Held> {
    let cases = with_masks().into_iter().chain(more_blocks()).chain(signs());
    (100..).zip(cases).map(held).collect()
}

/// A deal drawn for the commands, with buffers that take all they write.
fn held((index, case): (u64, Small)) -> Held {
    let Small {
        says,
        commands,
        secrets,
        masks,
    } = case;
    let mut generator = Generator::at(SEED, index);
    let mut dealer = Dealer::new(&mut generator, 0, (3, 1));
    let draft = Draft::deal(&mut dealer, &commands, &secrets, &masks);
    Held::with_room(says, &draft)
}

/// Commands on inputs of these secrets with masks of these numbers.
struct Small {
    says: &'static str,
    commands: Vec<Command>,
    secrets: Vec<u32>,
    masks: Vec<u32>,
}

/// The sheet of the paper's printed run.
pub fn printed() -> Held {
    let bytes = bench::small();
    let word = |four: &[u8]| u32::from_le_bytes([four[0], four[1], four[2], four[3]]);
    let shares: Vec<u32> = bytes[22..].chunks_exact(4).map(word).collect();
    let says = "the paper's printed run: LOAD, LOAD, MUL, REVEAL";
    Held {
        record: 12,
        revealed: 2,
        ..Held::plain(says, &bytes[..11], &bytes[11..22], &shares)
    }
}

fn small(says: &'static str, commands: &[Command], secrets: &[u32], masks: &[u32]) -> Small {
    Small {
        says,
        commands: commands.to_vec(),
        secrets: secrets.to_vec(),
        masks: masks.to_vec(),
    }
}

fn loads(registers: &[u8]) -> Vec<Command> {
    registers.iter().map(|&d| Command::Load { d }).collect()
}

/// The inputs in registers 0, 1, .., then these.
fn after_loads(count: u8, commands: &[Command]) -> Vec<Command> {
    let registers: Vec<u8> = (0..count).collect();
    [loads(&registers).as_slice(), commands].concat()
}

fn linear() -> Vec<Small> {
    use Command::*;
    vec![
        small("END alone", &[], &[], &[]),
        small(
            "LOAD: the rows in their order; the third over the first",
            &loads(&[5, 63, 5]),
            &[1, 2, 3],
            &[],
        ),
        small("an input row is left", &loads(&[4]), &[6, 7], &[]),
        small(
            "CONST: every share is v",
            &[Const { d: 63, v: 12 }, Const { d: 0, v: 0 }],
            &[],
            &[],
        ),
        small(
            "ADD, SUB and SCALE: 3 + 9, 3 - 9, 9 times 5",
            &after_loads(
                2,
                &[
                    Add { d: 2, a: 0, b: 1 },
                    Sub { d: 3, a: 0, b: 1 },
                    Scale { d: 4, a: 1, v: 5 },
                ],
            ),
            &[3, 9],
            &[],
        ),
        small(
            "d may be an operand",
            &after_loads(
                2,
                &[
                    Sub { d: 0, a: 0, b: 1 },
                    Sub { d: 1, a: 0, b: 1 },
                    Add { d: 0, a: 1, b: 0 },
                    Scale { d: 1, a: 1, v: 2 },
                ],
            ),
            &[3, 9],
            &[],
        ),
        small(
            "REVEAL: each opening to the record, each value to the revealed list",
            &after_loads(2, &[Reveal { a: 1 }, Reveal { a: 0 }, Reveal { a: 0 }]),
            &[11, 4],
            &[],
        ),
    ]
}

fn products() -> Vec<Small> {
    use Command::*;
    vec![
        small(
            "MUL: a1 is opened before b1",
            &after_loads(2, &[Mul { d: 5, a: 0, b: 1 }]),
            &[3, 9],
            &[],
        ),
        small(
            "MUL twice: the triples in their order; d may be an operand",
            &after_loads(2, &[Mul { d: 1, a: 1, b: 0 }, Mul { d: 0, a: 1, b: 1 }]),
            &[3, 9],
            &[],
        ),
    ]
}

fn comparisons() -> Vec<Small> {
    use Command::*;
    let bitlt = |v| {
        [Bitlt {
            d: 9,
            b: 1,
            w: 3,
            v,
        }]
    };
    let mut all = vec![
        small(
            "BITLT w=3, v=5, bits of 6",
            &after_loads(4, &bitlt(5)),
            &[7, 0, 1, 1],
            &[],
        ),
        small(
            "BITLT w=3, v=2, bits of 3",
            &after_loads(4, &bitlt(2)),
            &[7, 1, 1, 0],
            &[],
        ),
        small(
            "BITLT of registers that are not bits",
            &after_loads(4, &bitlt(5)),
            &[7, 9, 11, 4],
            &[],
        ),
        small(
            "BITLT w=1 takes no triple; v=0, then v=1",
            &after_loads(
                1,
                &[
                    Bitlt {
                        d: 1,
                        b: 0,
                        w: 1,
                        v: 0,
                    },
                    Bitlt {
                        d: 2,
                        b: 0,
                        w: 1,
                        v: 1,
                    },
                ],
            ),
            &[1],
            &[],
        ),
    ];
    all.push(small(
        "BITLT over one of its registers",
        &after_loads(
            2,
            &[Bitlt {
                d: 1,
                b: 0,
                w: 2,
                v: 1,
            }],
        ),
        &[0, 1],
        &[],
    ));
    all
}

/// A command from register 0 to 1, its result revealed.
fn one(says: &'static str, command: Command, secret: u32, r: u32) -> Small {
    let commands = after_loads(1, &[command, Command::Reveal { a: 1 }]);
    small(says, &commands, &[secret], &[r])
}

fn with_masks() -> Vec<Small> {
    use Command::*;
    let (d, a, k) = (1, 0, 3);
    vec![
        one(
            "MOD m=1, -3, r = 12: C 0, f 1",
            Mod { d, a, k, m: 1 },
            10,
            12,
        ),
        one("MOD m=2, -1: 3", Mod { d, a, k, m: 2 }, 12, 5),
        one(
            "MOD m=2, 3, r = 7: C is 1, f is 1",
            Mod { d, a, k, m: 2 },
            3,
            7,
        ),
        one("MOD k=2 m=1, 1", Mod { d, a, k: 2, m: 1 }, 1, 5),
        one(
            "TRUNC m=1, -3: -2, that is 11",
            Trunc { d, a, k, m: 1 },
            10,
            5,
        ),
        one("TRUNC m=2, 3: 0", Trunc { d, a, k, m: 2 }, 3, 12),
        one("LTZ -1: 1", Ltz { d, a, k }, 12, 5),
        one("LTZ k=2 of 1: 0", Ltz { d, a, k: 2 }, 1, 9),
        one("LTZ of 4, out of range: 12", Ltz { d, a, k }, 4, 5),
        one("OVER v=2 of 3: 1", Over { d, a, k, v: 2 }, 3, 5),
        one("OVER k=2 v=2 of 2: 0", Over { d, a, k: 2, v: 2 }, 2, 3),
        one(
            "BLOCKS m=1, 2: 1, and no second one is begun",
            Blocks { d, a, k, m: 1 },
            2,
            5,
        ),
        small(
            "a mask and its triples are not used again",
            &after_loads(
                1,
                &[
                    Mod {
                        d: 0,
                        a: 0,
                        k: 3,
                        m: 1,
                    },
                    Trunc {
                        d: 0,
                        a: 0,
                        k: 2,
                        m: 1,
                    },
                ],
            ),
            &[11],
            &[6, 9],
        ),
    ]
}

/// A block that is begun, and a sum that is in the range only once p is taken off; with a k that is not
/// the largest, the lowest number that is exact and the one below it.
fn more_blocks() -> Vec<Small> {
    let (d, a) = (1, 0);
    let blocks = |k, m| Command::Blocks { d, a, k, m };
    vec![
        one("BLOCKS m=1, 1: 1, which is begun", blocks(3, 1), 1, 5),
        one(
            "BLOCKS m=2, 6: 12; 6 + 3 is out of range, though 9 - 13 is in it",
            blocks(3, 2),
            6,
            5,
        ),
        one(
            "BLOCKS k=2 m=1, -3: 12; -3 + 1 is the lowest number in range",
            blocks(2, 1),
            10,
            5,
        ),
        one(
            "BLOCKS k=2 m=1, -4: 5; -4 + 1 is out of range, though with k=3 it is in it",
            blocks(2, 1),
            9,
            5,
        ),
    ]
}

/// LTZS of two registers: each sign with a mask of its own, into other registers and into the same.
fn signs() -> Vec<Small> {
    let signs = |says, d, k, secrets: [u32; 2], masks: [u32; 2]| {
        let command = Command::Ltzs { d, a: 0, h: 2, k };
        let reveals = [d, d + 1].map(|a| Command::Reveal { a });
        let commands = after_loads(2, &[&[command], &reveals[..]].concat());
        small(says, &commands, &secrets, &masks)
    };
    vec![
        signs("LTZS k=2 of -1 and 1: 1, 0", 62, 2, [12, 1], [5, 9]),
        signs("LTZS k=3 of 3 and -4, d = a: 0, 1", 0, 3, [3, 9], [12, 0]),
    ]
}
