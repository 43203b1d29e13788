//! Runs that the state stops: 21 to 26, each alone and against the next one in the order, and the least that lets a command through.

use super::Held;
use crate::cases::generator::Generator;
use crate::dealer::Dealer;
use crate::script::command::Command;
use crate::sheets::draft::Draft;

const SEED: u64 = 0x5EED_0008;

/// Commands in field 0, with what there is for them.
struct Stop {
    says: &'static str,
    commands: Vec<Command>,
    inputs: usize,
    masks: usize,
    triples: usize,
    record: usize,
    revealed: usize,
}

pub fn all() -> Vec<Held> {
    let mut stops = unset();
    stops.extend(no_input());
    stops.extend(no_mask());
    stops.extend(few_triples());
    stops.extend(full());
    stops.extend(signs());
    let mut all: Vec<Held> = (0..)
        .zip(&stops)
        .map(|(index, stop)| held(index, stop))
        .collect();
    all.extend(seven());
    all
}

fn held(index: u64, stop: &Stop) -> Held {
    let mut generator = Generator::at(SEED, index);
    let mut dealer = Dealer::new(&mut generator, 0, (3, 1));
    let secrets: Vec<u32> = (0..13).cycle().skip(3).take(stop.inputs).collect();
    let masks = vec![9; stop.masks];
    let mut draft = Draft::deal(&mut dealer, &stop.commands, &secrets, &masks);
    draft.triples = dealer.triples(stop.triples);
    Held::of(stop.says, &draft, stop.record, stop.revealed)
}

/// CONST 0 1 and then the command, whose place is 6. There is nothing else.
fn after_const(says: &'static str, command: Command) -> Stop {
    Stop {
        says,
        commands: vec![Command::Const { d: 0, v: 1 }, command],
        inputs: 0,
        masks: 0,
        triples: 0,
        record: 0,
        revealed: 0,
    }
}

/// Each command that reads, a register of its operands being unset. No later ground lets it through.
fn unset() -> Vec<Stop> {
    use Command::*;
    let (d, k, m, v) = (0, 3, 1, 1);
    let says = "21 before 23 to 26: a register read is unset";
    let of_two = |(a, b)| [Add { d, a, b }, Sub { d, a, b }, Mul { d, a, b }];
    let of_one = |a| {
        [
            Scale { d, a, v },
            Mod { d, a, k, m },
            Trunc { d, a, k, m },
            Ltz { d, a, k },
            Over { d, a, k, v },
            Blocks { d, a, k, m },
            Reveal { a },
            Bitlt { d, b: a, w: 1, v },
            Bitlt {
                d,
                b: a - 1,
                w: 2,
                v,
            },
        ]
    };
    let commands = [(1, 0), (0, 1)]
        .into_iter()
        .flat_map(of_two)
        .chain(of_one(1));
    commands
        .map(|command| after_const(says, command))
        .chain(all_but_one(says))
        .collect()
}

/// BITLT of three registers, all set but the last, the middle or the first one.
fn all_but_one(says: &'static str) -> [Stop; 3] {
    use Command::*;
    let (b, w, v) = (1, 3, 5);
    [3, 2, 1].map(|unset| {
        let set = (b..b + w).filter(|&d| d != unset);
        let consts = set.map(|d| Const { d, v: 1 });
        Stop {
            commands: consts.chain([Bitlt { d: 0, b, w, v }]).collect(),
            ..after_const(says, End)
        }
    })
}

fn no_input() -> Vec<Stop> {
    use Command::*;
    let loads = |count| vec![Load { d: 7 }; count];
    let with = |says, commands, inputs| Stop {
        says,
        commands,
        inputs,
        masks: 0,
        triples: 0,
        record: 1,
        revealed: 1,
    };
    vec![
        with("22: no input row", loads(1), 0),
        with(
            "22: no input row is left; the first LOAD stands",
            loads(2),
            1,
        ),
    ]
}

fn no_mask() -> Vec<Stop> {
    use Command::*;
    let (d, a, k, m, v) = (1, 0, 3, 1, 1);
    let commands = [
        Mod { d, a, k, m },
        Trunc { d, a, k, m },
        Ltz { d, a, k },
        Over { d, a, k, v },
        Blocks { d, a, k, m },
    ];
    let mut all: Vec<Stop> = commands
        .map(|command| after_const("23 before 24 and 25: no mask", command))
        .into();
    all.push(Stop {
        says: "23: no mask is left; the first MOD stands",
        commands: vec![
            Const { d: 0, v: 1 },
            Mod { d, a, k, m },
            Mod { d, a: 1, k, m },
        ],
        inputs: 0,
        masks: 1,
        triples: 9,
        record: 60,
        revealed: 0,
    });
    all
}

/// CONST 0 1 and a command that takes so many masks and triples.
fn taking() -> [(Command, usize, usize); 6] {
    use Command::*;
    let (d, a, k, m, v) = (1, 0, 3, 1, 1);
    [
        (Mul { d, a, b: 0 }, 0, 1),
        (Mod { d, a, k, m }, 1, 4),
        (Trunc { d, a, k, m: 2 }, 1, 6),
        (Ltz { d, a, k }, 1, 6),
        (Over { d, a, k: 2, v }, 1, 4),
        (Blocks { d, a, k, m }, 1, 4),
    ]
}

/// A triple less than the command takes, or room for a share less than it opens.
fn few_triples() -> Vec<Stop> {
    let says = "24 before 25: a triple less than the command takes";
    let less = taking().map(|(command, masks, triples)| Stop {
        masks,
        triples: triples - 1,
        ..after_const(says, command)
    });
    let says = "25: the record takes all its shares but one";
    let short = taking().map(|(command, masks, triples)| Stop {
        masks,
        triples,
        record: 3 * (masks + 2 * triples) - 1,
        ..after_const(says, command)
    });
    less.into_iter()
        .chain(short)
        .chain(comparisons())
        .chain(products())
        .collect()
}

fn comparisons() -> Vec<Stop> {
    use Command::*;
    let (b, w, v) = (0, 3, 5);
    let commands = vec![
        Load { d: 0 },
        Load { d: 1 },
        Load { d: 2 },
        Bitlt { d: 3, b, w, v },
    ];
    let bitlt = |says, triples, record| Stop {
        inputs: 3,
        triples,
        record,
        commands: commands.clone(),
        ..after_const(says, End)
    };
    vec![
        bitlt("24 before 25: BITLT w=3 takes two triples", 1, 0),
        bitlt("25: BITLT w=3 opens four rows", 2, 11),
        bitlt("two triples and room for four rows", 2, 12),
    ]
}

fn products() -> Vec<Stop> {
    use Command::*;
    let (a, d) = (0, 1);
    let commands = vec![
        Const { d: 0, v: 1 },
        Mul { d, a, b: 0 },
        Mul { d: 2, a, b: 1 },
    ];
    let muls = |says, triples, record| Stop {
        triples,
        record,
        commands: commands.clone(),
        ..after_const(says, End)
    };
    vec![
        muls("24: no triple is left; the first MUL stands", 1, 12),
        muls("25: room for one MUL; the first stands", 2, 11),
        muls("room for both", 2, 12),
    ]
}

/// REVEAL with too little room in either buffer.
fn full() -> Vec<Stop> {
    use Command::*;
    let with = |says, record, revealed| Stop {
        record,
        revealed,
        ..after_const(says, Reveal { a: 0 })
    };
    let twice = |says, record, revealed| Stop {
        commands: vec![Const { d: 0, v: 5 }, Reveal { a: 0 }, Reveal { a: 0 }],
        ..with(says, record, revealed)
    };
    vec![
        with("25 before 26: room for two shares of three", 2, 0),
        with("26: the revealed list takes nothing", 3, 0),
        with("room for one opening and one value", 3, 1),
        twice("25: the record is full; the first REVEAL stands", 5, 2),
        twice(
            "26: the revealed list is full; the first REVEAL stands",
            6,
            1,
        ),
        twice("room for both", 6, 2),
    ]
}

/// LTZS of two registers takes two masks and 8 triples and opens 18 rows: it is refused whole, though there
/// is enough for its first sign.
fn signs() -> Vec<Stop> {
    use Command::*;
    let (d, a, k) = (5, 0, 2);
    let set = |registers: &[u8], h| {
        let consts = registers.iter().map(|&d| Const { d, v: 12 });
        consts.chain([Ltzs { d, a, h, k }]).collect()
    };
    let signs = |says, masks, triples, record| Stop {
        masks,
        triples,
        record,
        commands: set(&[0, 1], 2),
        ..after_const(says, End)
    };
    vec![
        Stop {
            commands: set(&[0, 2], 3),
            ..after_const(
                "21 before 23 to 25: the middle register of LTZS is unset",
                End,
            )
        },
        signs("23 before 24: LTZS h=2 with one mask", 1, 7, 54),
        signs("24 before 25: LTZS h=2 with a triple less", 2, 7, 53),
        signs("25: LTZS h=2, room for all its shares but one", 2, 8, 53),
        signs("LTZS h=2 with just enough", 2, 8, 54),
    ]
}

/// An opening is n shares.
fn seven() -> Vec<Held> {
    let held = |says, record| {
        let header = [1, 7, 3, 0, 0, 0, 0, 0, 0, 9, 0];
        let script = [2, 0, 5, 0, 0, 0, 12, 0, 0];
        Held {
            record,
            ..Held::plain(says, &header, &script, &[])
        }
    };
    vec![
        held("25: seven parties, room for six shares", 6),
        held("seven parties, room for seven", 7),
    ]
}
