//! Runs that come to END: every number of parties, every party, every command in every field, the example
//! sheets, and the largest sheet.

use super::Told;
use crate::cases::PERMITTED;
use crate::present::{everyone_of, permitted};
use crate::refusal::NONE;
use crate::replay::dealt::{each_opening, product, Work, SMALL};
use crate::replay::recorded::Recorded;
use crate::script::command::Command::{self, *};
use crate::sheets::{bench, examples};

pub fn all() -> Vec<Told> {
    let mut all = parties();
    all.extend(sets());
    all.extend(masked());
    all.extend(plain());
    all.extend(signs());
    all.extend(left_over());
    all.extend(sheets());
    all
}

/// All the parties' replays, with everyone present.
fn of(recorded: &Recorded, end: usize) -> impl Iterator<Item = Told> {
    let cases = recorded.cases().into_iter();
    cases.map(move |case| (case, NONE, end))
}

fn parties() -> Vec<Told> {
    let mut all = Vec::new();
    for (field, parties) in (0..4).flat_map(|field| PERMITTED.map(|parties| (field, parties))) {
        let recorded = product().recorded(200, (field, parties));
        all.extend(of(&recorded, 10));
    }
    all
}

/// Every permitted set of the run for each threshold; for every party of three and of five with threshold 2,
/// else for one of them.
fn sets() -> Vec<Told> {
    let mut all = Vec::new();
    for (n, t) in [(3, 1), (4, 1), (5, 1), (5, 2), (6, 2), (7, 3)] {
        let recorded = product().recorded(201, (0, (n, t)));
        let sets = permitted(n as usize, t as usize);
        for (index, set) in sets.into_iter().enumerate() {
            let parties = match (n, t) {
                (3, 1) | (5, 2) => (1..=n as usize).collect(),
                _ => vec![1 + index % n as usize],
            };
            for party in parties {
                let case = recorded.case(party).with_sets(&[set]);
                all.push((case, NONE, 10));
            }
        }
    }
    all
}

/// The field's number and its largest k.
const WIDTHS: [(u32, u8); 4] = [(0, 3), (1, 7), (2, 15), (3, 30)];

/// Every command that takes a mask, in the smallest width and in the largest. In field 3 the largest is long, and
/// LTZ stands for all.
fn masked() -> Vec<Told> {
    let mut all = Vec::new();
    for (field, largest) in WIDTHS {
        for (k, m) in [(2, 1), (largest, largest - 1)] {
            let only_ltz = field == 3 && m > 1;
            for (index, command) in (0..).zip(with_widths(k, m)) {
                if only_ltz && !matches!(command, Ltz { .. }) {
                    continue;
                }
                let work = Work::new(&[Load { d: 0 }, command], &[5], &[11]);
                let recorded = work.recorded(210 + index, (field, (3, 1)));
                let case = recorded.case(1 + index as usize % 3);
                all.push((case, NONE, work.end()));
            }
        }
    }
    all
}

fn with_widths(k: u8, m: u8) -> [Command; 6] {
    let (d, a, v) = (2, 0, 3);
    [
        Mod { d, a, k, m },
        Trunc { d, a, k, m },
        Ltz { d, a, k },
        Over { d, a, k, v },
        Blocks { d, a, k, m },
        Ltzs { d, a, h: 1, k },
    ]
}

/// Every other command.
fn plain() -> Vec<Told> {
    let (d, a, b) = (2, 0, 1);
    let (v, w) = (22, 5);
    let commands = [
        Load { d: 0 },
        Load { d: 1 },
        Const { d: 63, v: 12 },
        Add { d, a, b },
        Sub { d: 3, a, b: 63 },
        Scale { d: 4, a: 3, v: 7 },
        Mul { d: 0, a, b: 4 },
        Bitlt { d: 5, b: 0, w, v },
        Bitlt {
            d: 6,
            b: 63,
            w: 1,
            v: 0,
        },
        Reveal { a: 5 },
    ];
    let work = Work::new(&commands, &[9, 1], &[]);
    let mut all = Vec::new();
    for field in 0..4 {
        for parties in [(3, 1), (7, 3)] {
            let recorded = work.recorded(220, (field, parties));
            all.extend(of(&recorded, work.end()).step_by(2));
        }
    }
    all
}

/// LTZS of 1, 3, 12 and 16 registers, to others and to the same; other parties absent in each opening.
fn signs() -> Vec<Told> {
    let mut all = Vec::new();
    for (h, d) in [(1, 63), (3, 3), (3, 0), (12, 40), (16, 16), (16, 0)] {
        let (a, k) = (0, 2);
        let loads = (0..h).map(|d| Load { d });
        let commands: Vec<Command> = loads.chain([Ltzs { d, a, h, k }]).collect();
        let secrets: Vec<u32> = (0..h).map(|i| u32::from(i) % 2 * 12).collect();
        let masks: Vec<u32> = (0..h).map(|i| u32::from(i) % 13).collect();
        let work = Work::new(&commands, &secrets, &masks);
        let recorded = work.recorded(230 + u64::from(h), SMALL);
        all.extend(of(&recorded, work.end()).take(1));
        let sets = [0b011, 0b111, 0b110, 0b101, 0b110];
        let case = recorded.case(2).with_sets(&sets);
        all.push((case, NONE, work.end()));
    }
    all
}

/// Numbers after the record, below p and above it, whole openings and parts of one.
fn left_over() -> Vec<Told> {
    let mut all = Vec::new();
    for (index, work) in (240..).zip(each_opening()) {
        let case = work.recorded(index, SMALL).case(1);
        for numbers in [
            &[0][..],
            &[13, 13],
            &[1, 2, 3],
            &[14, 200, u32::MAX, 5],
            &[u32::MAX; 9],
        ] {
            let longer = case.clone().followed_by(numbers);
            all.push((longer, NONE, work.end()));
        }
    }
    let work = Work::new(&[Load { d: 0 }, Scale { d: 1, a: 0, v: 3 }], &[4], &[]);
    let case = work.recorded(248, SMALL).case(3);
    all.push((case.clone(), NONE, work.end()));
    all.push((case.followed_by(&[14, 0, 99]), NONE, work.end()));
    all
}

/// The examples that come to END, each for one party, and the largest sheet with a party absent. The places of
/// END are the scripts' lengths less one.
fn sheets() -> Vec<Told> {
    let names = ["mul", "rounding", "test-call-170", "three-calls"];
    let examples = names.into_iter().filter_map(examples::named);
    let named = examples.enumerate().map(|(index, sheet)| {
        let recorded = Recorded::of(&sheet, everyone_of(&sheet)).expect("it is accepted");
        recorded.case(1 + index % 3)
    });
    let largest = Recorded::of(&bench::largest(), 0b1101111).expect("it is accepted");
    let cases = named.chain([largest.case(5)]);
    cases
        .map(|case| {
            let end = case.head.len() - 12;
            (case, NONE, end)
        })
        .collect()
}
