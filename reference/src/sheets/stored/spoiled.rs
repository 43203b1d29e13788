//! Sheets refused for what stands before or after the script: each ground alone, and with a later one.

use crate::cases::generator::Generator;
use crate::dealer::Dealer;
use crate::run_case::Case;
use crate::script::command::Command;
use crate::sheets::draft::Draft;
use crate::sheets::fault::{with_faults, Fault};

pub fn all(generator: &mut Generator) -> Vec<Case> {
    let draft = draft(generator);
    let mut spoil =
        |faults: Vec<Fault>| Case::with_room(with_faults(generator, draft.clone(), faults));
    let mut cases = Vec::new();
    for (_, fault) in alone() {
        cases.push(spoil(vec![fault]));
    }
    for (first, second) in pairs() {
        cases.push(spoil(vec![first.1, second.1]));
    }
    for length in [0, 1, 2, 9, 11, 12, 30] {
        cases.push(spoil(vec![Fault::Cut(length)]));
    }
    cases.extend(empty_sheets());
    cases.extend(over_limits(generator));
    cases
}

/// Two inputs in rows 0 and 1, two masks in rows 2 to 9, five triples in rows 10 to 24.
fn draft(generator: &mut Generator) -> Draft {
    let commands = [
        Command::Load { d: 0 },
        Command::Load { d: 1 },
        Command::Mul { d: 2, a: 0, b: 1 },
        Command::Mod {
            d: 3,
            a: 2,
            k: 3,
            m: 1,
        },
        Command::Reveal { a: 3 },
    ];
    let mut dealer = Dealer::new(generator, 0, (3, 1));
    Draft::deal(&mut dealer, &commands, &[5, 3], &[12, 6])
}

fn share(row: usize, party: usize, value: u32) -> (u32, Fault) {
    (5, Fault::Share { row, party, value })
}

fn row(row: usize, party: usize, amount: u32) -> (u32, Fault) {
    (6, Fault::Row { row, party, amount })
}

fn bit(mask: usize, bit: usize, secret: u32) -> (u32, Fault) {
    (7, Fault::MaskBit { mask, bit, secret })
}

fn mask(mask: usize, r: u32) -> (u32, Fault) {
    (7, Fault::MaskNumber { mask, r })
}

fn triple(triple: usize, amount: u32) -> (u32, Fault) {
    (8, Fault::Triple { triple, amount })
}

/// Another script, which is refused with this number.
fn script(number: u32, bytes: &[u8]) -> (u32, Fault) {
    (number, Fault::Script(bytes.to_vec()))
}

/// The number that each fault alone is refused with.
fn alone() -> Vec<(u32, Fault)> {
    let mut faults = in_the_header();
    faults.extend([0, 5, 24].map(|row| share(row, 1, 13)));
    faults.extend([2, 3].map(|party| share(1, party, u32::MAX)));
    faults.extend([share(9, 3, 14), share(10, 2, 1 << 31), share(24, 3, 13)]);
    faults.extend([row(0, 1, 1), row(1, 2, 12), row(2, 3, 6), row(9, 1, 4)]);
    faults.extend([row(10, 2, 3), row(11, 3, 1), row(24, 3, 12)]);
    faults.extend([bit(0, 0, 2), bit(0, 3, 12), bit(1, 3, 2), bit(1, 0, 7)]);
    faults.extend([mask(0, 13), mask(1, 13), mask(1, 14), mask(0, 15)]);
    faults.extend([triple(0, 1), triple(2, 12), triple(4, 6)]);
    faults
}

/// Faults in the header and in the length, that of the sheet being 327 bytes.
fn in_the_header() -> Vec<(u32, Fault)> {
    let mut faults = vec![
        (1, Fault::Cut(10)),
        (4, Fault::Longer(1)),
        (4, Fault::Longer(12)),
        (4, Fault::Cut(326)),
    ];
    for (place, count) in [(3, 1), (3, 65), (5, 17), (7, 513), (9, 1025), (3, 0xFFFF)] {
        faults.push((4, Fault::Count { place, count }));
    }
    for (number, place, value) in [
        (2, 0, 4),
        (2, 0, 255),
        (3, 1, 2),
        (3, 1, 8),
        (3, 1, 255),
        (3, 2, 0),
        (3, 2, 2),
        (3, 2, 128),
        (3, 2, 255),
        (4, 0, 1),
        (4, 1, 4),
    ] {
        faults.push((number, Fault::Byte { place, value }));
    }
    faults
}

/// Every two of these grounds, and those of the rows again at other places.
fn pairs() -> Vec<((u32, Fault), (u32, Fault))> {
    let mut pairs = every_two(&[
        (1, Fault::Cut(10)),
        (2, Fault::Byte { place: 0, value: 4 }),
        (3, Fault::Byte { place: 1, value: 8 }),
        (4, Fault::Longer(1)),
        share(24, 3, 13),
        row(20, 2, 5),
        bit(1, 2, 2),
        triple(4, 3),
        script(9, &[15]),
        script(10, &[]),
        script(11, &[1, 64, 0]),
    ]);
    pairs.retain(|(first, _)| first.0 < 9);
    pairs.extend(every_two(&[
        share(0, 1, 4_000_000_000),
        row(24, 1, 1),
        bit(0, 1, 12),
        triple(0, 1),
    ]));
    pairs.extend(every_two(&[row(0, 3, 7), mask(1, 13), triple(1, 2)]));
    pairs
}

fn every_two(faults: &[(u32, Fault)]) -> Vec<((u32, Fault), (u32, Fault))> {
    let mut pairs = Vec::new();
    for (i, first) in faults.iter().enumerate() {
        for second in &faults[i + 1..] {
            pairs.push((first.clone(), second.clone()));
        }
    }
    pairs
}

/// Only a header and END, for t of 0 and about its largest.
fn empty_sheets() -> Vec<Case> {
    let pairs = (2..=8u8).flat_map(|n| [0, (n - 1) / 2, n.div_ceil(2)].map(|t| (n, t)));
    pairs
        .map(|(n, t)| Case::with_room(vec![1, n, t, 0, 0, 0, 0, 0, 0, 1, 0, 0]))
        .collect()
}

/// Counts at a limit and one over it, with all the rows or bytes that they say.
fn over_limits(generator: &mut Generator) -> Vec<Case> {
    let mut dealer = Dealer::new(generator, 0, (3, 1));
    let mut cases = Vec::new();
    for (inputs, masks, triples, script) in [
        (64, 0, 0, 20),
        (65, 0, 0, 20),
        (0, 16, 0, 21),
        (0, 17, 0, 21),
        (0, 0, 513, 20),
        (0, 0, 0, 1024),
        (0, 0, 0, 1025),
    ] {
        let secrets = vec![6; inputs];
        let masks = vec![9; masks];
        let mut draft = Draft::deal(&mut dealer, &long_script(script), &secrets, &masks);
        draft.triples = dealer.triples(triples);
        cases.push(Case::with_room(draft.to_bytes()));
    }
    cases
}

/// Commands that fill this many bytes with END, most of them REVEAL.
fn long_script(bytes: usize) -> Vec<Command> {
    let mut commands = vec![Command::Const { d: 9, v: 5 }];
    let mut rest = bytes - 7;
    if rest % 2 == 1 {
        commands.push(Command::Scale { d: 9, a: 9, v: 4 });
        rest -= 7;
    }
    commands.extend(vec![Command::Reveal { a: 9 }; rest / 2]);
    commands
}

#[cfg(test)]
mod tests {
    use super::*;

    fn answered(faults: Vec<Fault>) -> (u32, usize) {
        let mut generator = Generator::new(2);
        let draft = draft(&mut generator);
        let answer = Case::with_room(with_faults(&mut generator, draft, faults))
            .outcome()
            .answer;
        (answer.number, answer.place)
    }

    #[test]
    fn each_fault_alone_has_its_number() {
        for (number, fault) in alone() {
            assert_eq!(answered(vec![fault.clone()]), (number, 0), "{fault:?}");
        }
        assert_eq!(answered(vec![]).0, 0);
    }

    #[test]
    fn of_two_faults_the_one_tried_first_is_answered() {
        for (first, second) in pairs() {
            assert!(first.0 < second.0);
            let faults = vec![first.1, second.1];
            assert_eq!(answered(faults.clone()), (first.0, 0), "{faults:?}");
        }
    }

    #[test]
    fn counts_over_their_limits_are_refused_with_the_right_length() {
        let numbers: Vec<u32> = over_limits(&mut Generator::new(2))
            .iter()
            .map(|case| case.outcome().answer.number)
            .collect();
        assert_eq!(numbers, [0, 4, 0, 4, 4, 0, 4]);
    }
}
