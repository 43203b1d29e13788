//! Runs with absent parties, and sets that 12 refuses.

use super::drawn;
use crate::cases::generator::Generator;
use crate::cases::PERMITTED;
use crate::dealer::Dealer;
use crate::field::FIELDS;
use crate::present::{bit, everyone, permitted};
use crate::run_case::Case;
use crate::script::command::Command;
use crate::sheets::draft::Draft;
use crate::sheets::examples;
use crate::sheets::fault::{with_faults, Fault};
use crate::sheets::sets_of;

pub fn all(generator: &mut Generator) -> Vec<Case> {
    let mut cases = squares(generator);
    cases.extend(largest_shares());
    cases.extend(masked(generator));
    cases.extend(bad_sets());
    cases.extend(two_faults(generator));
    cases.extend(drawn::absent());
    cases
}

/// The square of an input, revealed.
const SQUARE: [Command; 3] = [
    Command::Load { d: 0 },
    Command::Mul { d: 1, a: 0, b: 0 },
    Command::Reveal { a: 1 },
];

/// In each field with each number of parties and each threshold.
fn squares(generator: &mut Generator) -> Vec<Case> {
    let mut cases = Vec::new();
    for (number, (n, t)) in (0..4).flat_map(|number| PERMITTED.map(|parties| (number, parties))) {
        let mut dealer = Dealer::new(generator, number, (n, t));
        let secret = dealer.random_value();
        let sheet = Draft::deal(&mut dealer, &SQUARE, &[secret], &[]).to_bytes();
        for present in chosen(generator, n as u8, t as u8) {
            cases.push(Case::with_room(sheet.clone()).with_present(present));
        }
    }
    cases
}

/// All permitted sets of up to five parties. Of six and seven two of each size: the highest parties,
/// and a drawn set.
fn chosen(generator: &mut Generator, n: u8, t: u8) -> Vec<u8> {
    if n <= 5 {
        return permitted(n.into(), t.into());
    }
    let mut chosen = Vec::new();
    for size in t + 1..=n {
        let sets = sets_of(n, size);
        chosen.extend(sets.last());
        chosen.push(generator.pick(&sets));
    }
    chosen.dedup();
    chosen
}

/// Shares that are all p - 1 in the largest field with the most products: every set of four of seven.
fn largest_shares() -> Vec<Case> {
    let v = FIELDS[3].modulus - 1;
    let script = [
        Command::Const { d: 0, v }.to_bytes(),
        Command::Reveal { a: 0 }.to_bytes(),
        vec![0],
    ];
    let header = [3, 7, 3, 0, 0, 0, 0, 0, 0, 9, 0];
    let sheet = [&header[..], &script.concat()].concat();
    let of = |present| Case::with_room(sheet.clone()).with_present(present);
    sets_of(7, 4).into_iter().map(of).collect()
}

/// Steps that take a mask: each of them in field 0, and the example of three calls.
fn masked(generator: &mut Generator) -> Vec<Case> {
    let (d, a, k, m) = (1, 0, 3, 1);
    let steps = [
        (Command::Mod { d, a, k, m }, (3, 1), 0b110),
        (Command::Trunc { d, a, k, m }, (3, 1), 0b101),
        (Command::Ltz { d, a, k }, (4, 1), 0b1010),
        (Command::Over { d, a, k, v: 2 }, (5, 2), 0b11010),
        (Command::Blocks { d, a, k, m }, (7, 3), 0b1101010),
    ];
    let mut cases = Vec::new();
    for (step, parties, present) in steps {
        let commands = [Command::Load { d: a }, step, Command::Reveal { a: d }];
        let mut dealer = Dealer::new(generator, 0, parties);
        let sheet = Draft::deal_drawn(&mut dealer, &commands, &[3], 1).to_bytes();
        cases.push(Case::with_room(sheet).with_present(present));
    }
    let sheet = examples::three_calls().to_bytes();
    cases.push(Case::with_room(sheet).with_present(0b110));
    cases
}

/// Only a header and END, for each number of parties and each threshold: none and t present, and each
/// bit beyond n with everyone, with t + 1, with t and alone.
fn bad_sets() -> Vec<Case> {
    let mut cases = Vec::new();
    for (n, t) in PERMITTED.map(|(n, t)| (n as u8, t as u8)) {
        let sheet = vec![0, n, t, 0, 0, 0, 0, 0, 0, 1, 0, 0];
        let highest = everyone(n) - everyone(n - t);
        let mut sets = vec![0, everyone(t), highest];
        for party in usize::from(n) + 1..=8 {
            let others = [everyone(n), everyone(t + 1), everyone(t), 0];
            sets.extend(others.map(|others| others | bit(party)));
        }
        for present in sets {
            cases.push(Case::with_room(sheet.clone()).with_present(present));
        }
    }
    cases
}

/// A set that 12 refuses, and a sheet that another number refuses.
fn two_faults(generator: &mut Generator) -> Vec<Case> {
    let draft = one_of_each(generator);
    let sets = [0b000, 0b010, 0b1111].into_iter().cycle();
    let faults = faults().into_iter().zip(sets);
    let both = |((_, fault), present)| {
        let sheet = with_faults(generator, draft.clone(), vec![fault]);
        Case::with_room(sheet).with_present(present)
    };
    faults.map(both).collect()
}

/// Three parties in field 0: an input in row 0, a mask in rows 1 to 4 and a triple in rows 5 to 7.
fn one_of_each(generator: &mut Generator) -> Draft {
    let mut dealer = Dealer::new(generator, 0, (3, 1));
    Draft::deal(&mut dealer, &SQUARE, &[5], &[12])
}

/// The number that each fault alone is refused with.
fn faults() -> Vec<(u32, Fault)> {
    let byte = |place, value| Fault::Byte { place, value };
    let count = |place, count| Fault::Count { place, count };
    let (mask, bit, triple, amount) = (0, 3, 0, 1);
    vec![
        (1, Fault::Cut(10)),
        (2, byte(0, 4)),
        (3, byte(1, 8)),
        (3, byte(2, 0)),
        (3, byte(2, 2)),
        (4, count(3, 65)),
        (4, count(5, 17)),
        (4, count(7, 513)),
        (4, count(9, 1025)),
        (4, Fault::Longer(1)),
        (4, Fault::Cut(11)),
        (
            5,
            Fault::Share {
                row: 7,
                party: 3,
                value: 13,
            },
        ),
        (
            6,
            Fault::Row {
                row: 0,
                party: 2,
                amount,
            },
        ),
        (
            7,
            Fault::MaskBit {
                mask,
                bit,
                secret: 2,
            },
        ),
        (8, Fault::Triple { triple, amount }),
        (9, Fault::Script(vec![15])),
        (10, Fault::Script(vec![])),
        (11, Fault::Script(vec![1, 64, 0])),
    ]
}

#[cfg(test)]
mod tests {
    use super::*;
    use crate::present::is_present;

    fn number(case: &Case) -> u32 {
        case.outcome().answer.number
    }

    #[test]
    fn runs_with_permitted_sets_come_to_their_end() {
        let mut generator = Generator::new(4);
        let runs = [
            squares(&mut generator),
            largest_shares(),
            masked(&mut generator),
        ];
        assert!(runs.concat().iter().all(|case| number(case) == 0));
    }

    #[test]
    fn every_set_of_up_to_five_and_every_size_of_more_is_there() {
        let cases = squares(&mut Generator::new(4));
        for (field, (n, t)) in (0..4).flat_map(|field| PERMITTED.map(|parties| (field, parties))) {
            let start = [field, n as u8, t as u8];
            let of = cases.iter().filter(|case| case.sheet[..3] == start);
            let sets: Vec<u8> = of.map(|case| case.present).collect();
            if n <= 5 {
                assert_eq!(sets, permitted(n as usize, t as usize));
            }
            for size in t + 1..=n {
                assert!(sets.iter().any(|set| set.count_ones() == size));
            }
            let is_without_first = |&&set: &&u8| !is_present(set, 1);
            assert!(sets.iter().filter(is_without_first).count() > 0);
        }
    }

    #[test]
    fn bad_sets_are_refused_with_12() {
        assert!(bad_sets().iter().all(|case| number(case) == 12));
    }

    /// 1 to 3 come before 12, and all others after it.
    #[test]
    fn of_two_faults_the_one_tried_first_is_answered() {
        let cases = two_faults(&mut Generator::new(4));
        assert_eq!(cases.len(), faults().len());
        for (case, (alone, _)) in cases.into_iter().zip(faults()) {
            assert_eq!(number(&case), if alone <= 3 { alone } else { 12 });
            let sheet = case.sheet.clone();
            assert_eq!(number(&Case::with_room(sheet)), alone);
        }
    }
}
