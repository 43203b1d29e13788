//! LTZS: every h, stretches of every kind, the ends of k and of its range, absent parties, and what the state
//! refuses. Some stand beside the same sheet with LTZ commands in the place of LTZS.

use super::case;
use super::ends::values;
use crate::cases::generator::Generator;
use crate::cases::PERMITTED;
use crate::dealer::Dealer;
use crate::field::FIELDS;
use crate::present::everyone;
use crate::run_case::Case;
use crate::script::command::Command;
use crate::sheets::draft::Draft;
use crate::sheets::split::split;

pub fn all(generator: &mut Generator) -> Vec<Case> {
    let mut cases = counts(generator);
    cases.extend(stretches(generator));
    cases.extend(ends(generator));
    cases.extend(widths(generator));
    cases.extend(parties(generator));
    cases.extend(unset(generator));
    cases
}

/// LOADs of what LTZS reads, LTZS, and REVEALs of its first and its last sign.
fn script(signs: Command) -> Vec<Command> {
    let loads = signs.reads().into_iter().map(|d| Command::Load { d });
    let mut commands: Vec<Command> = loads.chain([signs]).collect();
    let left = signs.writes();
    commands.extend([left.start, left.end - 1].map(|a| Command::Reveal { a }));
    commands
}

/// In field 0, with masks of drawn numbers. The secrets are 12, which is -1, 0, 11, 1 and so on.
fn in_field_0(generator: &mut Generator, signs: Command) -> Case {
    let h = signs.reads().len();
    let masks = generator.list(h, FIELDS[0].modulus);
    let secrets: Vec<u32> = [12, 0, 11, 1].into_iter().cycle().take(h).collect();
    case(generator, 0, &script(signs), &secrets, &masks)
}

/// The case and the one with LTZ commands in the place of LTZS, with the same buffers.
fn beside(signs: Case) -> [Case; 2] {
    let sheet = split(&signs.sheet).expect("the script is not long");
    let ltz = Case {
        sheet,
        ..signs.clone()
    };
    [signs, ltz]
}

/// Every h, by turns into the same registers, into those before and into those after.
fn counts(generator: &mut Generator) -> Vec<Case> {
    let (a, k) = (24, 2);
    let with = |h: u8| {
        let d = [a, a - h, a + h][usize::from(h) % 3];
        in_field_0(generator, Command::Ltzs { d, a, h, k })
    };
    (1..=16).map(with).collect()
}

/// d, a and h: the same registers, next to each other and apart, at the first and the last register.
const STRETCHES: [(u8, u8, u8); 12] = [
    (0, 0, 2),
    (62, 62, 2),
    (0, 2, 2),
    (2, 0, 2),
    (60, 62, 2),
    (62, 60, 2),
    (0, 61, 3),
    (61, 0, 3),
    (63, 63, 1),
    (62, 63, 1),
    (63, 0, 1),
    (48, 0, 16),
];

fn stretches(generator: &mut Generator) -> Vec<Case> {
    let k = 3;
    let with = |(d, a, h)| beside(in_field_0(generator, Command::Ltzs { d, a, h, k }));
    STRETCHES.into_iter().flat_map(with).collect()
}

/// The smallest and the largest k of every field, each of the ends of its range and their neighbours, with the
/// masks 0 and p - 1 by turns.
fn ends(generator: &mut Generator) -> Vec<Case> {
    let mut cases = Vec::new();
    for (number, field) in (0..).zip(&FIELDS) {
        for (turn, k) in [2, field.largest_k as u8].into_iter().enumerate() {
            let secrets = values(number, k, turn);
            let h = secrets.len();
            let masks: Vec<u32> = [0, field.modulus - 1].into_iter().cycle().take(h).collect();
            let (d, a, h) = (40, 7, h as u8);
            let commands = script(Command::Ltzs { d, a, h, k });
            cases.push(case(generator, number, &commands, &secrets, &masks));
        }
    }
    cases
}

/// k of 1 and one above the largest of every field, which 11 refuses after a LOAD, and the largest.
fn widths(generator: &mut Generator) -> Vec<Case> {
    let (d, a, h) = (0, 0, 2);
    let mut cases = Vec::new();
    for (number, field) in (0..).zip(&FIELDS) {
        let largest = field.largest_k as u8;
        for k in [1, largest, largest + 1] {
            let commands = [Command::Load { d }, Command::Ltzs { d, a, h, k }];
            let mut dealer = Dealer::new(generator, number, (3, 1));
            let mut draft = Draft::deal(&mut dealer, &commands, &[1], &[]);
            // none is taken
            draft.triples.clear();
            cases.push(Case::with_room(draft.to_bytes()));
        }
    }
    cases
}

/// Every number of parties and every threshold, of which the last t + 1 are present.
fn parties(generator: &mut Generator) -> Vec<Case> {
    let (d, a, h, k) = (1, 1, 2, 2);
    let commands = script(Command::Ltzs { d, a, h, k });
    let with = |(n, t)| {
        let mut dealer = Dealer::new(generator, 0, (n, t));
        let sheet = Draft::deal_drawn(&mut dealer, &commands, &[12, 1], 2).to_bytes();
        let (n, t) = (n as u8, t as u8);
        let present = everyone(n) - everyone(n - t - 1);
        Case::with_room(sheet).with_present(present)
    };
    PERMITTED.into_iter().map(with).collect()
}

/// Of registers 10 to 13 each is unset in turn, and at last none. There is enough of everything.
fn unset(generator: &mut Generator) -> Vec<Case> {
    let (a, h, k) = (10, 4, 2);
    let mut cases = Vec::new();
    for left_out in 10..=14 {
        for d in [a, a + h] {
            let set = (10..14).filter(|&register| register != left_out);
            let loads = set.map(|d| Command::Load { d });
            let commands: Vec<Command> = loads.chain([Command::Ltzs { d, a, h, k }]).collect();
            let secrets = vec![12; commands.len() - 1];
            cases.push(case(generator, 0, &commands, &secrets, &[5, 9, 0, 12]));
        }
    }
    cases
}

#[cfg(test)]
mod tests {
    use super::*;

    #[test]
    fn good_sheets_come_to_their_end_with_the_signs() {
        let mut generator = Generator::new(4);
        let cases = [counts(&mut generator), stretches(&mut generator)].concat();
        for case in cases {
            let outcome = case.outcome();
            let (answer, inputs) = (outcome.answer, usize::from(case.sheet[3]));
            assert_eq!((answer.number, answer.masks), (0, inputs));
            let last = u32::from(inputs % 2 == 1);
            assert_eq!(outcome.revealed[..2], [1, last], "{inputs}");
        }
    }

    /// The largest k is let through to 21.
    #[test]
    fn widths_are_refused_at_the_command() {
        let answers = widths(&mut Generator::new(4)).into_iter().map(|case| {
            let answer = case.outcome().answer;
            (answer.number, answer.place)
        });
        let expected = [(11, 2), (21, 2), (11, 2)];
        assert!(answers.eq(expected.into_iter().cycle().take(12)));
    }

    #[test]
    fn every_set_of_parties_leaves_the_signs() {
        for case in parties(&mut Generator::new(4)) {
            let outcome = case.outcome();
            assert_eq!(outcome.answer.number, 0);
            assert_eq!(outcome.revealed[..2], [1, 0]);
            assert!(outcome.record.contains(&FIELDS[0].modulus));
        }
    }

    #[test]
    fn an_unset_register_refuses_the_whole_command() {
        let cases = unset(&mut Generator::new(4));
        let (refused, finished) = cases.split_at(8);
        for case in refused {
            let answer = case.outcome().answer;
            assert_eq!((answer.number, answer.place), (21, 6));
            assert_eq!((answer.masks, answer.triples, answer.openings), (0, 0, 0));
            assert_eq!(answer.set.iter().filter(|&&set| set).count(), 3);
        }
        assert_eq!(finished.len(), 2);
        let number = |case: &Case| case.outcome().answer.number;
        assert!(finished.iter().all(|case| number(case) == 0));
    }
}
