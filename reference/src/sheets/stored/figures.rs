//! The figures of paper and requests and the printed sheet, as whole runs.

use super::{bits_at, case};
use crate::cases::generator::Generator;
use crate::run_case::Case;
use crate::script::command::Command;
use crate::sheets::bench;

/// The field's number, a command from register 0 to 1, the input, the mask, and the result.
type Figure = (u32, Command, u32, u32, u32);

pub fn all(generator: &mut Generator) -> Vec<Case> {
    let mut cases = vec![Case::with_room(bench::small())];
    for (number, command, secret, r, _) in figures() {
        let commands = [Command::Load { d: 0 }, command, Command::Reveal { a: 1 }];
        cases.push(case(generator, number, &commands, &[secret], &[r]));
    }
    for (spelled, w, v, _) in COMPARISONS {
        let mut commands = bits_at(2, w, spelled);
        commands.extend([
            Command::Bitlt { d: 1, b: 2, w, v },
            Command::Reveal { a: 1 },
        ]);
        cases.push(case(generator, 0, &commands, &[], &[]));
    }
    cases
}

/// The number in bits, w, v, and the result.
const COMPARISONS: [(u32, u8, u32, u32); 3] = [(6, 3, 5, 1), (5, 3, 5, 0), (1, 1, 0, 1)];

fn figures() -> [Figure; 15] {
    let (d, a) = (1, 0);
    let trunc = Command::Trunc { d, a, k: 3, m: 1 };
    let ltz = Command::Ltz { d, a, k: 3 };
    let remainder = |m| Command::Mod { d, a, k: 3, m };
    let over = Command::Over {
        d,
        a,
        k: 15,
        v: 170,
    };
    let blocks = Command::Blocks { d, a, k: 15, m: 6 };
    let sign = Command::Ltz { d, a, k: 15 };
    [
        (0, remainder(1), 10, 12, 1),
        (0, trunc, 10, 5, 11),
        (0, trunc, 3, 5, 1),
        (0, remainder(2), 12, 5, 3),
        (0, ltz, 9, 5, 1),
        (0, ltz, 12, 5, 1),
        (0, ltz, 0, 5, 0),
        (0, ltz, 3, 5, 0),
        (0, ltz, 4, 5, 12),
        (2, over, 170, 5, 0),
        (2, over, 171, 5, 1),
        (2, blocks, 179, 5, 3),
        (2, blocks, 128, 5, 2),
        (2, blocks, 0, 5, 0),
        (2, sign, 65520, 5, 1),
    ]
}

#[cfg(test)]
mod tests {
    use super::*;

    #[test]
    fn whole_runs_give_the_figures_of_the_paper() {
        let cases = all(&mut Generator::new(9));
        let expected = figures().into_iter().map(|figure| figure.4);
        let compared = COMPARISONS.into_iter().map(|(_, _, _, result)| result);
        for (case, left) in cases[1..].iter().zip(expected.chain(compared)) {
            let outcome = case.outcome();
            assert_eq!(outcome.answer.number, 0);
            assert_eq!(outcome.revealed[0], left);
        }
        assert_eq!(cases.len(), 1 + 15 + 3);
    }

    /// C, the first number opened, is 0 for MOD of -3 with the mask 12.
    #[test]
    fn first_figure_opens_zero() {
        let outcome = all(&mut Generator::new(9))[1].outcome();
        let row: Vec<u64> = outcome.record[..3].iter().map(|&x| x.into()).collect();
        let weights = crate::weights::Weights::new(&crate::field::FIELDS[0], 3, 1);
        assert_eq!(weights.secret(&row), 0);
    }

    #[test]
    fn sign_in_field_2_spends_what_the_paper_says() {
        let answer = all(&mut Generator::new(9))[15].outcome().answer;
        let spent = (answer.masks, answer.triples, answer.openings);
        assert_eq!(spent, (1, 42, 85 + 1));
    }
}
