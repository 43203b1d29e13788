//! The step cases: each step at the ends of its ranges, in every field.

use super::case::{Step, StepCase};
use crate::cases::generator::Generator;
use crate::dealer::Dealer;
use crate::row::Row;

const SEED: u64 = 0x5EED_0002;

/// The fewest parties, and the most with the largest threshold.
const PARTIES: [(u32, u32); 2] = [(3, 1), (7, 3)];

pub fn all() -> Vec<StepCase> {
    let mut generator = Generator::new(SEED);
    let mut cases = Vec::new();
    for number in 0..4 {
        for parties in PARTIES {
            let mut maker = Maker {
                dealer: Dealer::new(&mut generator, number, parties),
            };
            cases.extend(maker.products());
            cases.extend(maker.comparisons());
            cases.extend(maker.masked());
        }
    }
    cases
}

struct Maker<'a> {
    dealer: Dealer<'a>,
}

impl Maker<'_> {
    fn products(&mut self) -> Vec<StepCase> {
        let last = self.dealer.field.modulus - 1;
        [(0, 0), (1, last), (last, last), (2, last / 2 + 1)]
            .into_iter()
            .map(|(left, right)| {
                let operands = vec![self.dealer.sharing(left), self.dealer.sharing(right)];
                self.case(Step::Mul, (0, 0, 0), operands, &[], 1)
            })
            .collect()
    }

    /// v against itself, its neighbours and both ends of the width; and against registers that are no bits.
    fn comparisons(&mut self) -> Vec<StepCase> {
        let mut cases = Vec::new();
        for (w, v) in [
            (1, 0),
            (1, 1),
            (2, 0),
            (2, 1),
            (2, 3),
            (31, (1u32 << 30) - 1),
        ] {
            let top = ((1u64 << w) - 1) as u32;
            for spelled in [v, v.saturating_sub(1), (v + 1).min(top)] {
                let bits = self.dealer.bits(spelled, w);
                cases.push(self.case(Step::Bitlt, (0, w, v), bits, &[], w - 1));
            }
        }
        let other = (0..8).map(|_| self.dealer.random_sharing()).collect();
        cases.push(self.case(Step::Bitlt, (0, 8, 0x5A), other, &[], 7));
        cases
    }

    /// The steps that take a mask, at the ends of k and m; for many parties only at the largest, which take most.
    /// The operand −2^(k−1) makes X 0 and C equal to r.
    fn masked(&mut self) -> Vec<StepCase> {
        let mut cases = Vec::new();
        let largest = self.dealer.field.largest_k;
        let widths = [(largest, largest - 1), (largest, 1), (2, 1)];
        let kept = if self.dealer.parties == PARTIES[0] {
            3
        } else {
            1
        };
        for width in widths.into_iter().take(kept) {
            cases.extend(self.remainders(width));
            cases.extend(self.floors(width));
            cases.extend(self.signs(width));
        }
        cases
    }

    fn remainders(&mut self, (k, m): (u32, u32)) -> Vec<StepCase> {
        let (lowest, highest) = self.ends(k);
        let p = self.dealer.field.modulus;
        [
            (lowest, 0),
            (lowest, p - 1),
            (p - 1, p - 1),
            (highest, 5),
            (highest + 1, 0),
        ]
        .into_iter()
        .map(|(a, r)| self.masked_case(Step::Mod, (k, m, 0), a, r))
        .collect()
    }

    /// BLOCKS of the highest number that is exact, which for m = k - 1 is 0; for a smaller m of the one
    /// below it, which begins as many blocks and does not fill the last.
    fn floors(&mut self, (k, m): (u32, u32)) -> Vec<StepCase> {
        let (lowest, highest) = self.ends(k);
        let last = self.dealer.field.modulus - 1;
        let highest_exact = highest + 1 - (1 << m);
        let charged = highest_exact - u32::from(m < k - 1);
        [
            (Step::Trunc, lowest),
            (Step::Trunc, last),
            (Step::Blocks, charged),
        ]
        .into_iter()
        .map(|(step, a)| self.with_any_mask(step, (k, m, 0), a))
        .collect()
    }

    /// LTZ and OVER take no m: the two widths with the largest k have operands of their own. With
    /// v = -1 OVER works on the other end than its operand's.
    fn signs(&mut self, (k, m): (u32, u32)) -> Vec<StepCase> {
        let (lowest, highest) = self.ends(k);
        let last = self.dealer.field.modulus - 1;
        let (ltz, over) = match (k, m) {
            (2, _) => (vec![lowest, highest, last], [(highest, 0), (1, 1)]),
            (_, 1) => (vec![highest], [(highest, last), (lowest, last)]),
            _ => (vec![lowest], [(highest, 0), (1, 1)]),
        };
        let ltz = ltz.into_iter().map(|a| (Step::Ltz, a, 0));
        let over = over.into_iter().map(|(a, v)| (Step::Over, a, v));
        ltz.chain(over)
            .map(|(step, a, v)| self.with_any_mask(step, (k, m, v), a))
            .collect()
    }

    /// The lowest and the highest number of k bits, modulo p.
    fn ends(&self, k: u32) -> (u32, u32) {
        let half = 1 << (k - 1);
        (self.dealer.field.modulus - half, half - 1)
    }

    fn with_any_mask(&mut self, step: Step, kmv: (u32, u32, u32), a: u32) -> StepCase {
        let r = self.dealer.random_value();
        self.masked_case(step, kmv, a, r)
    }

    fn masked_case(&mut self, step: Step, (k, m, v): (u32, u32, u32), a: u32, r: u32) -> StepCase {
        let low = match step {
            Step::Ltz | Step::Over => k - 1,
            _ => m,
        };
        let operands = vec![self.dealer.sharing(a)];
        let triples = self.dealer.field.bits() + 2 * low - 2;
        self.case(step, (k, m, v), operands, &[r], triples)
    }

    fn case(
        &mut self,
        step: Step,
        (k, m, v): (u32, u32, u32),
        operands: Vec<Row>,
        masks: &[u32],
        triples: u32,
    ) -> StepCase {
        let masks = masks.iter().map(|&r| self.dealer.mask(r)).collect();
        StepCase {
            step,
            number: self.dealer.number,
            field: self.dealer.field,
            parties: self.dealer.parties.0,
            threshold: self.dealer.parties.1,
            k,
            m,
            v,
            operands,
            masks,
            triples: self.dealer.triples(triples as usize),
        }
    }
}

#[cfg(test)]
mod tests {
    use super::*;
    use crate::field::FIELDS;
    use crate::weights::Weights;

    const STEPS: [Step; 7] = [
        Step::Mul,
        Step::Mod,
        Step::Trunc,
        Step::Ltz,
        Step::Over,
        Step::Blocks,
        Step::Bitlt,
    ];

    #[test]
    fn openings_are_one_for_a_mask_and_two_for_a_triple() {
        for case in all() {
            let openings = case.masks.len() + 2 * case.triples.len();
            assert_eq!(case.answer().unwrap().opened.len(), openings);
        }
    }

    /// By three parties: LTZ at the ends of the smallest and the largest k, OVER where v - a is at
    /// those of the largest.
    #[test]
    fn signs_are_taken_at_both_ends_of_the_range() {
        let cases = all();
        let asked = |largest| [(Step::Ltz, 2), (Step::Ltz, largest), (Step::Over, largest)];
        for (number, step, k) in (0..4).flat_map(|number| {
            asked(FIELDS[number].largest_k).map(|(step, k)| (number as u32, step, k))
        }) {
            let asked = cases.iter().filter(|case| {
                (case.number, case.parties, case.step, case.k) == (number, 3, step, k)
            });
            let numbers: Vec<u64> = asked.map(worked_on).collect();
            let half = 1 << (k - 1);
            let lowest = u64::from(FIELDS[number as usize].modulus) - half;
            assert!(numbers.contains(&lowest), "{step:?} {number} {k}");
            assert!(numbers.contains(&(half - 1)), "{step:?} {number} {k}");
        }
    }

    /// Where m = k - 1 the highest exact number is 0. half - 3 seconds begin (half - 2) / 2 blocks and do
    /// not fill the last.
    #[test]
    fn blocks_are_taken_of_the_highest_exact_number_and_of_one_below_it() {
        let cases = all();
        for (number, field) in (0..).zip(&FIELDS) {
            let blocks = cases
                .iter()
                .filter(|case| (case.number, case.step) == (number, Step::Blocks));
            let found: Vec<_> = blocks.map(charge).collect();
            let largest = field.largest_k;
            let half = 1 << (largest - 1);
            let expected = [
                (3, largest, largest - 1, 0, 0),
                (3, largest, 1, half - 3, (half - 2) / 2),
                (3, 2, 1, 0, 0),
                (7, largest, largest - 1, 0, 0),
            ];
            assert_eq!(found, expected, "field {number}");
        }
    }

    /// Parties, k, m, the number charged and its blocks.
    fn charge(case: &StepCase) -> (u32, u32, u32, u64, u64) {
        let charged = secret(case, &case.operands[0]);
        let blocks = secret(case, &case.answer().unwrap().left);
        (case.parties, case.k, case.m, charged, blocks)
    }

    /// The number whose sign is taken.
    fn worked_on(case: &StepCase) -> u64 {
        let a = secret(case, &case.operands[0]);
        match case.step {
            Step::Over => case.field.subtract(case.v.into(), a),
            _ => a,
        }
    }

    fn secret(case: &StepCase, row: &Row) -> u64 {
        let weights = Weights::new(case.field, case.parties as usize, case.threshold as usize);
        weights.secret(row)
    }

    /// The proved program reads so many bytes.
    #[test]
    fn cases_fit_the_program_that_runs_them() {
        let bytes: usize = all().iter().map(|case| case.to_bytes().len()).sum();
        assert!(bytes <= 400_000, "{bytes}");
    }

    #[test]
    fn every_step_stands_in_every_field() {
        let cases = all();
        for number in 0..4 {
            let in_field = cases.iter().filter(|case| case.number == number);
            let found: Vec<Step> = in_field.map(|case| case.step).collect();
            for step in STEPS {
                assert!(found.contains(&step), "{step:?} in field {number}");
            }
        }
    }
}
