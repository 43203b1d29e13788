//! Lagrange's weights, worked out once for a field and a number of parties and a threshold.

use crate::field::Field;

/// What the first t + 1 shares of a sharing say of its polynomial elsewhere.
pub struct Weights {
    field: &'static Field,
    at_zero: Vec<u64>,
    /// For each party after the first t + 1.
    at_later: Vec<Vec<u64>>,
}

impl Weights {
    pub fn new(field: &'static Field, parties: usize, threshold: usize) -> Weights {
        let first: Vec<u64> = (1..=threshold as u64 + 1).collect();
        let later = threshold as u64 + 2..=parties as u64;
        Weights {
            field,
            at_zero: weights_at(field, 0, &first),
            at_later: later
                .map(|party| weights_at(field, party, &first))
                .collect(),
        }
    }

    /// The value at 0 of the polynomial that the first t + 1 shares lie on.
    pub fn secret(&self, row: &[u64]) -> u64 {
        self.value(&self.at_zero, row)
    }

    /// The first t + 1 shares, each times its weight at 0, added and not reduced. Four products of
    /// numbers below 2^31 fit.
    pub fn sum(&self, row: &[u64]) -> u64 {
        let products = self.at_zero.iter().zip(row);
        products.map(|(&weight, &share)| weight * share).sum()
    }

    /// The sharing whose first t + 1 shares are these.
    pub fn sharing_from(&self, first: &[u64]) -> Vec<u64> {
        let later = self.at_later.iter();
        let later = later.map(|weights| self.value(weights, first));
        first.iter().copied().chain(later).collect()
    }

    /// Whether one polynomial of degree at most t takes share j at j.
    pub fn is_sharing(&self, row: &[u64]) -> bool {
        let later = &row[self.at_zero.len()..];
        self.at_later
            .iter()
            .zip(later)
            .all(|(weights, &share)| self.value(weights, row) == share)
    }

    fn value(&self, weights: &[u64], row: &[u64]) -> u64 {
        weights.iter().zip(row).fold(0, |sum, (&weight, &share)| {
            self.field.add(sum, self.field.multiply(weight, share))
        })
    }
}

/// The weight at x of each of these parties, in their order.
pub fn weights_at(field: &Field, x: u64, parties: &[u64]) -> Vec<u64> {
    parties
        .iter()
        .map(|&party| weight(field, x, party, parties))
        .collect()
}

/// The product of (x - other) / (party - other) over every other of the parties.
fn weight(field: &Field, x: u64, party: u64, parties: &[u64]) -> u64 {
    let others = parties.iter().filter(|&&other| other != party);
    let (above, below) = others.fold((1, 1), |(above, below), &other| {
        (
            field.multiply(above, field.subtract(x, other)),
            field.multiply(below, field.subtract(party, other)),
        )
    });
    field.multiply(above, field.inverse(below))
}

#[cfg(test)]
mod tests {
    use super::*;
    use crate::cases::generator::Generator;
    use crate::cases::{row_of, PERMITTED};
    use crate::field::FIELDS;
    use crate::sharing::recover;

    /// Every set of so many of seven parties.
    fn sets(size: usize) -> Vec<Vec<u64>> {
        let set = |bits: u32| (1..=7).filter(move |party| bits >> (party - 1) & 1 == 1);
        let sets = (0..1 << 7).map(|bits| set(bits).collect::<Vec<u64>>());
        sets.filter(|set| set.len() == size).collect()
    }

    /// The value at 0 is 1 for the constant 1, and 0 for every power up to the threshold.
    fn check_at_zero(field: &Field, set: &[u64]) {
        let p = u128::from(field.modulus);
        let weights = weights_at(field, 0, set);
        assert!(weights.iter().all(|&weight| u128::from(weight) < p));
        for power in 0..set.len() as u32 {
            let terms = set.iter().zip(&weights);
            let terms = terms.map(|(&x, &weight)| u128::from(weight) * u128::from(x).pow(power));
            let value = terms.sum::<u128>() % p;
            assert_eq!(value, u128::from(power == 0), "{set:?} {power} {p}");
        }
    }

    #[test]
    fn weights_of_any_parties_give_the_value_at_0_of_every_power() {
        for (size, count) in [(2, 21), (3, 35), (4, 35)] {
            let sets = sets(size);
            assert_eq!(sets.len(), count);
            for field in &FIELDS {
                sets.iter().for_each(|set| check_at_zero(field, set));
            }
        }
    }

    #[test]
    fn a_sharing_can_start_with_any_shares() {
        let mut generator = Generator::new(5);
        for (number, field) in (0..).zip(&FIELDS) {
            for (n, t) in PERMITTED {
                let weights = Weights::new(field, n as usize, t as usize);
                let first = generator.list(t as usize + 1, field.modulus);
                let row: Vec<u64> = first.iter().map(|&share| share.into()).collect();
                let row = weights.sharing_from(&row);
                let row: Vec<u32> = row.iter().map(|&share| share as u32).collect();
                assert_eq!((&row[..first.len()], row.len()), (&first[..], n as usize));
                assert_eq!(recover(number, n, t, &row, &mut vec![0; t as usize]).0, 0);
            }
        }
    }

    #[test]
    fn agrees_with_recovery_of_the_whole_polynomial() {
        let mut generator = Generator::new(3);
        for (number, field) in (0..).zip(&FIELDS) {
            for (n, t) in PERMITTED {
                let weights = Weights::new(field, n as usize, t as usize);
                for round in 0..40 {
                    let secret = generator.below(field.modulus);
                    let coefficients = generator.list(t as usize, field.modulus);
                    let mut row = row_of(field, secret, &coefficients, n);
                    if round % 2 == 1 {
                        row[generator.below(n) as usize] = generator.below(field.modulus);
                    }
                    let (refused, value) = recover(number, n, t, &row, &mut vec![0; t as usize]);
                    let row: Vec<u64> = row.into_iter().map(u64::from).collect();
                    assert_eq!(weights.is_sharing(&row), refused == 0);
                    if refused == 0 {
                        assert_eq!(weights.secret(&row), u64::from(value));
                    }
                }
            }
        }
    }
}
