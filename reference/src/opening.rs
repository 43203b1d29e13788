//! How a row is opened: its value, and the numbers that the record gets.

use crate::field::Field;
use crate::present::is_present;
use crate::row::{Row, MOST_PARTIES};
use crate::weights::weights_at;

/// A field, the parties that are present, and from which of them a value is worked.
pub struct Opening {
    field: &'static Field,
    present: u8,
    /// The lowest t + 1 present parties.
    lowest: Vec<u64>,
    /// The weight at 0 of each of them.
    weights: Vec<u64>,
}

impl Opening {
    /// The set is permitted, so t + 1 parties are found.
    pub fn new(field: &'static Field, present: u8, threshold: usize) -> Opening {
        let parties = (1..=MOST_PARTIES).filter(|&party| is_present(present, party));
        let parties = parties.take(threshold + 1).map(|party| party as u64);
        let lowest: Vec<u64> = parties.collect();
        Opening {
            field,
            present,
            weights: weights_at(field, 0, &lowest),
            lowest,
        }
    }

    pub fn field(&self) -> &'static Field {
        self.field
    }

    /// The value at 0 of the polynomial that the shares of the lowest t + 1 present parties lie on.
    pub fn value(&self, row: &Row) -> u64 {
        let parties = self.lowest.iter().zip(&self.weights);
        parties.fold(0, |sum, (&party, &weight)| {
            let share = row[party as usize - 1];
            self.field.add(sum, self.field.multiply(weight, share))
        })
    }

    /// The numbers that the record gets, one for each party: p itself stands for an absent share.
    pub fn recorded<'a>(&'a self, row: &'a Row) -> impl Iterator<Item = u64> + 'a {
        let absent = u64::from(self.field.modulus);
        (1..).zip(row.iter()).map(move |(party, &share)| {
            if is_present(self.present, party) {
                share
            } else {
                absent
            }
        })
    }
}

#[cfg(test)]
mod tests {
    use super::*;
    use crate::cases::generator::Generator;
    use crate::cases::PERMITTED;
    use crate::dealer::Dealer;
    use crate::field::FIELDS;
    use crate::present::permitted;

    fn row(shares: &[u64]) -> Row {
        shares.iter().copied().collect()
    }

    /// Two points of a line: 3 times share 2 less 2 times share 3, and so on.
    #[test]
    fn a_value_is_worked_from_the_lowest_present_parties() {
        let field = &FIELDS[2];
        let shares = row(&[10, 200, 3_000, 40_000]);
        for (present, value) in [
            (0b0011, 2 * 10 - 200),
            (0b1111, 2 * 10 - 200),
            (0b0110, 3 * 200 - 2 * 3_000),
            (0b1110, 3 * 200 - 2 * 3_000),
            (0b1010, 2 * 200 - 40_000),
            (0b1100, 4 * 3_000 - 3 * 40_000),
        ] {
            let opening = Opening::new(field, present, 1);
            let value = i64::rem_euclid(value, 65_521) as u64;
            assert_eq!(opening.value(&shares), value, "{present:04b}");
        }
        // (3 times 10 less 3_000) / 2
        let opening = Opening::new(field, 0b0101, 1);
        let twice = field.multiply(2, opening.value(&shares));
        assert_eq!(twice, (30 - 3_000i64).rem_euclid(65_521) as u64);
    }

    #[test]
    fn p_stands_for_an_absent_share() {
        let recorded = |present| -> Vec<u64> {
            let opening = Opening::new(&FIELDS[0], present, 1);
            opening.recorded(&row(&[5, 0, 12])).collect()
        };
        assert_eq!(recorded(0b111), [5, 0, 12]);
        assert_eq!(recorded(0b110), [13, 0, 12]);
        assert_eq!(recorded(0b101), [5, 13, 12]);
        assert_eq!(recorded(0b011), [5, 0, 13]);
    }

    /// A sharing has one value, whoever is present.
    #[test]
    fn every_permitted_set_opens_the_secret() {
        let mut generator = Generator::new(7);
        for (number, field) in (0..).zip(&FIELDS) {
            for (n, t) in PERMITTED {
                for present in permitted(n as usize, t as usize) {
                    let secret = generator.below(field.modulus);
                    let row = Dealer::new(&mut generator, number, (n, t)).sharing(secret);
                    let opening = Opening::new(field, present, t as usize);
                    assert_eq!(opening.value(&row), u64::from(secret), "{n} {t} {present}");
                }
            }
        }
    }
}
