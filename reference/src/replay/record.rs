//! The openings of a record: n numbers each, of which p stands for an absent share.

use crate::field::Field;
use crate::refusal;
use crate::sheet::header::Header;

pub struct Record<'a> {
    field: &'static Field,
    parties: usize,
    /// How many shares fix a polynomial.
    fixing: usize,
    numbers: &'a [u32],
    basis: Basis,
}

/// A party's number and its share.
type Point = (u64, u64);

impl<'a> Record<'a> {
    pub fn new(header: &Header, numbers: &'a [u32]) -> Record<'a> {
        Record {
            field: header.field,
            parties: header.parties,
            fixing: header.threshold + 1,
            numbers,
            basis: Basis::default(),
        }
    }

    /// The value of the opening with this index, of which the party has this share itself. Tries 43, 42
    /// and 41.
    pub fn value(&mut self, index: usize, party: usize, own: u64) -> Result<u64, u32> {
        let row = self.opening(index).ok_or(refusal::RECORD_SHORT)?;
        let points = self.points(row).ok_or(refusal::OPENING)?;
        let value = self.value_at_0(&points).ok_or(refusal::OPENING)?;
        let recorded = points.iter().find(|point| point.0 == party as u64);
        match recorded {
            Some(&(_, share)) if share != own => Err(refusal::OWN_SHARE),
            _ => Ok(value),
        }
    }

    /// The numbers of the opening, unless fewer than n of them are left.
    fn opening(&self, index: usize) -> Option<&'a [u32]> {
        let start = index * self.parties;
        self.numbers.get(start..start + self.parties)
    }

    /// The shares that are present, or none where a number is above p.
    fn points(&self, row: &[u32]) -> Option<Vec<Point>> {
        let p = self.field.modulus;
        if row.iter().any(|&number| number > p) {
            return None;
        }
        let present = (1..).zip(row).filter(|(_, &number)| number != p);
        Some(
            present
                .map(|(party, &share)| (party, share.into()))
                .collect(),
        )
    }

    /// The polynomial through the shares of the lowest t + 1 present parties, at 0, if there are so many and
    /// it takes every other share too.
    fn value_at_0(&mut self, points: &[Point]) -> Option<u64> {
        let lowest = points.get(..self.fixing)?;
        let polynomial = self.basis.polynomial(self.field, lowest);
        let others = &points[self.fixing..];
        let fits = others
            .iter()
            .all(|&(party, share)| value_at(self.field, &polynomial, party) == share);
        fits.then_some(polynomial[0])
    }
}

/// Lagrange's basis of some parties, as coefficients, the constant term first. It is worked out anew where
/// other parties are asked for than the last time.
#[derive(Default)]
struct Basis {
    parties: Vec<u64>,
    polynomials: Vec<Vec<u64>>,
}

impl Basis {
    /// The polynomial of lowest degree that the points lie on.
    fn polynomial(&mut self, field: &Field, points: &[Point]) -> Vec<u64> {
        let parties = points.iter().map(|&(party, _)| party);
        if !parties.clone().eq(self.parties.iter().copied()) {
            *self = Basis::of(field, parties.collect());
        }
        let mut sum = vec![0; points.len()];
        for (&(_, share), basis) in points.iter().zip(&self.polynomials) {
            for (sum, &term) in sum.iter_mut().zip(basis) {
                *sum = field.add(*sum, field.multiply(share, term));
            }
        }
        sum
    }

    fn of(field: &Field, parties: Vec<u64>) -> Basis {
        let basis = |&party: &u64| one_at(field, party, &parties);
        Basis {
            polynomials: parties.iter().map(basis).collect(),
            parties,
        }
    }
}

/// The polynomial that is 1 at the party and 0 at every other of them: the product of x - other, times the
/// inverse of what it is at the party.
fn one_at(field: &Field, party: u64, parties: &[u64]) -> Vec<u64> {
    let others = parties.iter().filter(|&&other| other != party);
    let product = others.fold(vec![1], |product, &other| {
        times_linear(field, &product, other)
    });
    let inverse = field.inverse(value_at(field, &product, party));
    let scaled = product.iter().map(|&term| field.multiply(inverse, term));
    scaled.collect()
}

/// The polynomial times x - root.
fn times_linear(field: &Field, polynomial: &[u64], root: u64) -> Vec<u64> {
    let times_x = [&[0], polynomial].concat();
    let terms = polynomial.iter().chain([&0]);
    let product = times_x.iter().zip(terms).map(|(&above, &term)| {
        let times_root = field.multiply(root, term);
        field.subtract(above, times_root)
    });
    product.collect()
}

/// Horner's rule.
fn value_at(field: &Field, polynomial: &[u64], x: u64) -> u64 {
    polynomial
        .iter()
        .rev()
        .fold(0, |sum, &term| field.add(field.multiply(sum, x), term))
}

#[cfg(test)]
mod tests {
    use super::*;
    use crate::cases::generator::Generator;
    use crate::cases::{row_of, PERMITTED};
    use crate::field::FIELDS;
    use crate::present::{is_present, permitted};

    fn header(field: usize, (n, t): (u32, u32)) -> Header {
        let bytes = [field as u8, n as u8, t as u8, 0, 0, 0, 0, 0, 0, 0, 0];
        Header::begin(&bytes).unwrap()
    }

    /// The row with p for those who are absent.
    fn with_absent(row: &[u32], present: u8, p: u32) -> Vec<u32> {
        let number = |(party, &share)| if is_present(present, party) { share } else { p };
        (1..).zip(row).map(number).collect()
    }

    /// Value and refusals of a sharing, for every set of present parties, in every field.
    #[test]
    fn every_permitted_set_has_the_value_and_no_other_has_one() {
        let mut generator = Generator::new(11);
        for (number, field) in FIELDS.iter().enumerate() {
            for (n, t) in PERMITTED {
                let header = header(number, (n, t));
                let sets = permitted(n as usize, t as usize);
                for present in 0..1u8 << n {
                    let secret = generator.below(field.modulus);
                    let coefficients = generator.list(t as usize, field.modulus);
                    let row = row_of(field, secret, &coefficients, n);
                    let numbers = with_absent(&row, present, field.modulus);
                    let mut record = Record::new(&header, &numbers);
                    let expected = match sets.contains(&present) {
                        true => Ok(u64::from(secret)),
                        false => Err(42),
                    };
                    for party in 1..=n as usize {
                        let own = u64::from(row[party - 1]);
                        assert_eq!(record.value(0, party, own), expected);
                        let other = (own + 1) % u64::from(field.modulus);
                        let compared = match is_present(present, party) {
                            true => expected.and(Err(41)),
                            false => expected,
                        };
                        assert_eq!(record.value(0, party, other), compared);
                    }
                }
            }
        }
    }

    /// One share changed is seen where one more than t + 1 are present, wherever it stands.
    #[test]
    fn a_changed_share_is_on_no_polynomial_with_the_others() {
        let mut generator = Generator::new(12);
        for (number, field) in FIELDS.iter().enumerate() {
            for (n, t) in PERMITTED {
                let header = header(number, (n, t));
                for present in permitted(n as usize, t as usize) {
                    let coefficients = generator.list(t as usize, field.modulus);
                    let row = row_of(field, 5, &coefficients, n);
                    for party in (1..=n as usize).filter(|&party| is_present(present, party)) {
                        let mut row = row.clone();
                        row[party - 1] = (row[party - 1] + 1) % field.modulus;
                        let numbers = with_absent(&row, present, field.modulus);
                        let own = u64::from(row[0]);
                        let value = Record::new(&header, &numbers).value(0, 1, own);
                        let is_seen = present.count_ones() > t + 1;
                        assert_eq!(value == Err(42), is_seen, "{n} {t} {present:b} {party}");
                    }
                }
            }
        }
    }

    /// The basis is that of the parties that are the lowest this time.
    #[test]
    fn openings_may_have_different_parties() {
        // 5 + 2x, then 1 + 4x, then 9
        let numbers = [7, 9, 13, 13, 9, 0, 9, 13, 9, 9];
        let header = header(0, (3, 1));
        let mut record = Record::new(&header, &numbers);
        for _ in 0..2 {
            assert_eq!(record.value(0, 3, 0), Ok(5));
            assert_eq!(record.value(1, 1, 0), Ok(1));
            assert_eq!(record.value(2, 2, 0), Ok(9));
            assert_eq!(record.value(3, 1, 9), Err(43));
        }
    }

    #[test]
    fn the_short_record_comes_before_the_polynomial_and_that_before_the_own_share() {
        let header = header(0, (3, 1));
        for (numbers, number) in [
            (&[14, 0][..], 43),
            (&[14, 0, 0], 42),
            (&[0, 0, u32::MAX], 42),
            (&[13, 13, 0], 42),
            (&[13, 13, 13], 42),
            (&[0, 0, 1], 42),
            (&[1, 1, 1], 41),
        ] {
            let value = Record::new(&header, numbers).value(0, 1, 5);
            assert_eq!(value, Err(number), "{numbers:?}");
        }
    }
}
