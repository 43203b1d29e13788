//! The four prime fields and arithmetic modulo their primes.
//!
//! Elements are u64: every modulus is below 2^31, so a product of two elements fits.

use crate::refusal;

#[derive(Debug)]
pub struct Field {
    pub modulus: u32,
    pub largest_k: u32,
}

pub const FIELDS: [Field; 4] = [
    Field {
        modulus: 13,
        largest_k: 3,
    },
    Field {
        modulus: 251,
        largest_k: 7,
    },
    Field {
        modulus: 65521,
        largest_k: 15,
    },
    Field {
        modulus: 2147483647,
        largest_k: 30,
    },
];

impl Field {
    /// The field with this number, or the refusal of a number that is not in the table.
    pub fn numbered(number: u32) -> Result<&'static Field, u32> {
        usize::try_from(number)
            .ok()
            .and_then(|index| FIELDS.get(index))
            .ok_or(refusal::FIELD)
    }

    /// The number of bits of the modulus.
    pub fn bits(&self) -> u32 {
        u32::BITS - self.modulus.leading_zeros()
    }

    pub fn contains(&self, value: u32) -> bool {
        value < self.modulus
    }

    pub fn add(&self, a: u64, b: u64) -> u64 {
        (a + b) % self.p()
    }

    /// Adds p first, because an unsigned difference must not fall below 0.
    pub fn subtract(&self, a: u64, b: u64) -> u64 {
        (a + self.p() - b) % self.p()
    }

    pub fn multiply(&self, a: u64, b: u64) -> u64 {
        a * b % self.p()
    }

    /// Repeated squaring, from the exponent's lowest bit upwards.
    pub fn power(&self, base: u64, exponent: u64) -> u64 {
        let mut result = 1;
        let mut square = base;
        let mut rest = exponent;
        while rest > 0 {
            if rest % 2 == 1 {
                result = self.multiply(result, square);
            }
            square = self.multiply(square, square);
            rest /= 2;
        }
        result
    }

    /// The inverse of a non-zero element: a^(p-1) = 1 by Fermat's theorem.
    pub fn inverse(&self, a: u64) -> u64 {
        self.power(a, self.p() - 2)
    }

    /// The value at x of the polynomial with these coefficients, the constant term first.
    pub fn evaluate(&self, polynomial: &[u64], x: u64) -> u64 {
        (0..).zip(polynomial).fold(0, |sum, (degree, &term)| {
            self.add(sum, self.multiply(term, self.power(x, degree)))
        })
    }

    fn p(&self) -> u64 {
        u64::from(self.modulus)
    }
}

#[cfg(test)]
mod tests {
    use super::*;

    #[test]
    fn inverse_times_element_is_one() {
        for field in &FIELDS {
            let p = u64::from(field.modulus);
            for a in [1, 2, 3, 6, 7, 12, p / 2, p - 2, p - 1] {
                assert_eq!(field.multiply(a, field.inverse(a)), 1, "{a} modulo {p}");
            }
        }
    }

    #[test]
    fn moduli_are_prime() {
        for field in &FIELDS {
            let p = u64::from(field.modulus);
            let divisors = (2..).take_while(|d| d * d <= p).filter(|d| p % d == 0);
            assert_eq!(divisors.count(), 0, "{p}");
        }
    }

    #[test]
    fn evaluates_every_power() {
        let field = &FIELDS[0];
        // 1 + 2*3 + 3*9 + 4*27 = 142 = 10*13 + 12
        assert_eq!(field.evaluate(&[1, 2, 3, 4], 3), 12);
        assert_eq!(field.evaluate(&[], 3), 0);
        assert_eq!(field.evaluate(&[5], 3), 5);
    }

    #[test]
    fn only_four_fields_are_known() {
        assert_eq!(Field::numbered(3).unwrap().modulus, 2147483647);
        assert_eq!(Field::numbered(4).unwrap_err(), 2);
        assert_eq!(Field::numbered(u32::MAX).unwrap_err(), 2);
    }
}
