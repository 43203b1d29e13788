//! Sharings, masks and triples with random coefficients.

use crate::cases::generator::Generator;
use crate::cases::row_of;
use crate::field::{Field, FIELDS};
use crate::row::Row;
use crate::steps::Triple;

pub struct Dealer<'a> {
    pub generator: &'a mut Generator,
    /// The field's number.
    pub number: u32,
    pub field: &'static Field,
    /// The number of parties and the threshold.
    pub parties: (u32, u32),
}

impl Dealer<'_> {
    pub fn new(generator: &mut Generator, number: u32, parties: (u32, u32)) -> Dealer<'_> {
        Dealer {
            generator,
            number,
            field: &FIELDS[number as usize],
            parties,
        }
    }

    pub fn sharing(&mut self, value: u32) -> Row {
        let (n, t) = self.parties;
        let coefficients = self.generator.list(t as usize, self.field.modulus);
        row_of(self.field, value, &coefficients, n)
            .into_iter()
            .map(u64::from)
            .collect()
    }

    /// Sharings of the lowest bits of a number, bit 0 first.
    pub fn bits(&mut self, number: u32, width: u32) -> Vec<Row> {
        (0..width).map(|i| self.sharing(number >> i & 1)).collect()
    }

    pub fn mask(&mut self, r: u32) -> Vec<Row> {
        self.bits(r, self.field.bits())
    }

    pub fn triple(&mut self) -> Triple {
        let (a, b) = (self.random_value(), self.random_value());
        let c = self.field.multiply(u64::from(a), u64::from(b)) as u32;
        Triple {
            a: self.sharing(a),
            b: self.sharing(b),
            c: self.sharing(c),
        }
    }

    pub fn triples(&mut self, count: usize) -> Vec<Triple> {
        (0..count).map(|_| self.triple()).collect()
    }

    pub fn random_sharing(&mut self) -> Row {
        let value = self.random_value();
        self.sharing(value)
    }

    pub fn random_value(&mut self) -> u32 {
        self.generator.below(self.field.modulus)
    }
}
