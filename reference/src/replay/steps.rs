//! The steps over the shares of one party. What is opened comes from the record.

use super::part::Part;
use super::record::Record;
use super::Counts;
use crate::field::Field;
use crate::sheet::header::Header;

/// What a step works with. How much is taken of part and record is what the counts say. A step whose opening
/// is refused gives the number.
pub struct Work<'a> {
    field: &'static Field,
    party: usize,
    part: &'a Part,
    record: Record<'a>,
    pub counts: Counts,
}

impl<'a> Work<'a> {
    pub fn new(header: &Header, party: usize, part: &'a Part, record: Record<'a>) -> Work<'a> {
        Work {
            field: header.field,
            party,
            part,
            record,
            counts: Counts::default(),
        }
    }

    /// LOAD
    pub fn load(&mut self) -> u64 {
        let share = self.part.inputs[self.counts.inputs];
        self.counts.inputs += 1;
        share
    }

    /// The value of the next opening, of which the party's own share is this.
    fn open(&mut self, own: u64) -> Result<u64, u32> {
        let value = self.record.value(self.counts.openings, self.party, own)?;
        self.counts.openings += 1;
        Ok(value)
    }

    /// REVEAL: the value is read by nobody here.
    pub fn reveal(&mut self, own: u64) -> Result<(), u32> {
        self.open(own)?;
        self.counts.revealed += 1;
        Ok(())
    }

    /// MUL
    pub fn multiply(&mut self, left: u64, right: u64) -> Result<u64, u32> {
        let field = self.field;
        let [a, b, c] = self.part.triples[self.counts.triples];
        self.counts.triples += 1;
        let a1 = self.open(field.subtract(left, a))?;
        let b1 = self.open(field.subtract(right, b))?;
        let terms = [(1, c), (a1, b), (b1, a), (a1, b1)];
        Ok(self.sum(&terms))
    }

    /// BITLT of v against the bits, bit 0 first, of which there is at least one.
    pub fn compare(&mut self, v: u64, bits: &[u64]) -> Result<u64, u32> {
        let is_set = |i: usize| v >> i & 1 == 1;
        let mut lt = if is_set(0) { 0 } else { bits[0] };
        for (i, &bit) in bits.iter().enumerate().skip(1) {
            let q = self.multiply(bit, lt)?;
            lt = match is_set(i) {
                true => q,
                false => self.field.subtract(self.field.add(bit, lt), q),
            };
        }
        Ok(lt)
    }

    /// MOD
    pub fn remainder(&mut self, a: u64, k: u32, m: u32) -> Result<u64, u32> {
        let (field, part) = (self.field, self.part);
        let bits = &part.masks[self.counts.masks];
        self.counts.masks += 1;
        let low = &bits[..m as usize];
        let x = field.add(a, 1 << (k - 1));
        let c = self.open(field.add(x, self.spelled(bits)))?;
        let block = 1 << m;
        let c0 = c % block;
        let c1 = (c + u64::from(field.modulus)) % block;
        let f = self.compare(c, bits)?;
        let u0 = self.compare(c0, low)?;
        let u1 = self.compare(c1, low)?;
        let g = self.multiply(f, field.subtract(u1, u0))?;
        let u = field.add(u0, g);
        let wrapped = self.sum(&[(1, c0), (field.subtract(c1, c0), f), (block, u)]);
        Ok(field.subtract(wrapped, self.spelled(low)))
    }

    /// TRUNC
    pub fn floor(&mut self, a: u64, k: u32, m: u32) -> Result<u64, u32> {
        let remainder = self.remainder(a, k, m)?;
        let inverse = self.field.inverse(1 << m);
        let difference = self.field.subtract(a, remainder);
        Ok(self.field.multiply(inverse, difference))
    }

    /// LTZ
    pub fn sign(&mut self, a: u64, k: u32) -> Result<u64, u32> {
        let floor = self.floor(a, k, k - 1)?;
        Ok(self.field.subtract(0, floor))
    }

    /// OVER
    pub fn over(&mut self, a: u64, k: u32, v: u64) -> Result<u64, u32> {
        self.sign(self.field.subtract(v, a), k)
    }

    /// BLOCKS
    pub fn blocks(&mut self, a: u64, k: u32, m: u32) -> Result<u64, u32> {
        self.floor(self.field.add(a, (1 << m) - 1), k, m)
    }

    /// The sum of bit i times 2^i.
    fn spelled(&self, bits: &[u64]) -> u64 {
        let terms = (0..).zip(bits);
        terms.fold(0, |sum, (i, &bit)| {
            let power = (1u64 << i) % u64::from(self.field.modulus);
            self.field.add(sum, self.field.multiply(power, bit))
        })
    }

    /// The sum of the products.
    fn sum(&self, terms: &[(u64, u64)]) -> u64 {
        terms.iter().fold(0, |sum, &(x, y)| {
            self.field.add(sum, self.field.multiply(x, y))
        })
    }
}
