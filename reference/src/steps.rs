//! The steps over whole rows. Each leaves a row, opens rows in order and takes the deal's items in order.

pub mod case;
pub mod cases;

use crate::field::Field;
use crate::opening::Opening;
use crate::row::Row;

/// Rows a, b and c, where c's secret is a's times b's.
#[derive(Clone, Copy, Debug, PartialEq)]
pub struct Triple {
    pub a: Row,
    pub b: Row,
    pub c: Row,
}

/// What a step works with: the field, how a row is opened, and the rest of the deal; and what was opened
/// so far, with the shares of absent parties, whose columns are worked like the others.
pub struct Work<'a> {
    field: &'static Field,
    opening: &'a Opening,
    /// Each mask as the rows of its bits, bit 0 first.
    masks: std::slice::Iter<'a, Vec<Row>>,
    triples: std::slice::Iter<'a, Triple>,
    pub opened: Vec<Row>,
}

impl<'a> Work<'a> {
    pub fn new(opening: &'a Opening, masks: &'a [Vec<Row>], triples: &'a [Triple]) -> Work<'a> {
        Work {
            field: opening.field(),
            opening,
            masks: masks.iter(),
            triples: triples.iter(),
            opened: Vec::new(),
        }
    }

    pub fn masks_left(&self) -> usize {
        self.masks.len()
    }

    pub fn triples_left(&self) -> usize {
        self.triples.len()
    }

    pub fn open(&mut self, row: Row) -> u64 {
        let value = self.opening.value(&row);
        self.opened.push(row);
        value
    }

    /// MUL: none if no triple is left.
    pub fn multiply(&mut self, left: &Row, right: &Row) -> Option<Row> {
        let Triple { a, b, c } = self.triples.next()?;
        let a1 = self.open(self.minus(left, a));
        let b1 = self.open(self.minus(right, b));
        let cross = self.plus(&self.times(a1, b), &self.times(b1, a));
        let constant = self.constant(self.field.multiply(a1, b1), c.len());
        Some(self.plus(&self.plus(c, &cross), &constant))
    }

    /// BITLT of v against the bits, bit 0 first, of which there is at least one.
    pub fn compare(&mut self, v: u64, bits: &[Row]) -> Option<Row> {
        let zero = self.constant(0, bits[0].len());
        let mut lt = if v & 1 == 0 { bits[0] } else { zero };
        for (i, bit) in bits.iter().enumerate().skip(1) {
            let q = self.multiply(bit, &lt)?;
            lt = if v >> i & 1 == 0 {
                self.minus(&self.plus(bit, &lt), &q)
            } else {
                q
            };
        }
        Some(lt)
    }

    /// MOD
    pub fn remainder(&mut self, a: &Row, k: u32, m: u32) -> Option<Row> {
        let bits = self.masks.next()?;
        let low = &bits[..m as usize];
        let (n, modulus) = (a.len(), 1u64 << m);
        let x = self.plus(a, &self.constant(1 << (k - 1), n));
        let c = self.open(self.plus(&x, &self.spelled(bits, n)));
        let c0 = c % modulus;
        let c1 = (c + u64::from(self.field.modulus)) % modulus;
        let f = self.compare(c, bits)?;
        let u0 = self.compare(c0, low)?;
        let u1 = self.compare(c1, low)?;
        let g = self.multiply(&f, &self.minus(&u1, &u0))?;
        let u = self.plus(&u0, &g);
        let step = self.field.subtract(self.value(c1), self.value(c0));
        let wrapped = self.plus(&self.constant(c0, n), &self.times(step, &f));
        let unmasked = self.minus(&wrapped, &self.spelled(low, n));
        Some(self.plus(&unmasked, &self.times(modulus, &u)))
    }

    /// TRUNC
    pub fn floor(&mut self, a: &Row, k: u32, m: u32) -> Option<Row> {
        let remainder = self.remainder(a, k, m)?;
        let inverse = self.field.inverse(self.value(1 << m));
        Some(self.times(inverse, &self.minus(a, &remainder)))
    }

    /// LTZ
    pub fn sign(&mut self, a: &Row, k: u32) -> Option<Row> {
        let floor = self.floor(a, k, k - 1)?;
        Some(self.minus(&self.constant(0, a.len()), &floor))
    }

    /// LTZS: LTZ of each row in order
    pub fn signs(&mut self, rows: &[Row], k: u32) -> Option<Vec<Row>> {
        rows.iter().map(|a| self.sign(a, k)).collect()
    }

    /// OVER
    pub fn over(&mut self, a: &Row, k: u32, v: u64) -> Option<Row> {
        let difference = self.minus(&self.constant(v, a.len()), a);
        self.sign(&difference, k)
    }

    /// BLOCKS: the begun blocks of 2^m seconds, which is the floor of a + 2^m - 1
    pub fn blocks(&mut self, a: &Row, k: u32, m: u32) -> Option<Row> {
        let sum = self.plus(a, &self.constant((1 << m) - 1, a.len()));
        self.floor(&sum, k, m)
    }

    /// The sum of bit i times 2^i.
    fn spelled(&self, bits: &[Row], n: usize) -> Row {
        (0..).zip(bits).fold(self.constant(0, n), |sum, (i, bit)| {
            self.plus(&sum, &self.times(1 << i, bit))
        })
    }

    fn value(&self, number: u64) -> u64 {
        number % u64::from(self.field.modulus)
    }

    pub fn constant(&self, number: u64, n: usize) -> Row {
        Row::constant(self.value(number), n)
    }

    pub fn times(&self, number: u64, row: &Row) -> Row {
        let number = self.value(number);
        row.iter()
            .map(|&share| self.field.multiply(number, share))
            .collect()
    }

    pub fn plus(&self, left: &Row, right: &Row) -> Row {
        left.iter()
            .zip(right.iter())
            .map(|(&x, &y)| self.field.add(x, y))
            .collect()
    }

    pub fn minus(&self, left: &Row, right: &Row) -> Row {
        left.iter()
            .zip(right.iter())
            .map(|(&x, &y)| self.field.subtract(x, y))
            .collect()
    }
}

#[cfg(test)]
mod tests {
    use super::*;
    use crate::cases::row_of;
    use crate::field::FIELDS;
    use crate::present::everyone;
    use crate::weights::Weights;

    fn sharing(field: &Field, value: u32) -> Row {
        let row = row_of(field, value, &[7], 3);
        row.into_iter().map(u64::from).collect()
    }

    fn bits(field: &Field, number: u32, width: u32) -> Vec<Row> {
        (0..width)
            .map(|i| sharing(field, number >> i & 1))
            .collect()
    }

    /// The secret left, the triples spent and the openings of one step with this mask.
    fn worked<F>(field: &'static Field, r: u32, step: F) -> (u64, usize, usize)
    where
        F: Fn(&mut Work) -> Option<Row>,
    {
        let masks = [bits(field, r, field.bits())];
        let triple = Triple {
            a: sharing(field, 3),
            b: sharing(field, 4),
            c: sharing(field, 12),
        };
        let triples = vec![triple; 100];
        let opening = Opening::new(field, everyone(3), 1);
        let mut work = Work::new(&opening, &masks, &triples);
        let left = step(&mut work).unwrap();
        let spent = triples.len() - work.triples_left();
        let secret = Weights::new(field, 3, 1).secret(&left);
        (secret, spent, work.opened.len())
    }

    #[test]
    fn remainder_is_exact_for_every_operand_and_mask() {
        let field = &FIELDS[0];
        for (k, m) in [(2, 1), (3, 1), (3, 2)] {
            for a in 0..13 {
                for r in 0..13 {
                    let x = (a + (1 << (k - 1))) % 13;
                    let row = sharing(field, a);
                    let answer = worked(field, r, |work| work.remainder(&row, k, m));
                    let triples = 4 + 2 * m as usize - 2;
                    assert_eq!(answer, (u64::from(x % (1 << m)), triples, 1 + 2 * triples));
                }
            }
        }
    }

    #[test]
    fn floors_and_signs_of_the_paper() {
        let field = &FIELDS[0];
        let floor = |a| worked(field, 5, |work| work.floor(&sharing(field, a), 3, 1)).0;
        assert_eq!((floor(10), floor(3)), (11, 1));
        let sign = |a| worked(field, 5, |work| work.sign(&sharing(field, a), 3)).0;
        assert_eq!(
            (sign(9), sign(12), sign(0), sign(3), sign(4)),
            (1, 1, 0, 0, 12)
        );
    }

    #[test]
    fn tariff_of_paper_and_requests() {
        let field = &FIELDS[2];
        let over = |a| worked(field, 5, |work| work.over(&sharing(field, a), 15, 170)).0;
        assert_eq!((over(170), over(171)), (0, 1));
        let blocks = |a| worked(field, 5, |work| work.blocks(&sharing(field, a), 15, 6)).0;
        assert_eq!((blocks(179), blocks(128), blocks(0)), (3, 2, 0));
        let (_, triples, openings) = worked(field, 5, |work| work.sign(&sharing(field, 1), 15));
        assert_eq!((triples, openings), (42, 85));
    }

    /// The least number of blocks that hold a, where a + 2^m - 1 is in the range.
    #[test]
    fn blocks_are_the_begun_ones_for_every_mask() {
        let field = &FIELDS[0];
        for (k, m) in [(2, 1), (3, 1), (3, 2)] {
            for a in 0..=(1u32 << (k - 1)) - (1 << m) {
                let begun = (0..).find(|blocks| blocks << m >= a).unwrap();
                for r in 0..13 {
                    let row = sharing(field, a);
                    let answer = worked(field, r, |work| work.blocks(&row, k, m));
                    let triples = 4 + 2 * m as usize - 2;
                    assert_eq!(answer, (u64::from(begun), triples, 1 + 2 * triples));
                }
            }
        }
    }

    /// 32760 + 16383 is out of the range; less p it is -16378, whose floor is -1.
    #[test]
    fn a_sum_that_wraps_into_the_range_has_the_floor_of_what_it_wraps_to() {
        let field = &FIELDS[2];
        let blocks = |a| worked(field, 5, |work| work.blocks(&sharing(field, a), 15, 14)).0;
        assert_eq!(blocks(32_760), 65_520);
    }

    #[test]
    fn comparison_is_exact_for_bits() {
        let field = &FIELDS[0];
        for v in 0..8 {
            for number in 0..8 {
                let bits = bits(field, number, 3);
                let answer = worked(field, 0, |work| work.compare(u64::from(v), &bits));
                assert_eq!(answer, (u64::from(v < number), 2, 4));
            }
        }
    }
}
