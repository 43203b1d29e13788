//! A sheet's bytes read into its parts, or the number of the first ground to refuse them.

pub mod header;

use crate::field::Field;
use crate::opening::Opening;
use crate::present;
use crate::refusal;
use crate::row::Row;
use crate::steps::Triple;
use crate::weights::Weights;
use header::Header;

pub struct Sheet<'a> {
    pub field: &'static Field,
    pub parties: usize,
    pub weights: Weights,
    pub opening: Opening,
    pub script: &'a [u8],
    pub inputs: Vec<Row>,
    /// Each mask as the rows of its bits, bit 0 first.
    pub masks: Vec<Vec<Row>>,
    pub triples: Vec<Triple>,
}

impl Sheet<'_> {
    /// Tries 1 to 3, 12 of the byte that says who is present, and 4 to 8 in that order, each over the
    /// whole sheet: the shares of absent parties are looked at like the others.
    pub fn read(bytes: &[u8], present: u8) -> Result<Sheet<'_>, u32> {
        let header = Header::begin(bytes)?;
        present::check(present, header.parties, header.threshold)?;
        header.check_length(bytes.len())?;
        let field = header.field;
        let (script, shares) = bytes[header::BYTES..].split_at(header.script);
        let rows = rows_of(shares, header.parties);
        check_shares(field, &rows)?;
        let weights = Weights::new(field, header.parties, header.threshold);
        check_rows(&weights, &rows)?;
        let (inputs, deal) = rows.split_at(header.inputs);
        let (masks, triples) = deal.split_at(header.masks * field.bits() as usize);
        let sheet = Sheet {
            field,
            parties: header.parties,
            weights,
            opening: Opening::new(field, present, header.threshold),
            script,
            inputs: inputs.to_vec(),
            masks: masks
                .chunks_exact(field.bits() as usize)
                .map(<[Row]>::to_vec)
                .collect(),
            triples: triples.chunks_exact(3).map(triple_of).collect(),
        };
        sheet.check_masks()?;
        sheet.check_triples()?;
        Ok(sheet)
    }

    fn check_masks(&self) -> Result<(), u32> {
        let good = self.masks.iter().all(|mask| self.is_mask(mask));
        good.then_some(()).ok_or(refusal::MASK)
    }

    /// The secrets are bits, and the number that they spell is below p.
    fn is_mask(&self, mask: &[Row]) -> bool {
        let bits = || mask.iter().map(|row| self.weights.secret(row));
        let spelled: u64 = (0..).zip(bits()).map(|(i, bit)| bit << i).sum();
        bits().all(|bit| bit <= 1) && spelled < u64::from(self.field.modulus)
    }

    fn check_triples(&self) -> Result<(), u32> {
        let good = self.triples.iter().all(|triple| self.is_triple(triple));
        good.then_some(()).ok_or(refusal::TRIPLE)
    }

    fn is_triple(&self, triple: &Triple) -> bool {
        let [a, b, c] = [triple.a, triple.b, triple.c].map(|row| self.weights.secret(&row));
        self.field.multiply(a, b) == c
    }
}

/// Rows of `parties` shares, each of four bytes.
fn rows_of(shares: &[u8], parties: usize) -> Vec<Row> {
    shares
        .chunks_exact(4 * parties)
        .map(|row| row.chunks_exact(4).map(share_of).collect())
        .collect()
}

fn share_of(four: &[u8]) -> u64 {
    u64::from(u32::from_le_bytes([four[0], four[1], four[2], four[3]]))
}

fn triple_of(rows: &[Row]) -> Triple {
    Triple {
        a: rows[0],
        b: rows[1],
        c: rows[2],
    }
}

fn check_shares(field: &Field, rows: &[Row]) -> Result<(), u32> {
    let p = u64::from(field.modulus);
    let below = rows.iter().all(|row| row.iter().all(|&share| share < p));
    below.then_some(()).ok_or(refusal::VALUE)
}

fn check_rows(weights: &Weights, rows: &[Row]) -> Result<(), u32> {
    let good = rows.iter().all(|row| weights.is_sharing(row));
    good.then_some(()).ok_or(refusal::ROW)
}
