//! A party's part of the column form: its share of every row.

use crate::field::Field;
use crate::refusal;
use crate::sheet::header::Header;

pub struct Part {
    pub inputs: Vec<u64>,
    /// Each mask as the shares of its bits, bit 0 first.
    pub masks: Vec<Vec<u64>>,
    /// The shares of a, b and c.
    pub triples: Vec<[u64; 3]>,
}

impl Part {
    /// Tries 5. The bytes are as many as the header implies.
    pub fn read(header: &Header, bytes: &[u8]) -> Result<Part, u32> {
        let shares: Vec<u64> = bytes.chunks_exact(4).map(share).collect();
        check(header.field, &shares)?;
        let (inputs, deal) = shares.split_at(header.inputs);
        let bits = header.field.bits() as usize;
        let (masks, triples) = deal.split_at(header.masks * bits);
        Ok(Part {
            inputs: inputs.to_vec(),
            masks: masks.chunks_exact(bits).map(<[u64]>::to_vec).collect(),
            triples: triples
                .chunks_exact(3)
                .map(|shares| [shares[0], shares[1], shares[2]])
                .collect(),
        })
    }
}

fn share(four: &[u8]) -> u64 {
    u64::from(u32::from_le_bytes([four[0], four[1], four[2], four[3]]))
}

fn check(field: &Field, shares: &[u64]) -> Result<(), u32> {
    let below = shares.iter().all(|&share| share < field.modulus.into());
    below.then_some(()).ok_or(refusal::VALUE)
}

#[cfg(test)]
mod tests {
    use super::*;

    /// Field 0 with two inputs, a mask and two triples.
    const HEADER: [u8; 11] = [0, 3, 1, 2, 0, 1, 0, 2, 0, 0, 0];

    fn read(shares: &[u32]) -> Result<Part, u32> {
        let header = Header::begin(&HEADER).unwrap();
        let bytes: Vec<u8> = shares
            .iter()
            .flat_map(|share| share.to_le_bytes())
            .collect();
        assert_eq!(bytes.len(), header.part_length());
        Part::read(&header, &bytes)
    }

    #[test]
    fn shares_stand_in_the_order_of_the_rows() {
        let part = read(&[1, 2, 3, 4, 5, 6, 7, 8, 9, 10, 11, 12]).unwrap();
        assert_eq!(part.inputs, [1, 2]);
        assert_eq!(part.masks, [[3, 4, 5, 6]]);
        assert_eq!(part.triples, [[7, 8, 9], [10, 11, 12]]);
    }

    #[test]
    fn every_share_is_to_be_below_p() {
        for place in 0..12 {
            for (share, number) in [
                (12, None),
                (13, Some(5)),
                (256, Some(5)),
                (1 << 24, Some(5)),
            ] {
                let mut shares = [0; 12];
                shares[place] = share;
                assert_eq!(read(&shares).err(), number, "{place} {share}");
            }
        }
    }
}
