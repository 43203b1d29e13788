//! The first 11 bytes of a sheet, and the length that they imply.

use crate::field::Field;
use crate::refusal;
use crate::sharing::check_parties;

pub const BYTES: usize = 11;
pub const MOST_INPUTS: usize = 64;
pub const MOST_MASKS: usize = 16;
pub const MOST_TRIPLES: usize = 512;
pub const LONGEST_SCRIPT: usize = 1024;

pub struct Header {
    pub field: &'static Field,
    pub parties: usize,
    pub threshold: usize,
    pub inputs: usize,
    pub masks: usize,
    pub triples: usize,
    /// The number of the script's bytes.
    pub script: usize,
}

impl Header {
    /// Tries 1 to 4 in that order.
    pub fn read(sheet: &[u8]) -> Result<Header, u32> {
        let header = Header::begin(sheet)?;
        header.check_length(sheet.len())?;
        Ok(header)
    }

    /// Tries 1 to 3 in that order. The counts may be over their limits.
    pub fn begin(sheet: &[u8]) -> Result<Header, u32> {
        if sheet.len() < BYTES {
            return Err(refusal::HEADER);
        }
        let field = Field::numbered(u32::from(sheet[0]))?;
        check_parties(u32::from(sheet[1]), u32::from(sheet[2]))?;
        let count = |place| usize::from(u16::from_le_bytes([sheet[place], sheet[place + 1]]));
        Ok(Header {
            field,
            parties: usize::from(sheet[1]),
            threshold: usize::from(sheet[2]),
            inputs: count(3),
            masks: count(5),
            triples: count(7),
            script: count(9),
        })
    }

    /// Tries 4 of a sheet with so many bytes.
    pub fn check_length(&self, bytes: usize) -> Result<(), u32> {
        let right = self.is_within_limits() && self.implied_length() == bytes;
        right.then_some(()).ok_or(refusal::LENGTH)
    }

    pub fn is_within_limits(&self) -> bool {
        self.inputs <= MOST_INPUTS
            && self.masks <= MOST_MASKS
            && self.triples <= MOST_TRIPLES
            && self.script <= LONGEST_SCRIPT
    }

    /// The bytes of header and script.
    pub fn head_length(&self) -> usize {
        BYTES + self.script
    }

    /// The rows of the sheet, of which each party has a share.
    fn rows(&self) -> usize {
        self.inputs + self.masks * self.field.bits() as usize + 3 * self.triples
    }

    /// The bytes of a party's part of the column form.
    pub fn part_length(&self) -> usize {
        self.rows() * 4
    }

    /// The bytes of the whole sheet.
    pub fn implied_length(&self) -> usize {
        self.head_length() + self.part_length() * self.parties
    }
}

#[cfg(test)]
mod tests {
    use super::*;

    #[test]
    fn largest_sheet_is_that_of_the_paper() {
        let header = [3, 7, 3, 64, 0, 16, 0, 0, 2, 0, 4];
        let mut sheet = header.to_vec();
        sheet.resize(59_723, 0);
        assert!(Header::read(&sheet).is_ok());
        sheet.push(0);
        assert_eq!(Header::read(&sheet).err(), Some(4));
    }

    #[test]
    fn counts_at_their_limits_are_accepted_and_one_more_is_not() {
        for (place, limit, size) in [(3, 64, 12), (5, 16, 48), (7, 512, 36), (9, 1024, 1)] {
            for (count, refused) in [(limit, None), (limit + 1, Some(4))] {
                let mut sheet = vec![0, 3, 1, 0, 0, 0, 0, 0, 0, 0, 0];
                sheet[place..place + 2].copy_from_slice(&(count as u16).to_le_bytes());
                sheet.resize(BYTES + count * size, 0);
                assert_eq!(Header::read(&sheet).err(), refused);
            }
        }
    }
}
