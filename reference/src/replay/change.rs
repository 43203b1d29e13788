//! Changes of a replay's inputs.

use super::case::Case;
use crate::field::FIELDS;
use crate::present::is_present;
use crate::sheet::header;

impl Case {
    pub fn with_party(self, party: u32) -> Case {
        Case { party, ..self }
    }

    pub fn with_head(self, head: &[u8]) -> Case {
        let head = head.to_vec();
        Case { head, ..self }
    }

    /// The same with this byte in this place of the head.
    pub fn with_byte(mut self, place: usize, byte: u8) -> Case {
        self.head[place] = byte;
        self
    }

    /// The same with another script, and its length in the header.
    pub fn with_script(self, script: &[u8]) -> Case {
        let length = (script.len() as u16).to_le_bytes();
        let head = [&self.head[..header::BYTES - 2], &length, script].concat();
        Case { head, ..self }
    }

    pub fn with_part(self, part: &[u8]) -> Case {
        let part = part.to_vec();
        Case { part, ..self }
    }

    pub fn with_record(self, record: &[u32]) -> Case {
        let record = record.to_vec();
        Case { record, ..self }
    }

    /// The same with this share in this place of the part.
    pub fn with_share(mut self, index: usize, share: u32) -> Case {
        self.part[4 * index..][..4].copy_from_slice(&share.to_le_bytes());
        self
    }

    /// The share in this place of the part is another, which is below p too.
    pub fn with_other_share(self, index: usize) -> Case {
        let four = &self.part[4 * index..][..4];
        let share = u32::from_le_bytes([four[0], four[1], four[2], four[3]]);
        let p = self.modulus();
        self.with_share(index, (share + 1) % p)
    }

    /// So many numbers of the record are left.
    pub fn cut(mut self, length: usize) -> Case {
        self.record.truncate(length);
        self
    }

    /// These numbers stand after the record.
    pub fn followed_by(mut self, numbers: &[u32]) -> Case {
        self.record.extend(numbers);
        self
    }

    /// The same with this number in this place of the record.
    pub fn with_number(mut self, place: usize, number: u32) -> Case {
        self.record[place] = number;
        self
    }

    /// The share of this party in the opening is another, which is below p too.
    pub fn with_damaged(mut self, opening: usize, party: usize) -> Case {
        let p = self.modulus();
        let share = &mut self.opening(opening)[party - 1];
        *share = (*share + 1) % p;
        self
    }

    /// Another polynomial in the opening: c0 + c1 j is added to the share of each party j that is present.
    pub fn with_added(mut self, opening: usize, (c0, c1): (u64, u64)) -> Case {
        let p = self.modulus();
        for (party, share) in (1..).zip(self.opening(opening)) {
            if *share < p {
                *share = ((u64::from(*share) + c0 + c1 * party) % u64::from(p)) as u32;
            }
        }
        self
    }

    /// In the opening p stands for the share of each party that is not in this set.
    pub fn with_present(mut self, opening: usize, set: u8) -> Case {
        let p = self.modulus();
        for (party, share) in (1..).zip(self.opening(opening)) {
            if !is_present(set, party) {
                *share = p;
            }
        }
        self
    }

    /// The same in every opening: the sets in turn, from the first again after the last.
    pub fn with_sets(self, sets: &[u8]) -> Case {
        let openings = 0..self.openings();
        let with = |case: Case, (opening, &set): (usize, &u8)| case.with_present(opening, set);
        openings.zip(sets.iter().cycle()).fold(self, with)
    }

    /// How many whole openings the record has.
    pub fn openings(&self) -> usize {
        self.record.len() / self.parties()
    }

    /// The header's n.
    pub fn parties(&self) -> usize {
        self.head[1].into()
    }

    /// The p of the header's field.
    pub fn modulus(&self) -> u32 {
        FIELDS[usize::from(self.head[0])].modulus
    }

    fn opening(&mut self, index: usize) -> &mut [u32] {
        let parties = self.parties();
        &mut self.record[index * parties..][..parties]
    }
}

#[cfg(test)]
mod tests {
    use super::*;
    use crate::present::everyone;
    use crate::replay::recorded::Recorded;
    use crate::sheets::bench;

    fn printed() -> Case {
        let recorded = Recorded::of(&bench::small(), everyone(3)).unwrap();
        recorded.case(1)
    }

    #[test]
    fn openings_are_changed_in_their_place() {
        assert_eq!(printed().record, [5, 6, 7, 2, 3, 4, 7, 12, 4]);
        let record = printed().with_damaged(2, 2).record;
        assert_eq!(record, [5, 6, 7, 2, 3, 4, 7, 0, 4]);
        let record = printed().with_added(1, (10, 2)).record;
        assert_eq!(record, [5, 6, 7, 1, 4, 7, 7, 12, 4]);
        let record = printed().with_present(1, 0b101).record;
        assert_eq!(record, [5, 6, 7, 2, 13, 4, 7, 12, 4]);
        let record = printed().with_sets(&[0b110, 0b011]).record;
        assert_eq!(record, [13, 6, 7, 2, 3, 13, 13, 12, 4]);
    }

    #[test]
    fn absent_shares_stay_absent() {
        let record = printed().with_present(0, 0b110).with_added(0, (1, 0));
        assert_eq!(record.record[..3], [13, 7, 8]);
    }

    #[test]
    fn a_share_of_the_part_is_changed_in_its_place() {
        let part = printed().with_other_share(2).part;
        assert_eq!(part[..12], [7, 0, 0, 0, 7, 0, 0, 0, 3, 0, 0, 0]);
    }
}
