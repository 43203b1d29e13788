//! The byte that says which parties are present: its bit j - 1, counted from the lowest, is party j's.

use crate::refusal;

/// The parties that the byte has a bit for.
const BITS: usize = 8;

/// All of n parties. A sheet that is refused may say any n, and past 8 there is no bit.
pub fn everyone(parties: u8) -> u8 {
    (1..=usize::from(parties).min(BITS)).fold(0, |present, party| present | bit(party))
}

/// All parties of the sheet's header; none if it is cut off before it says how many there are.
pub fn everyone_of(sheet: &[u8]) -> u8 {
    everyone(sheet.get(1).copied().unwrap_or(0))
}

/// The byte in which this party alone is present.
pub fn bit(party: usize) -> u8 {
    1 << (party - 1)
}

pub fn is_present(present: u8, party: usize) -> bool {
    present & bit(party) != 0
}

/// Whether a bit beyond n is set or fewer than t + 1 parties are present.
pub fn check(present: u8, parties: usize, threshold: usize) -> Result<(), u32> {
    let beyond = (parties + 1..=BITS).any(|party| is_present(present, party));
    let count = (1..=parties).filter(|&party| is_present(present, party));
    if beyond || count.count() <= threshold {
        return Err(refusal::PRESENT);
    }
    Ok(())
}

/// Every set that is not refused, as its byte.
pub fn permitted(parties: usize, threshold: usize) -> Vec<u8> {
    let all = 0..=u8::MAX;
    all.filter(|&present| check(present, parties, threshold).is_ok())
        .collect()
}

#[cfg(test)]
mod tests {
    use super::*;
    use crate::cases::PERMITTED;

    #[test]
    fn everyone_is_two_to_the_n_less_one() {
        let bytes = [0, 1, 3, 7, 15, 31, 63, 127, 255, 255];
        for (parties, byte) in (0..).zip(bytes) {
            assert_eq!(everyone(parties), byte);
        }
        assert_eq!(everyone(u8::MAX), 255);
        assert_eq!(everyone_of(&[0, 5]), 31);
        assert_eq!(everyone_of(&[0]), 0);
    }

    /// How many sets of t + 1 or more there are, added up by hand from the binomials.
    #[test]
    fn permitted_sets_are_those_of_more_than_t_parties() {
        let counts = [4, 11, 26, 16, 57, 42, 120, 99, 64];
        for ((n, t), count) in PERMITTED.into_iter().zip(counts) {
            let sets = permitted(n as usize, t as usize);
            assert_eq!(sets.len(), count, "{n} {t}");
            let right = |set: &u8| u32::from(*set) < 1 << n && set.count_ones() > t;
            assert!(sets.iter().all(right));
        }
        assert_eq!(permitted(3, 1), [3, 5, 6, 7]);
    }
}
