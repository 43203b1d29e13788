//! The shares of parties 1 to n.

use std::ops::{Deref, DerefMut};

pub const MOST_PARTIES: usize = 7;

#[derive(Clone, Copy, Debug, PartialEq)]
pub struct Row {
    parties: usize,
    shares: [u64; MOST_PARTIES],
}

impl Row {
    pub fn constant(share: u64, parties: usize) -> Row {
        (0..parties).map(|_| share).collect()
    }
}

/// At most seven shares.
impl FromIterator<u64> for Row {
    fn from_iter<I: IntoIterator<Item = u64>>(shares: I) -> Row {
        let mut row = Row {
            parties: 0,
            shares: [0; MOST_PARTIES],
        };
        for share in shares {
            row.shares[row.parties] = share;
            row.parties += 1;
        }
        row
    }
}

impl Deref for Row {
    type Target = [u64];

    fn deref(&self) -> &[u64] {
        &self.shares[..self.parties]
    }
}

impl DerefMut for Row {
    fn deref_mut(&mut self) -> &mut [u64] {
        &mut self.shares[..self.parties]
    }
}
