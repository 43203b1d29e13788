//! Buffers that are as long as the calls, shorter and longer.

use super::Lent;
use crate::calls::case::LONGEST;
use crate::refusal::{NONE, SECONDS_FULL};

/// Buffers for lists of 0 to 5 calls, and for some more calls than the longest buffer takes.
pub fn all() -> Vec<Lent> {
    let mut all = Vec::new();
    for calls in 0..=5 {
        for lent in 0..=calls + 2 {
            all.push(lines(calls, lent));
        }
    }
    all.push(lines(2, 40));
    for calls in [LONGEST - 1, LONGEST, LONGEST + 1] {
        all.push(lines(calls, LONGEST));
    }
    all
}

/// So many calls, each of more seconds than the one before.
fn lines(calls: usize, lent: usize) -> Lent {
    let seconds = (1..).take(calls.min(lent)).collect();
    let list: String = (1..=calls)
        .map(|call| format!(",5,10,{}\r\n", 10 + call))
        .collect();
    let number = if lent < calls { SECONDS_FULL } else { NONE };
    (list.into_bytes(), lent, number, seconds)
}
