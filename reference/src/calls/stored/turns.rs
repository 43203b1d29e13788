//! Lines in turn, and which number comes first: the first bad line's, in a line 31 before 32, and
//! 33 for a good line only.

use super::{refused, Lent, Told};
use crate::refusal::{LINE, NONE, SECONDS_FULL, TIME};

/// A line that 31 refuses, one that 32 refuses, and a good one.
const BROKEN: &str = "a,1,2\r\n";
const REVERSED: &str = "a,1,3,2\r\n";
const GOOD: &str = "a,1,2,5\r\n";

pub fn all() -> Vec<Told> {
    let mut all = refused(
        LINE,
        [
            "a,x,2,3,4",
            "a,9,2",
            "a,x,2,3\"",
            "a,5,4,3\r",
            "a,9,8,7\n",
            "\"a\"b,x,y,z",
            "a,x,\"2,3",
            "a\t,3,2,1",
        ],
    );
    let lists: [(&[&str], u32, &[u32]); 8] = [
        (&[BROKEN, REVERSED], LINE, &[]),
        (&[REVERSED, BROKEN], TIME, &[]),
        (&[GOOD, BROKEN, REVERSED], LINE, &[3]),
        (&[GOOD, REVERSED, BROKEN], TIME, &[3]),
        (&[GOOD, GOOD, BROKEN, GOOD], LINE, &[3, 3]),
        (&[GOOD, GOOD, REVERSED, GOOD], TIME, &[3, 3]),
        (&[GOOD, GOOD, GOOD, "\""], LINE, &[3, 3, 3]),
        (&[REVERSED, "\""], TIME, &[]),
    ];
    all.extend(lists.map(|(lines, number, seconds)| {
        let list = lines.concat().into_bytes();
        (list, number, seconds.to_vec())
    }));
    all
}

/// Buffers that the good lines fill.
pub fn full() -> Vec<Lent> {
    let lists: [(&[&str], usize, u32, &[u32]); 15] = [
        (&[BROKEN], 0, LINE, &[]),
        (&[REVERSED], 0, TIME, &[]),
        (&[GOOD], 0, SECONDS_FULL, &[]),
        (&["\r\n"], 0, LINE, &[]),
        (&["a,5,,4"], 0, TIME, &[]),
        (&["a,5,,5"], 0, SECONDS_FULL, &[]),
        (&["a,x,2,3\""], 0, LINE, &[]),
        (&[GOOD, BROKEN], 1, LINE, &[3]),
        (&[GOOD, REVERSED], 1, TIME, &[3]),
        (&[GOOD, GOOD], 1, SECONDS_FULL, &[3]),
        (&[GOOD, "\r\n"], 1, LINE, &[3]),
        (&[GOOD, "\r"], 1, LINE, &[3]),
        (&[GOOD, GOOD, BROKEN], 1, SECONDS_FULL, &[3]),
        (&[GOOD, GOOD, REVERSED], 1, SECONDS_FULL, &[3]),
        (&[GOOD], 1, NONE, &[3]),
    ];
    let lent = |(lines, lent, number, seconds): (&[&str], usize, u32, &[u32])| {
        let list = lines.concat().into_bytes();
        (list, lent, number, seconds.to_vec())
    };
    lists.map(lent).into()
}
