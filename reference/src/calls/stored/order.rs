//! The order of the times: equal, following each other, and reversed.

use super::{good, refused, Told};
use crate::refusal::TIME;

pub fn all() -> Vec<Told> {
    let mut all = good([
        ("a,5,5,5", &[0]),
        ("a,5,5,9", &[4]),
        ("a,5,9,9", &[0]),
        // from the answer on, not from dialling
        ("a,5,7,179", &[172]),
        ("a,0,1000,1001", &[1]),
        ("a,5,,5", &[0]),
        ("a,5,,6", &[0]),
        ("a,9999998,9999999,9999999", &[0]),
        // by number, not letter by letter
        ("a,9,10,100", &[90]),
        ("a,0009,10,0011", &[1]),
        ("a,99,,100", &[0]),
    ]);
    all.extend(refused(
        TIME,
        [
            // answered before dialled
            "a,5,4,9",
            "a,5,4,5",
            "a,5,4,4",
            "a,9999999,9999998,9999999",
            "a,10,9,11",
            "a,1,0,1",
            // ended before answered
            "a,5,7,6",
            "a,5,7,5",
            "a,9999998,9999999,9999998",
            "a,9,10,9",
            "a,0,1,0",
            // ended before dialled
            "a,5,7,4",
            "a,5,4,3",
            "a,5,5,4",
            "a,5,3,4",
            // not answered, and ended before dialled
            "a,5,,4",
            "a,10,,9",
            "a,1,,0",
            "a,9999999,,0",
            "a,5,\"\",4",
        ],
    ));
    all
}
