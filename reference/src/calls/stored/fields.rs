//! How many fields a line has.

use super::{good, refused, Told};
use crate::refusal::{LINE, TIME};

pub fn all() -> Vec<Told> {
    let mut all = good([(",1,2,3", &[1]), ("1,2,3,4", &[1]), (",0,,0", &[0])]);
    all.extend(refused(
        LINE,
        [
            "a",
            "1",
            "a,1",
            "a,1,2",
            "1,2,3\r\n",
            "a,1,2,3,",
            "a,1,2,3,4",
            "a,1,2,3,\"\"",
            ",a,1,2,3",
            "a,b,1,2,3\r\n",
            "a,1,2,3,4,5,6,7",
            "\"a,1,2,3\"",
            "a,\"1,2,3\"",
            "a,1,\"2,3\"",
            ",",
            ",,",
            ",,,,",
            "\"\"",
        ],
    ));
    all.extend(refused(TIME, [",,,", "a,,,", "\"\",\"\",\"\",\"\""]));
    all
}
