//! 9 to 11 over the whole script, before its first command is tried.

use super::{held, printed, Held};

/// Scripts for the deal of the paper. The record is empty, so that an opening would be refused with 43.
pub fn all() -> Vec<Held> {
    let scripts: [(&str, &[u8]); 7] = [
        ("9: a byte that is no command", &[1, 0, 15, 0]),
        ("9 before 21: in the second command", &[12, 0, 15]),
        ("10: an empty script", &[]),
        (
            "10: no END, the place is the script length",
            &[1, 0, 1, 1, 6, 2, 0, 1, 12, 2],
        ),
        (
            "10: a byte after END, which has the place",
            &[1, 0, 1, 1, 6, 2, 0, 1, 12, 2, 0, 0],
        ),
        ("11: register 64", &[1, 0, 1, 1, 6, 2, 0, 1, 12, 64, 0]),
        (
            "11 before 43: LTZ with k = 4",
            &[1, 0, 12, 0, 9, 0, 0, 4, 0],
        ),
    ];
    let row = |(says, script)| held(says, printed().case(2).cut(0).with_script(script));
    scripts.map(row).into()
}
