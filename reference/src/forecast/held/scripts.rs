//! 9 to 11 over the whole script, before a command that the state refuses.

use super::{held, Draft, Held};

pub fn all() -> Vec<Held> {
    let scripts: [(&str, &[u8]); 9] = [
        ("10: an empty script", &[]),
        ("9 before 21: a byte that is no command", &[12, 0, 15, 0]),
        ("10 before 21: operands cut off", &[12, 0, 6, 0, 0]),
        (
            "10 before 21: no END, the place is the script length",
            &[12, 0],
        ),
        (
            "10 before 21: a byte after END, which has the place",
            &[12, 0, 0, 0],
        ),
        (
            "11 before 21: register 64 in a later command",
            &[12, 0, 1, 64, 0],
        ),
        ("11 before 21: LTZ with k = 4 in field 0", &[9, 0, 0, 4, 0]),
        (
            "11 before 21: LTZS, register 1 is in both stretches",
            &[14, 0, 1, 2, 2, 0],
        ),
        ("11 before 22: MOD with m = k", &[1, 0, 7, 0, 0, 2, 2, 0]),
    ];
    let row = |(says, script)| held(says, Draft::new(0, script));
    scripts.map(row).into()
}
