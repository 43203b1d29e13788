//! 9 to 11.

use super::{head, name_with, Draft, Named};
use crate::script::command::OPERANDS;

pub fn all() -> Vec<Named> {
    let mut all = plain();
    all.extend(of_commands());
    all
}

fn plain() -> Vec<Named> {
    let scripts: [(&str, &[u8]); 7] = [
        ("no-command", &[1, 0, 15, 0]),
        ("no-command-255", &[255]),
        ("empty-script", &[]),
        ("no-end", &[12, 0]),
        // what follows END is read as no command, as one that is cut off, and as END
        ("after-end-no-command", &[0, 15]),
        ("after-end", &[12, 0, 0, 6, 0]),
        ("after-end-end", &[0, 0]),
    ];
    let named = |(name, script)| head(name, Draft::new(0, script));
    scripts.map(named).into()
}

/// Every command without its last operand byte, and with operands out of range. LOAD 0 stands before it,
/// so that its place follows a 0 that is not END.
fn of_commands() -> Vec<Named> {
    let mut all = Vec::new();
    for (byte, &length) in (0..).zip(&OPERANDS).skip(1) {
        let script = |operands: &[u8]| Draft::new(0, &[&[1, 0, byte], operands].concat());
        let cut_off = script(&vec![0; length - 1]);
        all.push(head(&name_with("cut-off", byte), cut_off));
        let out_of_range = script(&[vec![255; length], vec![0]].concat());
        all.push(head(&name_with("out-of-range", byte), out_of_range));
    }
    all
}
