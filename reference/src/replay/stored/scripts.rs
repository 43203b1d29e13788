//! 9 to 11 over the whole script: before 21 and 43 of its first command, and after 5.

use super::Told;
use crate::field::FIELDS;
use crate::refusal::{COMMAND, FORM, NONE, RANGE, VALUE};
use crate::replay::case::Case;
use crate::replay::dealt::{product, SMALL};
use crate::script::command::{Command, OPERANDS};
use crate::sheets::wrong;

/// What stands at the end of a script, with its number, and its place from there.
const ENDS: [(&[u8], u32, usize); 12] = [
    (&[], FORM, 0),
    (&[0, 0], FORM, 1),
    (&[0, 12, 0, 0], FORM, 1),
    (&[12, 0], FORM, 2),
    (&[15, 0], COMMAND, 0),
    (&[16], COMMAND, 0),
    (&[128, 0], COMMAND, 0),
    (&[255], COMMAND, 0),
    (&[6, 64, 64], FORM, 0),
    (&[1, 64, 0], RANGE, 0),
    (&[12, 64, 15], RANGE, 0),
    (&[14, 0, 1, 2, 2, 0], RANGE, 0),
];

pub fn all() -> Vec<Told> {
    let mut all = ends();
    all.extend(cut_commands());
    all.extend(out_of_range());
    all
}

/// Two inputs and a triple, with this script and no record.
fn with_script(script: &[u8]) -> Case {
    let case = product().recorded(600, SMALL).case(1);
    case.with_script(script).cut(0)
}

/// Each end alone, after a command that 21 refuses, after one that 43 refuses; and where a share is p.
fn ends() -> Vec<Told> {
    let starts: [&[u8]; 3] = [&[], &[12, 63], &[1, 0, 12, 0]];
    let mut all = Vec::new();
    for (end, number, place) in ENDS {
        for start in starts {
            let case = with_script(&[start, end].concat());
            all.push((case.clone(), number, start.len() + place));
            all.push((case.with_share(4, 13), VALUE, 0));
        }
    }
    all.push((with_script(&[0]), NONE, 0));
    all
}

/// Every command with none or all but one of its operand bytes.
fn cut_commands() -> Vec<Told> {
    let mut all = Vec::new();
    for (byte, &length) in OPERANDS.iter().enumerate().skip(1) {
        for kept in [0, length - 1] {
            let script = [&[12, 63, byte as u8], vec![1; kept].as_slice()].concat();
            all.push((with_script(&script), FORM, 2));
        }
    }
    all
}

/// Every command with an operand out of range, in field 0, and in field 3 every fourth.
fn out_of_range() -> Vec<Told> {
    let mut all = Vec::new();
    for (number, step) in [(0, 1), (3, 4)] {
        let commands = wrong::commands(&FIELDS[usize::from(number)]);
        for command in commands.into_iter().step_by(step) {
            let script = [vec![12, 63], command.to_bytes(), Command::End.to_bytes()].concat();
            let case = with_script(&script).with_byte(0, number);
            all.push((case, RANGE, 2));
        }
    }
    all
}
