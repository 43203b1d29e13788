//! 9 to 11: alone, and in a script in which the state refuses an earlier command.

use super::Told;
use crate::field::FIELDS;
use crate::forecast::draft::Draft;
use crate::refusal::{COMMAND, FORM, NO_INPUT, NO_MASK, NO_TRIPLES, RANGE, UNSET};
use crate::script::command::{Command, OPERANDS};
use crate::sheets::wrong;

pub fn all() -> Vec<Told> {
    let mut all = alone();
    all.extend(before_the_state());
    all.extend(cut_commands());
    all.extend(out_of_range());
    all
}

/// What stands at the end of a script, with its number, and its place from there.
const ENDS: [(&[u8], u32, usize); 12] = [
    (&[], FORM, 0),
    (&[0, 0], FORM, 1),
    (&[0, 12, 0, 0], FORM, 1),
    (&[12, 0], FORM, 2),
    (&[15, 0], COMMAND, 0),
    (&[16], COMMAND, 0),
    (&[128, 0], COMMAND, 0),
    (&[255], COMMAND, 0),
    (&[6, 64, 64], FORM, 0),
    (&[1, 64, 0], RANGE, 0),
    (&[12, 64, 15], RANGE, 0),
    (&[12, 255, 0, 0], RANGE, 0),
];

fn alone() -> Vec<Told> {
    let told = |(script, number, place): (&[u8], u32, usize)| {
        let head = Draft::new(0, script).to_bytes();
        (head, number, place)
    };
    ENDS.map(told).into()
}

/// Scripts without END that the state refuses with this number, where there is no row.
fn refused() -> [(u32, Vec<Command>); 5] {
    let (d, a, b, k) = (0, 0, 0, 2);
    let one = Command::Const { d, v: 1 };
    [
        (UNSET, vec![Command::Reveal { a: 63 }]),
        (UNSET, vec![one, Command::Add { d, a, b: 1 }]),
        (NO_INPUT, vec![Command::Load { d }]),
        (NO_MASK, vec![one, Command::Ltz { d, a, k }]),
        (NO_TRIPLES, vec![one, Command::Mul { d, a, b }]),
    ]
}

/// Each end after each command that the state refuses; and the same commands with END, so that it is seen
/// that the state refuses them.
fn before_the_state() -> Vec<Told> {
    let mut all = Vec::new();
    for (number, commands) in refused() {
        let bytes = |commands: &[Command]| -> Vec<u8> {
            commands.iter().flat_map(Command::to_bytes).collect()
        };
        let script = bytes(&commands);
        let place = bytes(&commands[..commands.len() - 1]).len();
        all.push((Draft::of(0, &commands).to_bytes(), number, place));
        for (end, number, place) in ENDS {
            let draft = Draft::new(0, &[&script, end].concat());
            all.push((draft.to_bytes(), number, script.len() + place));
        }
    }
    all
}

/// Every command with none, some or all but one of its operand bytes, after one that reads an unset
/// register.
fn cut_commands() -> Vec<Told> {
    let mut all = Vec::new();
    for (byte, &length) in OPERANDS.iter().enumerate().skip(1) {
        let mut lengths = vec![0, length / 2, length - 1];
        lengths.dedup();
        for kept in lengths {
            let script = [&[12, 63, byte as u8], vec![1; kept].as_slice()].concat();
            all.push((Draft::new(1, &script).to_bytes(), FORM, 2));
        }
    }
    all
}

/// Every command with an operand out of range, after one that reads an unset register.
fn out_of_range() -> Vec<Told> {
    let mut all = Vec::new();
    for (number, field) in (0..).zip(&FIELDS) {
        for command in wrong::commands(field) {
            let commands = [Command::Reveal { a: 63 }, command];
            all.push((Draft::of(number, &commands).to_bytes(), RANGE, 2));
        }
    }
    all
}
