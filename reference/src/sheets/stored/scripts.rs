//! Scripts that are refused: 9, 10 and 11, each alone at its place, and the first of several.

use super::case;
use crate::cases::generator::Generator;
use crate::field::FIELDS;
use crate::run_case::Case;
use crate::script::command::{Command, OPERANDS};
use crate::sheets::wrong;

pub fn all(generator: &mut Generator) -> Vec<Case> {
    let plain: Vec<Case> = (0..4)
        .map(|number| case(generator, number, &[], &[], &[]))
        .collect();
    let with_script = |number: usize, script: &[u8]| {
        let mut sheet = plain[number].sheet[..9].to_vec();
        sheet.extend((script.len() as u16).to_le_bytes());
        sheet.extend(script);
        Case::with_room(sheet)
    };
    let chosen = CHOSEN.iter().map(|(script, _)| with_script(0, script));
    let cut = cut_commands()
        .into_iter()
        .map(|script| with_script(1, &script));
    let mut cases: Vec<Case> = chosen.chain(cut).collect();
    for (number, field) in FIELDS.iter().enumerate() {
        for (i, command) in wrong::commands(field).into_iter().enumerate() {
            if number == 0 || is_of_field(&command) && i % 6 == number {
                let start = Command::Const { d: 0, v: 1 }.to_bytes();
                cases.push(with_script(
                    number,
                    &[start, command.to_bytes(), vec![0]].concat(),
                ));
            }
        }
    }
    cases
}

/// Scripts in field 0, and the number and place of their refusal.
const CHOSEN: [(&[u8], (u32, usize)); 22] = [
    (&[], (10, 0)),
    (&[0, 0], (10, 1)),
    (&[0, 0x0F], (10, 1)),
    (&[0, 1, 64, 0], (10, 1)),
    (&[1, 0, 0, 0], (10, 3)),
    (&[1, 0], (10, 2)),
    (&[2, 0, 1, 0, 0, 0], (10, 6)),
    (&[0x0F], (9, 0)),
    (&[0x10, 0], (9, 0)),
    (&[0x11, 0], (9, 0)),
    (&[0x80, 0], (9, 0)),
    (&[0xFF, 0], (9, 0)),
    (&[1, 0, 0x0F, 0], (9, 2)),
    (&[1, 64, 0x0F, 0], (11, 0)),
    (&[1, 0, 0x0F, 1, 64, 0], (9, 2)),
    (&[1, 0, 1, 64, 6, 0], (11, 2)),
    (&[1, 0, 6, 64, 64], (10, 2)),
    (&[0x0F, 6], (9, 0)),
    (&[1, 64], (11, 0)),
    (&[1, 64, 0, 0], (11, 0)),
    (&[1, 63, 0x0C, 63, 0x0D, 0, 63, 2, 0, 0, 0, 0, 0], (11, 4)),
    (&[2, 0, 12, 0, 0, 0, 2, 0, 13, 0, 0, 0, 0], (11, 6)),
];

/// Each command without operands, with some, and with all but the last byte.
fn cut_commands() -> Vec<Vec<u8>> {
    let mut scripts = Vec::new();
    for (byte, &length) in OPERANDS.iter().enumerate().skip(1) {
        let mut lengths = vec![0, length / 2, length - 1];
        lengths.dedup();
        for kept in lengths {
            let operands = vec![1; kept];
            scripts.push([&[1, 0, byte as u8], operands.as_slice()].concat());
        }
    }
    scripts
}

/// Whether the field decides if the command is in range.
fn is_of_field(command: &Command) -> bool {
    match *command {
        Command::Const { d, .. } => d < 64,
        Command::Scale { d, a, .. }
        | Command::Mod { d, a, .. }
        | Command::Trunc { d, a, .. }
        | Command::Ltz { d, a, .. }
        | Command::Over { d, a, .. }
        | Command::Blocks { d, a, .. } => d < 64 && a < 64,
        // the wrong stretches have 2
        Command::Ltzs { k, .. } => k != 2,
        _ => false,
    }
}

#[cfg(test)]
mod tests {
    use super::*;

    #[test]
    fn scripts_are_refused_at_their_places() {
        let cases = all(&mut Generator::new(1));
        let answers: Vec<(u32, usize)> = cases
            .iter()
            .map(|case| case.outcome().answer)
            .map(|answer| (answer.number, answer.place))
            .collect();
        let (chosen, rest) = answers.split_at(CHOSEN.len());
        assert_eq!(chosen, CHOSEN.map(|(_, answer)| answer));
        let (cut, wrong) = rest.split_at(cut_commands().len());
        assert!(cut.iter().all(|&answer| answer == (10, 2)));
        assert!(wrong.iter().all(|&answer| answer == (11, 6)));
    }
}
