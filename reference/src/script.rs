//! A script's bytes read into commands with their offsets, or the first refusal and its place.

pub mod command;
mod ranges;

use crate::field::Field;
use crate::refusal;
use command::{Command, OPERANDS};

#[derive(Clone, Copy, Debug, PartialEq)]
pub struct Refused {
    pub number: u32,
    pub place: usize,
}

/// A command and its offset in the script.
#[derive(Clone, Copy, Debug, PartialEq)]
pub struct Line {
    pub place: usize,
    pub command: Command,
}

/// The lines from the script's start to END. Tries 9 to 11 command by command.
pub fn read(script: &[u8], field: &Field) -> Result<Vec<Line>, Refused> {
    let mut lines = Vec::new();
    let mut place = 0;
    loop {
        let (command, next) =
            next_command(script, place, field).map_err(|number| Refused { number, place })?;
        lines.push(Line { place, command });
        place = next;
        if command == Command::End {
            break;
        }
    }
    if place < script.len() {
        let number = refusal::FORM;
        return Err(Refused { number, place });
    }
    Ok(lines)
}

/// The command at the place and the offset just after it.
fn next_command(script: &[u8], place: usize, field: &Field) -> Result<(Command, usize), u32> {
    let &byte = script.get(place).ok_or(refusal::FORM)?;
    let &length = OPERANDS.get(usize::from(byte)).ok_or(refusal::COMMAND)?;
    let next = place + 1 + length;
    let operands = script.get(place + 1..next).ok_or(refusal::FORM)?;
    let command = Command::decode(byte, operands);
    if !command.is_in_range(field) {
        return Err(refusal::RANGE);
    }
    Ok((command, next))
}

#[cfg(test)]
mod tests {
    use super::*;
    use crate::field::FIELDS;

    fn refused(script: &[u8]) -> (u32, usize) {
        let refused = read(script, &FIELDS[0]).unwrap_err();
        (refused.number, refused.place)
    }

    #[test]
    fn reads_the_script_of_the_paper() {
        let script = [1, 0, 1, 1, 6, 2, 0, 1, 12, 2, 0];
        let lines = read(&script, &FIELDS[0]).unwrap();
        let expected = [
            (0, Command::Load { d: 0 }),
            (2, Command::Load { d: 1 }),
            (4, Command::Mul { d: 2, a: 0, b: 1 }),
            (8, Command::Reveal { a: 2 }),
            (10, Command::End),
        ];
        assert_eq!(
            lines,
            expected.map(|(place, command)| Line { place, command })
        );
    }

    #[test]
    fn refuses_at_the_places_of_the_paper() {
        assert_eq!(refused(&[]), (10, 0));
        assert_eq!(refused(&[1, 0]), (10, 2));
        assert_eq!(refused(&[1, 0, 6, 0, 0]), (10, 2));
        assert_eq!(refused(&[1, 0, 0, 0]), (10, 3));
        assert_eq!(refused(&[0, 255]), (10, 1));
        assert_eq!(refused(&[1, 0, 15]), (9, 2));
        assert_eq!(refused(&[1, 0, 1, 64, 0]), (11, 2));
    }

    #[test]
    fn the_first_command_at_fault_is_named() {
        assert_eq!(refused(&[1, 64, 15]), (11, 0));
        assert_eq!(refused(&[1, 0, 15, 1, 64]), (9, 2));
        assert_eq!(refused(&[1, 64, 6]), (11, 0));
    }

    #[test]
    fn operands_cut_off_are_refused_before_operands_out_of_range() {
        assert_eq!(refused(&[3, 64, 64]), (10, 0));
        assert_eq!(refused(&[3, 64, 64, 0]), (11, 0));
    }
}
