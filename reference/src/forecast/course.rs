//! A script's commands over counts alone: which registers are set, and how much is left.

use crate::field::Field;
use crate::refusal;
use crate::run::REGISTERS;
use crate::script::command::Command;
use crate::script::Line;
use crate::sheet::header::Header;

/// How many input rows, masks and triples.
pub type Counts = [usize; 3];

/// The number where too few are left of each.
const TOO_FEW: [u32; 3] = [refusal::NO_INPUT, refusal::NO_MASK, refusal::NO_TRIPLES];

/// More than any script takes.
const AMPLE: Counts = [1_000_000; 3];

/// Where the commands come to END or are refused.
pub struct Stop {
    pub number: u32,
    /// The line of END or of the refused command.
    pub line: Line,
    /// What is left before it.
    pub left: Counts,
    set: [bool; REGISTERS],
}

impl Stop {
    /// With the counts of the header. The last line is END's.
    pub fn of(header: &Header, lines: &[Line]) -> Stop {
        Stop::with(given(header), lines, header.field)
    }

    fn with(counts: Counts, lines: &[Line], field: &Field) -> Stop {
        let mut stop = Stop {
            number: refusal::NONE,
            line: lines[0],
            left: counts,
            set: [false; REGISTERS],
        };
        for &line in lines {
            stop.line = line;
            stop.number = stop.tried(field);
            if stop.number != refusal::NONE {
                break;
            }
            stop.finish(field);
        }
        stop
    }

    /// Tries 21 to 24 of the line's command, in that order.
    fn tried(&self, field: &Field) -> u32 {
        if self.unset().is_some() {
            return refusal::UNSET;
        }
        let needed = needs(&self.line.command, field);
        let mut kinds = 0..needed.len();
        let short = kinds.find(|&kind| needed[kind] > self.left[kind]);
        short.map_or(refusal::NONE, |kind| TOO_FEW[kind])
    }

    /// The first register that the line's command reads and that no command before it sets.
    pub fn unset(&self) -> Option<u8> {
        let mut reads = self.line.command.reads().into_iter();
        reads.find(|&register| !self.set[usize::from(register)])
    }

    /// Takes what the line's command needs, and sets its registers.
    fn finish(&mut self, field: &Field) {
        let needed = needs(&self.line.command, field);
        for (left, needed) in self.left.iter_mut().zip(needed) {
            *left -= needed;
        }
        for register in self.line.command.writes() {
            self.set[usize::from(register)] = true;
        }
    }
}

/// The counts of the header.
pub fn given(header: &Header) -> Counts {
    [header.inputs, header.masks, header.triples]
}

/// What a command takes.
pub fn needs(command: &Command, field: &Field) -> Counts {
    let cost = command.cost(field);
    [cost.inputs, cost.masks, cost.triples]
}

/// What the whole script takes, unless one of its commands reads a register that none before it sets.
pub fn needs_of_all(lines: &[Line], field: &Field) -> Option<Counts> {
    let stop = Stop::with(AMPLE, lines, field);
    let taken = || std::array::from_fn(|kind| AMPLE[kind] - stop.left[kind]);
    (stop.number == refusal::NONE).then(taken)
}

#[cfg(test)]
mod tests {
    use super::*;
    use crate::field::FIELDS;
    use crate::script;
    use crate::script::command::script_of;
    use crate::sheet::header::LONGEST_SCRIPT;

    fn lines(commands: &[Command]) -> Vec<Line> {
        script::read(&script_of(commands), &FIELDS[3]).unwrap()
    }

    #[test]
    fn what_the_whole_script_takes_is_added_up() {
        let (d, a, k) = (0, 0, 30);
        let mut commands = vec![Command::Load { d }, Command::Ltz { d, a, k }];
        let needed = |commands: &[Command]| needs_of_all(&lines(commands), &FIELDS[3]);
        assert_eq!(needed(&commands), Some([1, 1, 87]));
        commands.extend([Command::Mul { d, a, b: 0 }, Command::Load { d }]);
        assert_eq!(needed(&commands), Some([2, 1, 88]));
        commands.push(Command::Reveal { a: 1 });
        assert_eq!(needed(&commands), None);
        assert_eq!(needed(&[]), Some([0; 3]));
    }

    /// A command of at least two bytes takes at most one row, and one of five bytes 16 masks and 16 times 87
    /// triples. No other takes more for its bytes.
    #[test]
    fn no_script_takes_what_is_ample() {
        let most = LONGEST_SCRIPT.div_ceil(5) * 16 * 87;
        assert!(AMPLE.iter().all(|&count| count > most));
    }

    #[test]
    fn the_first_unset_register_is_in_the_order_of_reading() {
        let unset = |command| Stop::with(AMPLE, &lines(&[command]), &FIELDS[3]).unset();
        assert_eq!(unset(Command::Sub { d: 0, a: 9, b: 4 }), Some(9));
        let (d, b, w, v) = (7, 5, 3, 0);
        assert_eq!(unset(Command::Bitlt { d, b, w, v }), Some(5));
        let set = |d| Command::Const { d, v: 1 };
        let commands = [set(5), set(7), Command::Bitlt { d, b, w, v }];
        let stop = Stop::with(AMPLE, &lines(&commands), &FIELDS[3]);
        assert_eq!((stop.number, stop.unset()), (21, Some(6)));
        let (a, h, k) = (5, 4, 2);
        let commands = [set(5), set(6), set(8), Command::Ltzs { d: 5, a, h, k }];
        let stop = Stop::with(AMPLE, &lines(&commands), &FIELDS[3]);
        assert_eq!((stop.number, stop.unset()), (21, Some(7)));
    }

    #[test]
    fn every_register_that_signs_are_left_in_is_set() {
        let (d, a, h, k) = (40, 0, 2, 2);
        let set = |d| Command::Const { d, v: 1 };
        let signs = [set(0), set(1), Command::Ltzs { d, a, h, k }];
        for (register, number) in [(39, 21), (40, 0), (41, 0), (42, 21)] {
            let commands = [&signs[..], &[Command::Reveal { a: register }]].concat();
            let stop = Stop::with(AMPLE, &lines(&commands), &FIELDS[3]);
            assert_eq!(stop.number, number, "{register}");
        }
    }
}
