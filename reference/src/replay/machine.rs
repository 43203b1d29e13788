//! The party's column, and the commands that work on it.

use super::part::Part;
use super::record::Record;
use super::steps::Work;
use super::{Answer, Counts};
use crate::field::Field;
use crate::refusal;
use crate::run::REGISTERS;
use crate::script::command::Command;
use crate::script::{Line, Refused};
use crate::sheet::header::Header;

pub struct Machine<'a> {
    field: &'static Field,
    /// The input rows, masks and triples that the header counts.
    given: [usize; 3],
    work: Work<'a>,
    cells: [Option<u64>; REGISTERS],
}

impl<'a> Machine<'a> {
    pub fn new(header: &Header, party: usize, part: &'a Part, record: Record<'a>) -> Machine<'a> {
        Machine {
            field: header.field,
            given: [header.inputs, header.masks, header.triples],
            work: Work::new(header, party, part, record),
            cells: [None; REGISTERS],
        }
    }

    /// Performs the lines up to END, or up to one that is refused.
    pub fn run(mut self, lines: &[Line]) -> Answer {
        let mut stop = Refused {
            number: refusal::NONE,
            place: 0,
        };
        for line in lines {
            stop.place = line.place;
            if let Err(number) = self.perform(&line.command) {
                stop.number = number;
                break;
            }
        }
        self.answer(stop)
    }

    /// Works the command, or changes no cell and no count.
    fn perform(&mut self, command: &Command) -> Result<(), u32> {
        self.check(command)?;
        let before = self.work.counts;
        let left = self.left(command);
        if left.is_err() {
            self.work.counts = before;
        }
        for (register, share) in command.writes().zip(left?) {
            self.cells[usize::from(register)] = Some(share);
        }
        Ok(())
    }

    /// Tries 21 to 24 in that order.
    fn check(&self, command: &Command) -> Result<(), u32> {
        let is_unset = |&register: &u8| self.cells[usize::from(register)].is_none();
        if command.reads().iter().any(is_unset) {
            return Err(refusal::UNSET);
        }
        let cost = command.cost(self.field);
        let Counts {
            inputs,
            masks,
            triples,
            ..
        } = self.work.counts;
        let after = [
            (inputs + cost.inputs, refusal::NO_INPUT),
            (masks + cost.masks, refusal::NO_MASK),
            (triples + cost.triples, refusal::NO_TRIPLES),
        ];
        let mut after = after.into_iter().zip(self.given);
        match after.find(|((taken, _), given)| taken > given) {
            Some(((_, number), _)) => Err(number),
            None => Ok(()),
        }
    }

    /// The shares for the registers that the command writes, or the number of an opening that is refused.
    fn left(&mut self, command: &Command) -> Result<Vec<u64>, u32> {
        let field = self.field;
        let share = match *command {
            Command::End => return Ok(vec![]),
            Command::Reveal { a } => {
                self.work.reveal(self.cell(a))?;
                return Ok(vec![]);
            }
            Command::Ltzs { a, h, k, .. } => {
                let cells = self.cells(a, h);
                let signs = cells.into_iter().map(|a| self.work.sign(a, k.into()));
                return signs.collect();
            }
            Command::Load { .. } => self.work.load(),
            Command::Const { v, .. } => v.into(),
            Command::Add { a, b, .. } => field.add(self.cell(a), self.cell(b)),
            Command::Sub { a, b, .. } => field.subtract(self.cell(a), self.cell(b)),
            Command::Scale { a, v, .. } => field.multiply(v.into(), self.cell(a)),
            Command::Mul { a, b, .. } => self.work.multiply(self.cell(a), self.cell(b))?,
            Command::Mod { a, k, m, .. } => {
                self.work.remainder(self.cell(a), k.into(), m.into())?
            }
            Command::Trunc { a, k, m, .. } => self.work.floor(self.cell(a), k.into(), m.into())?,
            Command::Ltz { a, k, .. } => self.work.sign(self.cell(a), k.into())?,
            Command::Over { a, k, v, .. } => self.work.over(self.cell(a), k.into(), v.into())?,
            Command::Blocks { a, k, m, .. } => {
                self.work.blocks(self.cell(a), k.into(), m.into())?
            }
            Command::Bitlt { b, w, v, .. } => self.work.compare(v.into(), &self.cells(b, w))?,
        };
        Ok(vec![share])
    }

    /// A register that was found set.
    fn cell(&self, register: u8) -> u64 {
        self.cells[usize::from(register)].expect("a register that is read is set")
    }

    /// So many registers from the first on.
    fn cells(&self, first: u8, count: u8) -> Vec<u64> {
        let registers = first..first + count;
        registers.map(|register| self.cell(register)).collect()
    }

    fn answer(&self, stop: Refused) -> Answer {
        Answer {
            number: stop.number,
            place: stop.place,
            cells: self.cells.map(|cell| cell.unwrap_or(0) as u32),
            counts: self.work.counts,
        }
    }
}
