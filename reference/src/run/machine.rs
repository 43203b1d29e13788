//! The table's state, and the commands that work on it.

use super::{Answer, REGISTERS};
use crate::refusal;
use crate::row::{Row, MOST_PARTIES};
use crate::script::command::Command;
use crate::script::{Line, Refused};
use crate::sheet::Sheet;
use crate::steps::Work;

pub struct Machine<'a> {
    sheet: &'a Sheet<'a>,
    work: Work<'a>,
    registers: [Option<Row>; REGISTERS],
    /// How many input rows are loaded.
    inputs: usize,
    openings: usize,
    record: &'a mut [u32],
    /// How many values are revealed.
    reveals: usize,
    revealed: &'a mut [u32],
}

impl<'a> Machine<'a> {
    pub fn new(
        sheet: &'a Sheet<'a>,
        record: &'a mut [u32],
        revealed: &'a mut [u32],
    ) -> Machine<'a> {
        Machine {
            sheet,
            work: Work::new(&sheet.opening, &sheet.masks, &sheet.triples),
            registers: [None; REGISTERS],
            inputs: 0,
            openings: 0,
            record,
            reveals: 0,
            revealed,
        }
    }

    /// Performs the lines up to END, or up to one that the state refuses.
    pub fn run(mut self, lines: &[Line]) -> Answer {
        let mut stop = Refused {
            number: refusal::NONE,
            place: 0,
        };
        for line in lines {
            stop.place = line.place;
            if let Err(number) = self.check(&line.command) {
                stop.number = number;
                break;
            }
            self.perform(&line.command);
        }
        self.answer(stop)
    }

    /// Tries 21 to 26 in that order.
    fn check(&self, command: &Command) -> Result<(), u32> {
        let unset = |&register: &u8| self.registers[usize::from(register)].is_none();
        if command.reads().iter().any(unset) {
            return Err(refusal::UNSET);
        }
        let cost = command.cost(self.sheet.field);
        let n = self.sheet.parties;
        let inputs = self.sheet.inputs.len() - self.inputs;
        let shares = self.record.len() - self.openings * n;
        let values = self.revealed.len() - self.reveals;
        let tests = [
            (cost.inputs, inputs, refusal::NO_INPUT),
            (cost.masks, self.work.masks_left(), refusal::NO_MASK),
            (cost.triples, self.work.triples_left(), refusal::NO_TRIPLES),
            (cost.openings() * n, shares, refusal::RECORD_FULL),
            (cost.revealed, values, refusal::REVEALED_FULL),
        ];
        match tests.into_iter().find(|(needed, left, _)| needed > left) {
            Some((_, _, number)) => Err(number),
            None => Ok(()),
        }
    }

    /// Works a command that the state allows.
    fn perform(&mut self, command: &Command) {
        match *command {
            Command::Reveal { a } => self.reveal(a),
            Command::Ltzs { a, h, k, .. } => {
                let signs = self.work.signs(&self.rows(a, h), k.into());
                self.write(command, signs.into_iter().flatten());
            }
            _ => {
                let left = self.left(command);
                self.write(command, left);
            }
        }
        self.record_opened();
    }

    /// Writes what was left, a row to each register of the command.
    fn write(&mut self, command: &Command, rows: impl IntoIterator<Item = Row>) {
        for (register, row) in command.writes().zip(rows) {
            self.registers[usize::from(register)] = Some(row);
        }
    }

    /// The row that a command leaves which writes one register.
    fn left(&mut self, command: &Command) -> Option<Row> {
        match *command {
            Command::End | Command::Reveal { .. } | Command::Ltzs { .. } => None,
            Command::Load { .. } => Some(self.load()),
            Command::Const { v, .. } => Some(self.work.constant(v.into(), self.sheet.parties)),
            Command::Add { a, b, .. } => Some(self.work.plus(&self.row(a), &self.row(b))),
            Command::Sub { a, b, .. } => Some(self.work.minus(&self.row(a), &self.row(b))),
            Command::Scale { a, v, .. } => Some(self.work.times(v.into(), &self.row(a))),
            Command::Mul { a, b, .. } => self.work.multiply(&self.row(a), &self.row(b)),
            Command::Mod { a, k, m, .. } => self.work.remainder(&self.row(a), k.into(), m.into()),
            Command::Trunc { a, k, m, .. } => self.work.floor(&self.row(a), k.into(), m.into()),
            Command::Ltz { a, k, .. } => self.work.sign(&self.row(a), k.into()),
            Command::Over { a, k, v, .. } => self.work.over(&self.row(a), k.into(), v.into()),
            Command::Blocks { a, k, m, .. } => self.work.blocks(&self.row(a), k.into(), m.into()),
            Command::Bitlt { b, w, v, .. } => self.work.compare(v.into(), &self.rows(b, w)),
        }
    }

    /// A register that was found set.
    fn row(&self, register: u8) -> Row {
        self.registers[usize::from(register)].expect("a register that is read is set")
    }

    /// So many registers from the first on.
    fn rows(&self, first: u8, count: u8) -> Vec<Row> {
        let registers = first..first + count;
        registers.map(|register| self.row(register)).collect()
    }

    fn load(&mut self) -> Row {
        let row = self.sheet.inputs[self.inputs];
        self.inputs += 1;
        row
    }

    fn reveal(&mut self, a: u8) {
        let row = self.row(a);
        self.revealed[self.reveals] = self.work.open(row) as u32;
        self.reveals += 1;
    }

    /// Moves what the command opened to the record.
    fn record_opened(&mut self) {
        let n = self.sheet.parties;
        for row in self.work.opened.drain(..) {
            let places = &mut self.record[self.openings * n..][..n];
            for (place, share) in places.iter_mut().zip(self.sheet.opening.recorded(&row)) {
                *place = share as u32;
            }
            self.openings += 1;
        }
    }

    fn answer(&self, stop: Refused) -> Answer {
        Answer {
            number: stop.number,
            place: stop.place,
            inputs: self.inputs,
            masks: self.sheet.masks.len() - self.work.masks_left(),
            triples: self.sheet.triples.len() - self.work.triples_left(),
            openings: self.openings,
            revealed: self.reveals,
            registers: self.registers.map(cells),
            set: self.registers.map(|register| register.is_some()),
        }
    }
}

/// The register's cells, 0 past the last party and where it is unset.
fn cells(register: Option<Row>) -> [u32; MOST_PARTIES] {
    let mut cells = [0; MOST_PARTIES];
    if let Some(row) = register {
        for (cell, &share) in cells.iter_mut().zip(row.iter()) {
            *cell = share as u32;
        }
    }
    cells
}
