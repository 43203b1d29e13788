//! One call of a step, its form as little-endian 32-bit words, and the lines that tell its answer.

use super::{Triple, Work};
use crate::field::Field;
use crate::opening::Opening;
use crate::present::everyone;
use crate::row::Row;

/// A command of the paper that opens values, under its byte.
#[derive(Clone, Copy, Debug, PartialEq)]
pub enum Step {
    Mul = 0x06,
    Mod = 0x07,
    Trunc = 0x08,
    Ltz = 0x09,
    Over = 0x0A,
    Blocks = 0x0B,
    Bitlt = 0x0D,
}

#[derive(Clone, Debug)]
pub struct StepCase {
    pub step: Step,
    pub number: u32,
    pub field: &'static Field,
    pub parties: u32,
    pub threshold: u32,
    pub k: u32,
    pub m: u32,
    pub v: u32,
    /// The two factors of MUL, the bits of BITLT, else the one operand.
    pub operands: Vec<Row>,
    pub masks: Vec<Vec<Row>>,
    pub triples: Vec<Triple>,
}

pub struct Answer {
    pub left: Row,
    pub opened: Vec<Row>,
}

impl StepCase {
    /// With everyone present. None unless the deal has exactly the triples that the step takes.
    pub fn answer(&self) -> Option<Answer> {
        let present = everyone(self.parties as u8);
        let opening = Opening::new(self.field, present, self.threshold as usize);
        let mut work = Work::new(&opening, &self.masks, &self.triples);
        let (first, k, m) = (&self.operands[0], self.k, self.m);
        let left = match self.step {
            Step::Mul => work.multiply(first, &self.operands[1]),
            Step::Mod => work.remainder(first, k, m),
            Step::Trunc => work.floor(first, k, m),
            Step::Ltz => work.sign(first, k),
            Step::Over => work.over(first, k, u64::from(self.v)),
            Step::Blocks => work.blocks(first, k, m),
            Step::Bitlt => work.compare(u64::from(self.v), &self.operands),
        }?;
        (work.triples_left() == 0).then_some(Answer {
            left,
            opened: work.opened,
        })
    }

    /// Ten words, then the rows of the operands, the masks and the triples, n words each.
    pub fn to_bytes(&self) -> Vec<u8> {
        let start = [
            self.step as u32,
            self.number,
            self.parties,
            self.threshold,
            self.k,
            self.m,
            self.v,
            self.operands.len() as u32,
            self.masks.len() as u32,
            self.triples.len() as u32,
        ];
        let triples = self.triples.iter().flat_map(|x| [&x.a, &x.b, &x.c]);
        let rows = self.operands.iter().chain(self.masks.iter().flatten());
        let shares = rows
            .chain(triples)
            .flat_map(|row| row.iter().map(|&share| share as u32));
        start
            .into_iter()
            .chain(shares)
            .flat_map(u32::to_le_bytes)
            .collect()
    }

    /// A line with the arguments and the row left, then a line for each opening.
    pub fn lines(&self) -> Option<String> {
        let answer = self.answer()?;
        let mut lines = format!(
            "{} field {} parties {} threshold {} k {} m {} v {} : left{}\n",
            self.name(),
            self.number,
            self.parties,
            self.threshold,
            self.k,
            self.m,
            self.v,
            list(&answer.left)
        );
        for row in &answer.opened {
            lines += &format!("opened{}\n", list(row));
        }
        Some(lines)
    }

    fn name(&self) -> &'static str {
        match self.step {
            Step::Mul => "MUL",
            Step::Mod => "MOD",
            Step::Trunc => "TRUNC",
            Step::Ltz => "LTZ",
            Step::Over => "OVER",
            Step::Blocks => "BLOCKS",
            Step::Bitlt => "BITLT",
        }
    }
}

fn list(row: &Row) -> String {
    row.iter().map(|share| format!(" {share}")).collect()
}
