//! A run over the secrets alone.

use reference::field::Field;
use reference::row::Row;
use reference::run_case::Outcome;
use reference::script::command::Command;
use reference::script::Line;
use reference::sheet::Sheet;
use reference::weights::Weights;

/// Registers as numbers modulo p, with no sharing, mask or triple.
pub struct Plain<'a> {
    field: &'static Field,
    weights: &'a Weights,
    inputs: std::slice::Iter<'a, Row>,
    pub registers: [Option<u64>; 64],
    pub revealed: Vec<u32>,
}

impl<'a> Plain<'a> {
    pub fn new(sheet: &'a Sheet) -> Plain<'a> {
        Plain {
            field: sheet.field,
            weights: &sheet.weights,
            inputs: sheet.inputs.iter(),
            registers: [None; 64],
            revealed: Vec::new(),
        }
    }

    /// A register that is set.
    pub fn at(&self, register: u8) -> u64 {
        self.registers[usize::from(register)].unwrap()
    }

    pub fn perform(&mut self, command: &Command) {
        let field = self.field;
        let at = |register: u8| self.at(register);
        let left = match *command {
            Command::End => return,
            Command::Reveal { a } => return self.revealed.push(at(a) as u32),
            Command::Ltzs { d, a, h, k } => return self.signs(d, a, h, k),
            Command::Load { .. } => self.weights.secret(self.inputs.next().unwrap()),
            Command::Const { v, .. } => u64::from(v),
            Command::Add { a, b, .. } => field.add(at(a), at(b)),
            Command::Sub { a, b, .. } => field.subtract(at(a), at(b)),
            Command::Scale { a, v, .. } => field.multiply(at(a), v.into()),
            Command::Mul { a, b, .. } => field.multiply(at(a), at(b)),
            Command::Mod { a, k, m, .. } => remainder(field, at(a), k, m),
            Command::Trunc { a, k, m, .. } => floor(field, at(a), k, m),
            Command::Ltz { a, k, .. } => sign(field, at(a), k),
            Command::Over { a, k, v, .. } => sign(field, field.subtract(v.into(), at(a)), k),
            Command::Blocks { a, k, m, .. } => blocks(field, at(a), k, m),
            Command::Bitlt { b, w, v, .. } => {
                let bits: Vec<u64> = (b..b + w).map(at).collect();
                comparison(field, v, &bits)
            }
        };
        for register in command.writes() {
            self.set(register, left);
        }
    }

    fn set(&mut self, register: u8, value: u64) {
        self.registers[usize::from(register)] = Some(value);
    }

    /// Register by register: no sign is read again, since the stretches are equal or share no register.
    fn signs(&mut self, d: u8, a: u8, h: u8, k: u8) {
        for i in 0..h {
            let sign = sign(self.field, self.at(a + i), k);
            self.set(d + i, sign);
        }
    }
}

fn remainder(field: &Field, a: u64, k: u8, m: u8) -> u64 {
    field.add(a, 1 << (k - 1)) % (1 << m)
}

/// The exact floor where a is in the k-bit range, else what the formula says.
fn floor(field: &Field, a: u64, k: u8, m: u8) -> u64 {
    let read = read_back(field, a);
    if is_in_range(read, k) {
        return coded(field, read.div_euclid(1 << m));
    }
    floor_formula(field, a, k, m)
}

fn floor_formula(field: &Field, a: u64, k: u8, m: u8) -> u64 {
    let remainder = remainder(field, a, k, m) % u64::from(field.modulus);
    field.multiply(field.subtract(a, remainder), field.inverse(1 << m))
}

/// Where a + 2^m - 1, not reduced by p, is in the k-bit range, its exact floor: for a of 0 or more the
/// begun blocks. Else what the formula says of the reduced sum, even if that reads back in the range.
fn blocks(field: &Field, a: u64, k: u8, m: u8) -> u64 {
    let (read, added) = (read_back(field, a), (1 << m) - 1);
    let sum = read + added;
    if !is_in_range(sum, k) {
        return floor_formula(field, field.add(a, added as u64), k, m);
    }
    let blocks = sum.div_euclid(1 << m);
    if let Ok(seconds) = u64::try_from(read) {
        assert_eq!(seconds.div_ceil(1 << m) as i64, blocks);
    }
    coded(field, blocks)
}

pub fn read_back(field: &Field, value: u64) -> i64 {
    let (value, p) = (value as i64, i64::from(field.modulus));
    if 2 * value < p {
        value
    } else {
        value - p
    }
}

fn coded(field: &Field, number: i64) -> u64 {
    number.rem_euclid(field.modulus.into()) as u64
}

pub fn is_in_range(number: i64, k: u8) -> bool {
    let half = 1 << (k - 1);
    (-half..half).contains(&number)
}

fn sign(field: &Field, a: u64, k: u8) -> u64 {
    field.subtract(0, floor(field, a, k, k - 1))
}

/// Whether v is below the number in bits; for registers that are no bits, the rule.
fn comparison(field: &Field, v: u32, bits: &[u64]) -> u64 {
    if bits.iter().all(|&bit| bit <= 1) {
        let spelled: u64 = (0..).zip(bits).map(|(i, bit)| bit << i).sum();
        return u64::from(u64::from(v) < spelled);
    }
    let mut lt = if v & 1 == 0 { bits[0] } else { 0 };
    for (i, &bit) in bits.iter().enumerate().skip(1) {
        let q = field.multiply(bit, lt);
        lt = if v >> i & 1 == 0 {
            field.subtract(field.add(bit, lt), q)
        } else {
            q
        };
    }
    lt
}

/// The commands that finished.
pub fn finished<'a>(lines: &'a [Line], outcome: &Outcome) -> impl Iterator<Item = &'a Command> {
    let place = outcome.answer.place;
    let before = lines.iter().take_while(move |line| line.place < place);
    before.map(|line| &line.command)
}
