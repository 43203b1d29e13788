//! Random scripts with operands in range, mostly of registers that are set.

use super::{exactly_charged, highest_of};
use crate::cases::generator::Generator;
use crate::field::Field;
use crate::script::command::{Command, Cost};
use crate::sheet::header::{LONGEST_SCRIPT, MOST_INPUTS, MOST_MASKS, MOST_TRIPLES};

/// The largest h of LTZS.
const MOST_SIGNS: u32 = 16;

pub struct Drawer<'a> {
    generator: &'a mut Generator,
    field: &'static Field,
    pub commands: Vec<Command>,
    /// The secrets of the input rows that the script loads.
    pub secrets: Vec<u32>,
    pub spent: Cost,
    set: [bool; 64],
    /// The script's bytes, END's too.
    length: usize,
}

impl<'a> Drawer<'a> {
    pub fn draw(generator: &'a mut Generator, field: &'static Field) -> Drawer<'a> {
        let mut drawer = Drawer {
            generator,
            field,
            commands: Vec::new(),
            secrets: Vec::new(),
            spent: Cost::default(),
            set: [false; 64],
            length: 1,
        };
        let loads = drawer.generator.pick(&[0, 1, 1, 2, 2, 2, 3, 3]);
        for _ in 0..loads {
            drawer.load();
        }
        if drawer.generator.below(8) == 0 {
            drawer.bits();
        }
        if drawer.generator.below(8) == 0 {
            drawer.bank();
        }
        let longest = drawer.generator.pick(&[4, 4, 8, 8, 16, 60]);
        for _ in 0..=drawer.generator.below(longest) {
            drawer.any();
        }
        drawer
    }

    /// Adds the command unless a limit of the sheet forbids it.
    fn push(&mut self, command: Command) -> bool {
        let cost = command.cost(self.field);
        let spent = Cost {
            inputs: self.spent.inputs + cost.inputs,
            masks: self.spent.masks + cost.masks,
            triples: self.spent.triples + cost.triples,
            revealed: self.spent.revealed + cost.revealed,
        };
        let length = self.length + command.to_bytes().len();
        let fits = spent.inputs <= MOST_INPUTS
            && spent.masks <= MOST_MASKS
            && spent.triples <= MOST_TRIPLES
            && length <= LONGEST_SCRIPT;
        if fits {
            for register in command.writes() {
                self.set[usize::from(register)] = true;
            }
            self.spent = spent;
            self.length = length;
            self.commands.push(command);
        }
        fits
    }

    fn load(&mut self) {
        let d = self.register();
        let value = self.value();
        self.load_value(d, value);
    }

    fn load_value(&mut self, d: u8, value: u32) {
        if self.push(Command::Load { d }) {
            self.secrets.push(value);
        }
    }

    /// Bits in a row of registers, and a comparison with them.
    fn bits(&mut self) {
        let any = 1 + self.generator.below(31) as u8;
        let w = self.generator.pick(&[1, 2, 5, 31, any]);
        let any = self.generator.below(65 - u32::from(w)) as u8;
        let b = self.generator.pick(&[0, 64 - w, any]);
        for register in b..b + w {
            let bit = self.generator.below(2);
            if self.generator.below(4) == 0 {
                self.push(Command::Const {
                    d: register,
                    v: bit,
                });
            } else {
                self.load_value(register, bit);
            }
        }
        let v = self.bound(w);
        let d = self.register();
        self.push(Command::Bitlt { d, b, w, v });
    }

    fn any(&mut self) {
        let (d, a, b) = (self.register(), self.read(), self.read());
        let k = self.k();
        let m = self.m(k);
        let v = self.value();
        let command = match self.generator.below(17) {
            0..=1 => return self.load(),
            2 => Command::Const { d, v },
            3 => Command::Add { d, a, b },
            4 => Command::Sub { d, a, b },
            5 => Command::Scale { d, a, v },
            6..=7 => Command::Mul { d, a, b },
            8 => Command::Mod { d, a, k, m },
            9 => Command::Trunc { d, a, k, m },
            10 => Command::Ltz { d, a, k },
            11 => Command::Over { d, a, k, v },
            12 => return self.blocks(d, a, k, m),
            13 => self.comparison(d, b),
            14 => return self.signs(a),
            _ => Command::Reveal { a },
        };
        self.push(command);
    }

    /// Half of them of a number that is loaded for it: an end of what is exact, its neighbour outside,
    /// or the field's highest, which modulo p is also one below the field's lowest.
    fn blocks(&mut self, d: u8, a: u8, k: u8, m: u8) {
        if self.generator.below(2) == 0 {
            let (lowest, highest) = exactly_charged(self.field, k, m);
            let of_field = highest_of(self.field);
            let numbers = [lowest - 1, lowest, highest, highest + 1, of_field];
            let number = self.generator.pick(&numbers);
            let value = number.rem_euclid(self.field.modulus.into());
            self.load_value(a, value as u32);
        }
        self.push(Command::Blocks { d, a, k, m });
    }

    /// Mostly over registers that are all set.
    fn comparison(&mut self, d: u8, b: u8) -> Command {
        let w = self.count_from(b, 31);
        let v = self.bound(w);
        Command::Bitlt { d, b, w, v }
    }

    /// How many registers to read from the first on, at most so many: mostly those that are set.
    fn count_from(&mut self, first: u8, most: usize) -> u8 {
        let registers = &self.set[usize::from(first)..];
        let set = registers.iter().take_while(|&&set| set).count();
        let longest = if self.generator.below(16) == 0 {
            registers.len()
        } else {
            set
        };
        let longest = longest.clamp(1, most) as u8;
        let any = 1 + self.generator.below(u32::from(longest)) as u8;
        self.generator.pick(&[1, any, longest, longest])
    }

    /// Inputs in a row of registers, and LTZS of them.
    fn bank(&mut self) {
        let any = 1 + self.generator.below(MOST_SIGNS) as u8;
        let h = self.generator.pick(&[1, 2, 16, any, any, any]);
        let any = self.generator.below(65 - u32::from(h)) as u8;
        let a = self.generator.pick(&[0, 64 - h, any]);
        for register in a..a + h {
            let value = self.value();
            self.load_value(register, value);
        }
        self.signs_of(a, h);
    }

    /// Mostly over registers that are all set.
    fn signs(&mut self, a: u8) {
        let h = self.count_from(a, MOST_SIGNS as usize);
        self.signs_of(a, h);
    }

    /// LTZS into the same registers, into those just before or after them, or into any others. The smallest
    /// k where a drawn one takes more than there can be.
    fn signs_of(&mut self, a: u8, h: u8) {
        let k = self.k();
        let into = |d, k| Command::Ltzs { d, a, h, k };
        let is_good = |&d: &u8| into(d, k).is_in_range(self.field);
        let all: Vec<u8> = (0..64).filter(is_good).collect();
        let is_near = |d: &u8| [0, h].contains(&d.abs_diff(a));
        let near: Vec<u8> = all.iter().copied().filter(is_near).collect();
        let choices = self.generator.pick(&[&all, &near, &near]);
        let d = self.generator.pick(choices);
        if !self.push(into(d, k)) {
            self.push(into(d, 2));
        }
    }

    /// Below 2^w, often at the ends.
    fn bound(&mut self, w: u8) -> u32 {
        let any = self.generator.below(1 << w);
        self.generator.pick(&[0, (1 << w) - 1, any, any])
    }

    fn register(&mut self) -> u8 {
        let any = self.generator.below(64) as u8;
        self.generator.pick(&[0, 1, 2, 3, 62, 63, any, any])
    }

    /// Mostly a register that is set, if there is one.
    fn read(&mut self) -> u8 {
        let set: Vec<u8> = (0..64).filter(|&r| self.set[usize::from(r)]).collect();
        if set.is_empty() || self.generator.below(64) == 0 {
            self.register()
        } else {
            self.generator.pick(&set)
        }
    }

    fn k(&mut self) -> u8 {
        let any = 2 + self.generator.below(self.field.largest_k - 1) as u8;
        self.generator
            .pick(&[2, self.field.largest_k as u8, any, any])
    }

    fn m(&mut self, k: u8) -> u8 {
        let any = 1 + self.generator.below(u32::from(k) - 1) as u8;
        self.generator.pick(&[1, k - 1, any])
    }

    /// A field value, often an end of a k-bit range or its neighbour outside.
    fn value(&mut self) -> u32 {
        let p = self.field.modulus;
        let half = 1 << (self.k() - 1);
        let any = self.generator.below(p);
        let ends = [half - 1, half, p - half, p - half - 1];
        match self.generator.below(8) {
            0..=2 => self.generator.pick(&ends),
            3 => self.generator.pick(&[0, 1, 2, p - 1, p / 2, p / 2 + 1]),
            4 => self.generator.below(2),
            _ => any,
        }
    }
}
