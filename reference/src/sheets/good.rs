//! Sheets that the input is not refused for.

use super::draft::Draft;
use super::drawer::Drawer;
use crate::cases::generator::Generator;
use crate::cases::PERMITTED;
use crate::dealer::Dealer;
use crate::field::{Field, FIELDS};
use crate::row::Row;
use crate::script::command::{script_of, Command};
use crate::sheet::header::{MOST_INPUTS, MOST_MASKS, MOST_TRIPLES};

pub struct Good {
    pub draft: Draft,
    pub commands: Vec<Command>,
}

impl Good {
    /// Small fields more often than large ones, whose masks take many triples.
    pub fn draw(generator: &mut Generator) -> Good {
        let number = generator.pick(&[0, 0, 0, 0, 1, 1, 2, 3]);
        let parties = generator.pick(&PERMITTED);
        let drawer = Drawer::draw(generator, &FIELDS[number as usize]);
        let (commands, mut secrets, spent) = (drawer.commands, drawer.secrets, drawer.spent);
        let mut dealer = Dealer::new(generator, number, parties);
        let inputs = supply(dealer.generator, spent.inputs, MOST_INPUTS);
        let masks = supply(dealer.generator, spent.masks, MOST_MASKS);
        let triples = supply(dealer.generator, spent.triples, MOST_TRIPLES);
        secrets.resize(inputs, 1);
        Good {
            draft: Draft {
                number: number as u8,
                parties: parties.0 as u8,
                threshold: parties.1 as u8,
                script: script_of(&commands),
                inputs: secrets.iter().map(|&value| dealer.sharing(value)).collect(),
                masks: (0..masks).map(|_| draw_mask(&mut dealer)).collect(),
                triples: dealer.triples(triples),
            },
            commands,
        }
    }

    fn field(&self) -> &'static Field {
        &FIELDS[usize::from(self.draft.number)]
    }

    /// The openings of so many commands from the start, if all of them finish.
    pub fn openings_before(&self, commands: usize) -> usize {
        let costs = self.commands[..commands]
            .iter()
            .map(|command| command.cost(self.field()));
        costs.map(|cost| cost.openings()).sum()
    }

    pub fn reveals(&self) -> usize {
        let costs = self
            .commands
            .iter()
            .map(|command| command.cost(self.field()));
        costs.map(|cost| cost.revealed).sum()
    }
}

fn draw_mask(dealer: &mut Dealer) -> Vec<Row> {
    let p = dealer.field.modulus;
    let any = dealer.random_value();
    let r = dealer.generator.pick(&[0, p - 1, 5, any, any, any]);
    dealer.mask(r)
}

/// Mostly what is needed, else a little more or less.
fn supply(generator: &mut Generator, needed: usize, limit: usize) -> usize {
    let count = match generator.below(20) {
        0..=1 => needed + 1 + generator.below(3) as usize,
        2 => needed.saturating_sub(1),
        3 => generator.below(needed as u32 + 1) as usize,
        _ => needed,
    };
    count.min(limit)
}
