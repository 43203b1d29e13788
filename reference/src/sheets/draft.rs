//! A sheet's parts before they are written as bytes.

use crate::dealer::Dealer;
use crate::row::Row;
use crate::script::command::{script_of, Command};
use crate::steps::Triple;

#[derive(Clone, Debug)]
pub struct Draft {
    /// The field's number.
    pub number: u8,
    pub parties: u8,
    pub threshold: u8,
    pub script: Vec<u8>,
    pub inputs: Vec<Row>,
    pub masks: Vec<Vec<Row>>,
    pub triples: Vec<Triple>,
}

impl Draft {
    /// The commands and END, sharings of the secrets, masks of the numbers, and as many triples
    /// as the commands take.
    pub fn deal(
        dealer: &mut Dealer,
        commands: &[Command],
        secrets: &[u32],
        masks: &[u32],
    ) -> Draft {
        let field = dealer.field;
        let triples = commands
            .iter()
            .map(|command| command.cost(field).triples)
            .sum();
        Draft {
            number: dealer.number as u8,
            parties: dealer.parties.0 as u8,
            threshold: dealer.parties.1 as u8,
            script: script_of(commands),
            inputs: secrets.iter().map(|&value| dealer.sharing(value)).collect(),
            masks: masks.iter().map(|&r| dealer.mask(r)).collect(),
            triples: dealer.triples(triples),
        }
    }

    /// The same with so many masks, their numbers drawn.
    pub fn deal_drawn(
        dealer: &mut Dealer,
        commands: &[Command],
        secrets: &[u32],
        masks: usize,
    ) -> Draft {
        let masks = dealer.generator.list(masks, dealer.field.modulus);
        Draft::deal(dealer, commands, secrets, &masks)
    }

    pub fn to_bytes(&self) -> Vec<u8> {
        let mut bytes = vec![self.number, self.parties, self.threshold];
        for count in [
            self.inputs.len(),
            self.masks.len(),
            self.triples.len(),
            self.script.len(),
        ] {
            bytes.extend((count as u16).to_le_bytes());
        }
        bytes.extend(&self.script);
        for row in self.clone().rows_mut() {
            bytes.extend(row.iter().flat_map(|&share| (share as u32).to_le_bytes()));
        }
        bytes
    }

    /// Every row, in the order of the sheet.
    pub fn rows_mut(&mut self) -> Vec<&mut Row> {
        let inputs = self.inputs.iter_mut();
        let triples = self.triples.iter_mut();
        inputs
            .chain(self.masks.iter_mut().flatten())
            .chain(triples.flat_map(|triple| [&mut triple.a, &mut triple.b, &mut triple.c]))
            .collect()
    }
}
