//! Outputs that are as long as the input, shorter and longer.

use super::Told;
use crate::cases::generator::Generator;
use crate::columns::draft::Draft;
use crate::refusal::{NONE, OUTPUT_SHORT};

pub fn all(generator: &mut Generator) -> Vec<Told> {
    let drafts = [
        Draft::plain(),
        Draft::plain().with_script(3),
        Draft::plain().with_rows(2, 0, 1).with_script(7),
        Draft::new(1, 4, 1).with_rows(0, 1, 0),
        Draft::new(3, 7, 3).with_rows(3, 0, 0).with_script(1),
    ];
    drafts
        .into_iter()
        .flat_map(|draft| lent(draft.drawn(generator)))
        .collect()
}

fn lent(input: Vec<u8>) -> Vec<Told> {
    let length = input.len();
    let short = [0, 1, 10, length / 2, length - 4, length - 1];
    let long = [0, 1, 2, 4, 300].map(|more| length + more);
    let told = |lent, number| (input.clone(), lent, number);
    let short = short.map(|lent| told(lent, OUTPUT_SHORT));
    let long = long.map(|lent| told(lent, NONE));
    short.into_iter().chain(long).collect()
}
