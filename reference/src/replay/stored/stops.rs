//! 21 to 24 of every command, with the record and without it; and which of two commands is refused.

use super::Told;
use crate::refusal::{NO_INPUT, NO_MASK, NO_TRIPLES, RECORD_SHORT, UNSET};
use crate::replay::case::Case;
use crate::replay::dealt::{each_opening, product, recorded, Work, SMALL};
use crate::script::command::script_of;
use crate::script::command::Command::*;

pub fn all() -> Vec<Told> {
    let works = (500..).zip(each_opening());
    let mut all: Vec<Told> = works
        .flat_map(|(index, work)| of_command(index, &work))
        .collect();
    all.extend(plain());
    all.extend(second_command());
    all
}

/// The same with a record of the whole run, and with an empty one: 21 to 24 come before 43.
fn with_and_without(case: Case, record: &[u32], number: u32, place: usize) -> [Told; 2] {
    let whole = case.clone().with_record(record);
    [(whole, number, place), (case.cut(0), number, place)]
}

/// Each register that it reads unset, a LOAD, a mask and a triple too few.
fn of_command(index: u64, work: &Work) -> Vec<Told> {
    let whole = work.recorded(index, SMALL);
    let record = &whole.record;
    let draft = work.draft(index, SMALL);
    let loads = work.secrets.len();
    let place = work.places()[loads];
    let mut all = Vec::new();
    for load in 0..loads {
        // its register is one that no command reads
        let case = whole.case(2).with_byte(11 + 2 * load + 1, 40);
        all.extend(with_and_without(case, record, UNSET, place));
    }
    let mut less = draft.clone();
    less.inputs.pop();
    let case = recorded(&less).case(1);
    all.extend(with_and_without(case, record, NO_INPUT, place - 2));
    let mut less = draft.clone();
    less.triples.pop();
    let case = recorded(&less).case(3);
    all.extend(with_and_without(case, record, NO_TRIPLES, place));
    if !draft.masks.is_empty() {
        let mut less = draft;
        less.masks.pop();
        let case = recorded(&less).case(1);
        all.extend(with_and_without(case, record, NO_MASK, place));
        // 23 before 24
        less.triples.clear();
        let case = recorded(&less).case(2);
        all.extend(with_and_without(case, record, NO_MASK, place));
    }
    all
}

/// Commands that open nothing, and REVEAL, on unset registers.
fn plain() -> Vec<Told> {
    let (d, a, b, v) = (0, 0, 1, 2);
    let load = Load { d: 0 };
    let mut all = Vec::new();
    for field in 0..4 {
        for (commands, number, place) in [
            (vec![load, Add { d, a, b }], UNSET, 2),
            (vec![load, Sub { d, a: 1, b: 0 }], UNSET, 2),
            (vec![Scale { d, a, v }], UNSET, 0),
            (vec![load, Reveal { a: 1 }], UNSET, 2),
            (vec![load, load, Reveal { a: 9 }], NO_INPUT, 2),
            (vec![load, Bitlt { d, b: 0, w: 2, v }], UNSET, 2),
        ] {
            let work = Work::new(&commands, &[7], &[]);
            let case = work.recorded(510, (field, (3, 1))).case(2);
            all.push((case, number, place));
        }
    }
    all
}

/// After a product and its REVEAL, which finish, or are refused for their record first.
fn second_command() -> Vec<Told> {
    let (d, a, b, k) = (3, 0, 1, 2);
    let mut all = Vec::new();
    for (second, number) in [
        (Reveal { a: 4 }, UNSET),
        (Load { d }, NO_INPUT),
        (Ltz { d, a, k }, NO_MASK),
        (Mul { d, a, b }, NO_TRIPLES),
    ] {
        let product = product();
        let whole = product.recorded(511, SMALL);
        let commands = [&product.commands[..], &[second]].concat();
        for case in whole.cases() {
            let case = case.with_script(&script_of(&commands));
            all.push((case.clone().cut(8), RECORD_SHORT, 8));
            all.push((case.clone().cut(5), RECORD_SHORT, 4));
            all.push((case, number, 10));
        }
    }
    all
}
