//! 21 to 24, before 43 and after commands that finish.

use super::{held, printed, Held};
use crate::replay::dealt::{recorded, Work, SMALL};
use crate::script::command::script_of;
use crate::script::command::Command::{self, *};

pub fn all() -> Vec<Held> {
    let mut all = Vec::from(scripts());
    all.extend(deals());
    all.extend(signs());
    all
}

/// Scripts for party 3 of the paper's run, whose record is not theirs.
fn scripts() -> [Held; 5] {
    let case = || printed().case(3);
    let (d, a, b) = (2, 0, 1);
    let loads = [Load { d: 0 }, Load { d: 1 }];
    let with = |record: &[u32], commands: &[Command]| {
        let script = script_of(commands);
        case().with_record(record).with_script(&script)
    };
    let product = [&loads[..], &[Mul { d, a, b }]].concat();
    let twice = [&product[..], &[Mul { d, a, b }]].concat();
    [
        held(
            "21: REVEAL of an unset register",
            with(
                &[11, 11, 11],
                &[loads[0], Reveal { a: 0 }, loads[1], Reveal { a: 2 }],
            ),
        ),
        held(
            "21 before 43: the first command",
            with(&[], &[Reveal { a: 0 }]),
        ),
        held(
            "22 before 43: LOAD after two",
            with(&[], &[loads[0], loads[1], Load { d: 63 }]),
        ),
        held("24: the second product", with(&printed().record, &twice)),
        held(
            "43 before 24: the first product before the second",
            with(&[5], &twice),
        ),
    ]
}

/// Deals that do not last, with the record of the run up to there.
fn deals() -> [Held; 3] {
    let (d, a, k) = (1, 0, 2);
    let load = Load { d: 0 };
    let work = |commands: &[Command], secrets: &[u32]| Work::new(commands, secrets, &[5]);
    let of = |work: Work, index, triples: usize| {
        let mut draft = work.draft(index, SMALL);
        draft.triples.truncate(triples);
        recorded(&draft).case(2)
    };
    let sign = work(&[load, Ltz { d, a, k }, Ltz { d: 2, a, k }], &[12]);
    let product = work(&[load, Mul { d, a, b: 0 }], &[12]);
    let loads = work(&[load, load], &[3]);
    [
        held("22: no input row left", of(loads, 40, 0)),
        held("23: no mask left", of(sign.clone(), 41, 8)),
        held(
            "24 before 43: a product without a triple",
            of(product, 44, 0).cut(0),
        ),
    ]
}

/// LTZS of two registers, which takes two masks and eight triples.
fn signs() -> [Held; 3] {
    let (d, a, h, k) = (5, 0, 2, 2);
    let commands = [Load { d: 0 }, Load { d: 1 }, Ltzs { d, a, h, k }];
    let work = Work::new(&commands, &[12, 1], &[5, 9]);
    let with = |masks: usize, triples: usize| {
        let mut draft = work.draft(45, SMALL);
        draft.masks.truncate(masks);
        draft.triples.truncate(triples);
        recorded(&draft).case(1)
    };
    let middle = [Load { d: 0 }, Ltzs { d, a, h, k }];
    let unset = Work::new(&middle, &[12], &[5, 9]);
    [
        held(
            "21: the second register of LTZS is unset",
            unset.recorded(46, SMALL).case(1),
        ),
        held("23: LTZS of two on one mask", with(1, 8)),
        held("24: LTZS of two with seven triples", with(2, 7)),
    ]
}
