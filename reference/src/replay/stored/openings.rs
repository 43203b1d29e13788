//! 43, 42 and 41 at every opening of MUL, BITLT, MOD, LTZS and REVEAL, and at every third of the commands that
//! rest on MOD; the numbers in their order, and the own share absent.

use super::Told;
use crate::refusal::{NONE, OPENING, OWN_SHARE, RECORD_SHORT};
use crate::replay::case::Case;
use crate::replay::dealt::{each_opening, product, Work, SMALL};
use crate::script::command::Command;

const N: usize = 3;
const P: u32 = 13;

pub fn all() -> Vec<Told> {
    let works = (100..).zip(each_opening());
    let mut all: Vec<Told> = works
        .flat_map(|(index, work)| at_each(index, &work))
        .collect();
    all.extend(fields());
    all
}

/// In every field, at the second opening of a product: p, the numbers above it, and others below it. A share with p
/// added is above p too, also where no more than t + 1 are present, so that the polynomial does not tell.
fn fields() -> Vec<Told> {
    let mut all = Vec::new();
    for field in 0..4 {
        let recorded = product().recorded(110, (field, (3, 1)));
        for place in N..2 * N {
            let case = recorded.case(1 + place % N);
            let p = case.modulus();
            let with = |number| case.clone().with_number(place, number);
            all.push((with(p), NONE, 10));
            all.push((with(p + 1), OPENING, 4));
            all.push((with(u32::MAX), OPENING, 4));
            let more = with(p + case.record[place].max(1));
            all.push((more.clone(), OPENING, 4));
            let others = 0b111 & !(1 << ((place + 1) % N));
            all.push((more.with_present(1, others), OPENING, 4));
            all.push((case.clone().with_damaged(1, 1 + place % N), OPENING, 4));
            let other = case.with_added(1, (u64::from(p) - 1, 0));
            all.push((other, OWN_SHARE, 4));
        }
    }
    all
}

fn at_each(index: u64, work: &Work) -> Vec<Told> {
    let recorded = work.recorded(index, SMALL);
    let places = work.opening_places(SMALL);
    let mut all = Vec::new();
    for (opening, &place) in places.iter().enumerate().step_by(step(work)) {
        let case = recorded.case(1 + opening % N);
        all.extend(short(&case, opening, place));
        all.extend(no_polynomial(&case, opening, place));
        all.extend(own_share(&case, opening, place));
        let others = 0b111 & !(1 << (opening % N));
        let absent = case.with_present(opening, others);
        all.push((absent.clone(), NONE, work.end()));
        // of the two others one is left
        let alone = absent.with_present(opening, 1 << ((opening + 1) % N));
        all.push((alone, OPENING, place));
    }
    all
}

/// Which openings are looked at: those of TRUNC, LTZ, OVER and BLOCKS are MOD's.
fn step(work: &Work) -> usize {
    let rests_on_mod = |command: &Command| {
        use Command::*;
        matches!(
            command,
            Trunc { .. } | Ltz { .. } | Over { .. } | Blocks { .. }
        )
    };
    match work.commands.iter().any(rests_on_mod) {
        true => 3,
        false => 1,
    }
}

/// Cut before each number of the opening; the last time with a number above p before the cut.
fn short(case: &Case, opening: usize, place: usize) -> Vec<Told> {
    let first = N * opening;
    let cut = |length| (case.clone().cut(length), RECORD_SHORT, place);
    let mut all: Vec<Told> = (first..first + N).map(cut).collect();
    let above = case.clone().cut(first + 2).with_number(first + 1, P + 1);
    all.push((above, RECORD_SHORT, place));
    all
}

/// A share changed, the own one too; one with p added twice, which is the same modulo p; and a number above p
/// where the own share differs.
fn no_polynomial(case: &Case, opening: usize, place: usize) -> Vec<Told> {
    let number = N * opening + (opening + 2) % N;
    let other = case.clone().with_added(opening, (1, 0));
    [
        case.clone().with_damaged(opening, 1 + (opening + 1) % N),
        case.clone().with_damaged(opening, 1 + opening % N),
        case.clone()
            .with_number(number, 2 * P + case.record[number]),
        other.with_number(number, u32::MAX),
    ]
    .map(|case| (case, OPENING, place))
    .into()
}

/// Another polynomial in the opening, and something wrong in the next one too.
fn own_share(case: &Case, opening: usize, place: usize) -> Vec<Told> {
    let amount = 1 + opening as u64 % 12;
    let other = case.clone().with_added(opening, (amount, 0));
    let mut all = vec![(other.clone(), OWN_SHARE, place)];
    if opening + 1 < case.openings() {
        let later = other.with_damaged(opening + 1, 2);
        all.push((later, OWN_SHARE, place));
    }
    all
}
