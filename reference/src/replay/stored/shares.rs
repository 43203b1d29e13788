//! Parts that are not the party's: a share changed, another column, another party number; and polynomials that
//! keep the own share.

use super::Told;
use crate::cases::PERMITTED;
use crate::refusal::{NONE, OWN_SHARE};
use crate::replay::dealt::{each_opening, product, Work, SMALL};

pub fn all() -> Vec<Told> {
    let mut all: Vec<Told> = (400..)
        .zip(each_opening())
        .flat_map(|(index, work)| changed(index, &work))
        .collect();
    all.extend(other_columns());
    all.extend(kept());
    all
}

/// Each share of the part changed. An input, a mask's bit, and a and b of a triple are in what the command
/// opens. So is a product that the command works on with; that of its last triple is in the result alone, which
/// REVEAL opens. LTZS has a result for each mask.
fn changed(index: u64, work: &Work) -> Vec<Told> {
    let recorded = work.recorded(index, SMALL);
    let results = work.masks.len().max(1);
    let first_triple = work.secrets.len() + 4 * work.masks.len();
    let shares = recorded.parts[0].len() / 4;
    let of_result = (shares - first_triple) / results;
    let mut all = Vec::new();
    for share in 0..shares {
        let from_first = share.saturating_sub(first_triple) + 1;
        let is_last = share >= first_triple && from_first % of_result == 0;
        let command = work.secrets.len();
        let place = match is_last {
            true => work.places()[command + from_first / of_result],
            false => work.places()[command],
        };
        let case = recorded.case(1 + share % 3).with_other_share(share);
        all.push((case, OWN_SHARE, place));
    }
    all
}

/// In a large field, where two parties' shares are not the same by chance.
fn other_columns() -> Vec<Told> {
    let mut all = Vec::new();
    for (n, t) in PERMITTED {
        let recorded = product().recorded(410, (2, (n, t)));
        let n = n as usize;
        for party in [1, 2, n] {
            let other = 1 + party % n;
            let case = recorded.case(party);
            let part = &recorded.parts[other - 1];
            all.push((case.clone().with_part(part), OWN_SHARE, 4));
            all.push((case.clone().with_party(other as u32), OWN_SHARE, 4));
            // the other party's column, as it is
            let whole = case.with_part(part).with_party(other as u32);
            all.push((whole, NONE, 10));
        }
    }
    all
}

/// Another polynomial through the own share at REVEAL, whose value nobody works on with.
fn kept() -> Vec<Told> {
    let mut all = Vec::new();
    for (n, t) in PERMITTED {
        let recorded = product().recorded(411, (0, (n, t)));
        for party in 1..=n as usize {
            let slope = 1 + party as u64 % 12;
            // slope times (j - party)
            let constant = 13 * slope - slope * party as u64 % 13;
            let case = recorded.case(party).with_added(2, (constant, slope));
            all.push((case, NONE, 10));
        }
    }
    all
}
