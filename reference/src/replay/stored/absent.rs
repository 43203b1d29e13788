//! Absent shares: sets just large enough and one too small, other sets in other openings, and damaged shares
//! wherever they stand.

use super::Told;
use crate::cases::generator::Generator;
use crate::cases::PERMITTED;
use crate::present::{everyone, is_present, permitted};
use crate::refusal::{NONE, OPENING, OWN_SHARE};
use crate::replay::dealt::{product, Work, SMALL};
use crate::script::command::Command::*;

const SEED: u64 = 0x5EED_0013;

pub fn all() -> Vec<Told> {
    let mut all = too_few();
    all.extend(all_but_one());
    all.extend(mixed());
    all.extend(damaged());
    all.extend(own_absent());
    all
}

fn sets_of(n: u32, size: u32) -> impl Iterator<Item = u8> {
    (0..1u8 << n).filter(move |set| set.count_ones() == size)
}

/// Nobody, and t parties: the lowest, the highest and one more. In the first, the second or the last opening.
fn too_few() -> Vec<Told> {
    let mut all = Vec::new();
    for (n, t) in PERMITTED {
        let recorded = product().recorded(300, (0, (n, t)));
        let sets: Vec<u8> = sets_of(n, t).collect();
        let chosen = [0, sets[0], sets[sets.len() / 2], sets[sets.len() - 1]];
        for (index, set) in chosen.into_iter().enumerate() {
            let opening = index % 3;
            let place = if opening < 2 { 4 } else { 8 };
            let case = recorded.case(1 + index % n as usize);
            all.push((case.with_present(opening, set), OPENING, place));
        }
    }
    all
}

/// Everyone but one, who replays, and whom another replays without.
fn all_but_one() -> Vec<Told> {
    let mut all = Vec::new();
    for (n, t) in PERMITTED {
        let recorded = product().recorded(301, (1, (n, t)));
        for absent in 1..=n as usize {
            let set = everyone(n as u8) & !(1 << (absent - 1));
            let other = 1 + absent % n as usize;
            for party in [absent, other] {
                let case = recorded.case(party).with_sets(&[set]);
                all.push((case, NONE, 10));
            }
        }
    }
    all
}

/// A drawn set for each opening of a product, and of a sign.
fn mixed() -> Vec<Told> {
    let mut generator = Generator::new(SEED);
    let (d, a, k) = (1, 0, 2);
    let sign = Work::new(&[Load { d: 0 }, Ltz { d, a, k }], &[12], &[9]);
    let mut all = Vec::new();
    for (n, t) in PERMITTED {
        let permitted = permitted(n as usize, t as usize);
        for (work, count) in [(product(), 4), (sign.clone(), 2)] {
            let recorded = work.recorded(302, (0, (n, t)));
            for _ in 0..count {
                let sets: Vec<u8> = (0..9).map(|_| generator.pick(&permitted)).collect();
                let party = 1 + generator.below(n) as usize;
                let case = recorded.case(party).with_sets(&sets);
                all.push((case, NONE, work.end()));
            }
        }
    }
    all
}

/// Each share changed, with everyone present and with t + 2: the polynomial goes through the lowest t + 1, and
/// the others are compared with it.
fn damaged() -> Vec<Told> {
    let mut all = Vec::new();
    for (n, t) in PERMITTED {
        let recorded = product().recorded(303, (0, (n, t)));
        let set = sets_of(n, t + 2).last();
        let set = set.expect("t + 2 is at most n");
        for party in 1..=n as usize {
            let replaying = 1 + party % n as usize;
            let case = recorded.case(replaying);
            all.push((case.clone().with_damaged(0, party), OPENING, 4));
            all.push((case.clone().with_damaged(2, party), OPENING, 8));
            if is_present(set, party) {
                let case = case.with_present(1, set).with_damaged(1, party);
                all.push((case, OPENING, 4));
            }
        }
    }
    all
}

/// The own share is absent: another polynomial is not seen in that opening, and a damaged part in none. Where
/// it is present at REVEAL, another input share is seen there.
fn own_absent() -> Vec<Told> {
    let mut all = Vec::new();
    for party in 1..=3 {
        let others = 0b111 & !(1 << (party - 1));
        let case = product().recorded(304, SMALL).case(party);
        let absent = case.clone().with_sets(&[others]);
        for opening in 0..3 {
            let other = absent.clone().with_added(opening, (5, 3));
            all.push((other, NONE, 10));
        }
        for share in 0..5 {
            let damaged = absent.clone().with_other_share(share);
            all.push((damaged, NONE, 10));
        }
        // the share of c is in the result alone
        let product = case.with_present(0, others).with_present(1, others);
        all.push((product.with_other_share(4), OWN_SHARE, 8));
    }
    all
}
