//! 1 to 4 where nothing else is wrong, the headers that they let through, and each where the later ones
//! apply too.

use super::Told;
use crate::cases::PERMITTED;
use crate::forecast::draft::Draft;
use crate::refusal::{FIELD, HEADER, LENGTH, NONE, PARTIES};

/// LOAD 0, REVEAL 0 and END, with an input row.
fn some(field: u8) -> Draft {
    Draft::new(field, &[1, 0, 12, 0, 0]).with_counts([1, 0, 0])
}

fn at_0(draft: Draft, number: u32) -> Told {
    (draft.to_bytes(), number, 0)
}

pub fn alone() -> Vec<Told> {
    let good = some(2).to_bytes();
    let mut all: Vec<Told> = (0..=10)
        .map(|length| (good[..length].to_vec(), HEADER, 0))
        .collect();
    for field in [4, 5, 16, 17, 18, 19, 128, 255] {
        all.push(at_0(some(field), FIELD));
    }
    for (n, t) in OUTSIDE {
        all.push(at_0(some(2).with_parties(n, t), PARTIES));
    }
    for (field, (n, t)) in (0..4).flat_map(|field| PERMITTED.map(|parties| (field, parties))) {
        let draft = some(field).with_parties(n as u8, t as u8);
        all.push((draft.to_bytes(), NONE, 4));
    }
    all.extend(limits());
    all.extend(lengths(&good));
    all
}

/// n and t of which one is outside its range, or both.
const OUTSIDE: [(u8, u8); 16] = [
    (0, 0),
    (1, 0),
    (2, 0),
    (2, 1),
    (8, 1),
    (8, 3),
    (255, 1),
    (255, 127),
    (3, 0),
    (7, 0),
    (3, 2),
    (4, 2),
    (5, 3),
    (6, 3),
    (7, 4),
    (7, 255),
];

/// Each count at its limit, one over it, and with a high byte alone. All at their limits.
fn limits() -> Vec<Told> {
    let end = || Draft::new(0, &[0]);
    let mut all = vec![at_0(end().with_counts([64, 16, 512]), NONE)];
    for (kind, limit) in [64, 16, 512].into_iter().enumerate() {
        let with = |count, number| {
            let mut draft = end();
            draft.counts[kind] = count;
            at_0(draft, number)
        };
        all.extend([with(limit, NONE), with(limit - 1, NONE)]);
        let over = [limit + 1, limit + 2, limit + 256, 1024, 0x8000, u16::MAX];
        all.extend(over.map(|count| with(count, LENGTH)));
    }
    all.extend([256, 257].map(|count| at_0(end().with_counts([0, 0, count]), NONE)));
    all.push(at_0(end().with_counts([256, 0, 0]), LENGTH));
    all.push(at_0(end().with_counts([0, 256, 0]), LENGTH));
    all
}

/// Bytes too few, down to the header, and too many. A header that names one script byte more or less than
/// there are, and one that names 256 where there are none.
fn lengths(good: &[u8]) -> Vec<Told> {
    let mut all: Vec<Told> = (11..good.len())
        .map(|length| (good[..length].to_vec(), LENGTH, 0))
        .collect();
    for more in [1, 4, 12, 13, 64] {
        all.push(([good, &vec![0; more]].concat(), LENGTH, 0));
    }
    for named in [0, 4, 6, 255] {
        let mut head = good.to_vec();
        head[9] = named;
        all.push((head, LENGTH, 0));
    }
    let mut header = Draft::new(0, &[]).to_bytes();
    header[10] = 1;
    all.push((header, LENGTH, 0));
    all
}

/// Two at a time, and all that follow: 65 inputs, no END, a command over the last, and a register that is
/// unset.
pub fn in_order() -> Vec<Told> {
    let wrong = |field, n, t| {
        let draft = Draft::new(field, &[12, 0, 15]);
        draft.with_parties(n, t).with_counts([65, 17, 513])
    };
    let cut = |draft: Draft| draft.to_bytes()[..10].to_vec();
    let mut all = vec![
        (cut(wrong(4, 8, 0)), HEADER, 0),
        (cut(wrong(0, 8, 0)), HEADER, 0),
        (cut(wrong(0, 3, 1)), HEADER, 0),
        (vec![255], HEADER, 0),
        at_0(wrong(4, 8, 0), FIELD),
        at_0(wrong(255, 3, 1), FIELD),
        at_0(wrong(0, 8, 0), PARTIES),
        at_0(wrong(3, 7, 4), PARTIES),
        at_0(wrong(3, 7, 3), LENGTH),
        at_0(wrong(0, 3, 1), LENGTH),
    ];
    for (draft, number) in [
        (some(4), FIELD),
        (some(1).with_parties(8, 1), PARTIES),
        (some(1).with_parties(4, 2), PARTIES),
    ] {
        let head = draft.to_bytes();
        all.push((head[..head.len() - 1].to_vec(), number, 0));
        all.push(([head.as_slice(), &[0]].concat(), number, 0));
    }
    all.extend(length_first());
    all
}

/// 4 before each of 9, 10, 11, 21, 22, 23 and 24: one script byte too few, too many, or 65 inputs. The last
/// byte is left out or repeated.
fn length_first() -> Vec<Told> {
    let scripts: [&[u8]; 7] = [
        &[15, 0],
        &[0, 0],
        &[1, 64, 0],
        &[12, 0, 0],
        &[1, 0, 1, 0, 0],
        &[2, 0, 1, 0, 0, 0, 9, 0, 0, 2, 0],
        &[2, 0, 1, 0, 0, 0, 6, 0, 0, 0, 0],
    ];
    let wrong = |script: &[u8]| {
        let draft = Draft::new(1, script).with_counts([1, 0, 0]);
        let head = draft.to_bytes();
        let shorter = head[..head.len() - 1].to_vec();
        let longer = [&head[..], &head[head.len() - 1..]].concat();
        let over = draft.with_counts([65, 0, 0]).to_bytes();
        [shorter, longer, over].map(|head| (head, LENGTH, 0))
    };
    scripts.into_iter().flat_map(wrong).collect()
}
