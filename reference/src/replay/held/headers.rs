//! 1 to 5: each where nothing else is wrong, the last that they let through, and each before the later ones.

use super::{held, printed, Held};
use crate::replay::case::Case;

pub fn all() -> Vec<Held> {
    let mut all = vec![held("END alone", end())];
    all.extend(refused());
    all.extend(parties());
    all.extend(counts());
    all.extend(lengths());
    all.extend(shares());
    all.extend(ordered());
    all
}

/// END alone, for three parties in field 0.
fn end() -> Case {
    Case {
        party: 1,
        head: vec![0, 3, 1, 0, 0, 0, 0, 0, 0, 1, 0, 0],
        part: vec![],
        record: vec![],
    }
}

fn refused() -> [Held; 3] {
    [
        held("1: no byte", end().with_head(&[])),
        held("2: field 4", end().with_byte(0, 4)),
        held("3: eight parties", end().with_byte(1, 8)),
    ]
}

fn parties() -> [Held; 4] {
    let five = || end().with_byte(1, 5).with_byte(2, 2);
    [
        held("3: party 0", end().with_party(0)),
        held("3: party 4 of three", end().with_party(4)),
        held("3: party 256 and 1", end().with_party(257)),
        held("party 5 of five", five().with_party(5)),
    ]
}

/// Counts over their limits. The part is as long as they imply, and its shares are 0.
fn counts() -> [Held; 3] {
    let with = |place, count: u16, shares: usize| {
        let [low, high] = count.to_le_bytes();
        let case = end().with_byte(place, low).with_byte(place + 1, high);
        case.with_part(&vec![0; 4 * shares])
    };
    let longest = |length: u16| {
        let case = with(9, length, 0);
        let script = vec![255; length.into()];
        let head = [&case.head[..11], &script].concat();
        case.with_head(&head)
    };
    [
        held("4: 65 inputs", with(3, 65, 65)),
        held("4: 17 masks", with(5, 17, 68)),
        held("4: a script of 1,025 bytes", longest(1_025)),
    ]
}

fn lengths() -> [Held; 5] {
    let case = printed().case(1);
    let (head, part) = (case.head.clone(), case.part.clone());
    let with_head = |head: &[u8]| case.clone().with_head(head);
    let with_part = |part: &[u8]| case.clone().with_part(part);
    [
        held("4: head of a byte less", with_head(&head[..21])),
        held(
            "4: head of a byte more",
            with_head(&[&head[..], &[0]].concat()),
        ),
        held("4: part of a byte less", with_part(&part[..19])),
        held(
            "4: part of a byte more",
            with_part(&[&part[..], &[0]].concat()),
        ),
        held("4: part of a share less", with_part(&part[..16])),
    ]
}

fn shares() -> [Held; 3] {
    let case = |index, share| printed().case(3).with_share(index, share);
    [
        held("5: the first share is p", case(0, 13)),
        held("5: the last share is p", case(4, 13)),
        held("41: the first share is p less 1", case(0, 12)),
    ]
}

/// Each with all the later ones.
fn ordered() -> [Held; 5] {
    let fifth = printed().case(1).with_share(4, 13).with_byte(11, 255);
    let fourth = fifth.clone().with_byte(4, 1);
    let third = fourth.clone().with_party(4);
    let second = third.clone().with_byte(0, 4);
    let first = second.clone().with_head(&second.head[..10]);
    [
        held("1 before 2: ten bytes in field 4", first),
        held("2 before 3: party 4 of three in field 4", second),
        held("3 before 4: party 4 with 258 inputs", third),
        held("4 before 5: 258 inputs, and a share is p", fourth),
        held("5 before 9: the last share is p", fifth),
    ]
}
