//! Calls of the entries that hold the model's definitions: crate model computes each. Every number alone, against the next one in the
//! order, and at its last good value.

pub mod sums;

use crate::case::{Case, RecoverCase, ShareCase};

/// What every number of a lent list is before the call.
const FILLING: u32 = 99;

/// A call, and what it is for, which starts with the number that the paper says, and with none where that is 0.
pub type Held = (&'static str, Case);

pub fn all() -> Vec<Held> {
    let mut all = of_the_paper();
    all.extend(sums::all());
    all
}

/// Without the sums, which a request asked for.
pub fn of_the_paper() -> Vec<Held> {
    let mut all = shares();
    all.extend(recoveries());
    all.extend(codings());
    all.extend(readings());
    all
}

fn share(
    (field, parties, threshold): (u32, u32, u32),
    secret: u32,
    coefficients: &[u32],
    lent: usize,
) -> Case {
    Case::Share(ShareCase {
        field,
        parties,
        threshold,
        secret,
        coefficients: coefficients.to_vec(),
        lent: vec![FILLING; lent],
    })
}

fn recover((field, parties, threshold): (u32, u32, u32), row: &[u32], lent: usize) -> Case {
    Case::Recover(RecoverCase {
        field,
        parties,
        threshold,
        row: row.to_vec(),
        lent: vec![FILLING; lent],
    })
}

fn shares() -> Vec<Held> {
    let small = (0, 3, 1);
    vec![
        ("share 5 + 2x", share(small, 5, &[2], 3)),
        (
            "p - 1 is a secret and a coefficient",
            share(small, 12, &[12], 3),
        ),
        (
            "the first power's coefficient first",
            share((0, 5, 2), 1, &[2, 3], 5),
        ),
        ("field 1, threshold 3", share((1, 7, 3), 250, &[1, 2, 3], 7)),
        (
            "field 2, threshold 2",
            share((2, 6, 2), 65_520, &[700, 65_520], 6),
        ),
        (
            "field 3, threshold 1",
            share((3, 4, 1), 2_147_483_646, &[2_147_483_646], 4),
        ),
        ("2: field 4", share((4, 3, 1), 5, &[2], 3)),
        ("2 before 3", share((4, 8, 1), 5, &[2], 8)),
        ("3: two parties", share((0, 2, 1), 5, &[2], 2)),
        ("3: eight parties", share((0, 8, 1), 5, &[2], 8)),
        ("3: threshold 0", share((0, 3, 0), 5, &[], 3)),
        ("3: 2t + 1 is more than n", share((0, 4, 2), 5, &[2, 2], 4)),
        ("3 before 4", share((0, 8, 1), 5, &[2], 3)),
        ("4: no coefficient", share(small, 5, &[], 3)),
        ("4: a coefficient more", share(small, 5, &[2, 2], 3)),
        ("4: the lent list is too short", share(small, 5, &[2], 2)),
        ("4: the lent list is too long", share(small, 5, &[2], 4)),
        ("4 before 5", share(small, 13, &[2], 4)),
        ("5: the secret is p", share(small, 13, &[2], 3)),
        ("5: a coefficient is p", share((0, 5, 2), 5, &[2, 13], 5)),
    ]
}

fn recoveries() -> Vec<Held> {
    let small = (0, 3, 1);
    vec![
        ("recover 5 and 2", recover(small, &[7, 9, 11], 1)),
        ("p - 1 is a share", recover(small, &[12, 12, 12], 1)),
        (
            "the first power's coefficient first",
            recover((0, 5, 2), &[6, 4, 8, 5, 8], 2),
        ),
        (
            "field 1, threshold 3",
            recover((1, 7, 3), &[5, 33, 101, 227, 178, 223, 129], 3),
        ),
        (
            "field 2, threshold 2",
            recover((2, 5, 2), &[5, 10, 17, 26, 37], 2),
        ),
        (
            "field 3, threshold 1",
            recover((3, 3, 1), &[2_147_483_645, 2_147_483_644, 2_147_483_643], 1),
        ),
        ("2: field 4", recover((4, 3, 1), &[7, 9, 11], 1)),
        ("2 before 3", recover((4, 8, 1), &[7; 8], 1)),
        ("3: two parties", recover((0, 2, 1), &[7, 9], 1)),
        ("3: eight parties", recover((0, 8, 1), &[7; 8], 1)),
        ("3: threshold 0", recover((0, 3, 0), &[7; 3], 0)),
        ("3: 2t + 1 is more than n", recover((0, 4, 2), &[7; 4], 2)),
        ("3 before 4", recover((0, 8, 1), &[7; 3], 1)),
        ("4: a share is missing", recover(small, &[7, 9], 1)),
        ("4: a share more", recover(small, &[7, 9, 11, 0], 1)),
        (
            "4: the lent list is too short",
            recover(small, &[7, 9, 11], 0),
        ),
        (
            "4: the lent list is too long",
            recover(small, &[7, 9, 11], 2),
        ),
        ("4 before 5", recover(small, &[7, 9, 13], 2)),
        ("5: the last share is p", recover(small, &[13, 13, 13], 1)),
        ("5 before 6", recover(small, &[7, 9, 13], 1)),
        ("6: no sharing", recover(small, &[7, 9, 12], 1)),
        ("6: the first share", recover(small, &[6, 9, 11], 1)),
        (
            "6: a cubic, threshold 2",
            recover((1, 5, 2), &[1, 8, 27, 64, 125], 2),
        ),
    ]
}

fn encode(field: u32, k: u32, a: i64) -> Case {
    Case::Encode { field, k, a }
}

/// A field and a k.
const WIDTHS: [(u32, u32); 5] = [(0, 2), (0, 3), (1, 7), (2, 15), (3, 30)];

fn codings() -> Vec<Held> {
    let mut all = vec![
        ("2: encode, field 4", encode(4, 3, 0)),
        ("2 before 11", encode(4, 1, 9)),
        ("11: k is 0", encode(0, 0, 0)),
        ("11: k is 1", encode(0, 1, 0)),
        ("11: k is 1", encode(0, 1, -1)),
        ("11: k is more than the field's largest", encode(0, 4, 0)),
        ("11: k is more than the field's largest", encode(1, 8, 0)),
        ("11: k is more than the field's largest", encode(2, 16, 0)),
        ("11: k is more than the field's largest", encode(3, 31, 0)),
        ("0 is 0, and -3 is 10", encode(0, 3, 0)),
        ("0 is 0, and -3 is 10", encode(0, 3, -3)),
    ];
    let mut at = |says, number: fn(i64) -> i64| {
        let ends = WIDTHS.map(|(field, k)| (says, encode(field, k, number(1 << (k - 1)))));
        all.extend(ends);
    };
    at("the lowest of the k-bit range", |half| -half);
    at("the highest", |half| half - 1);
    at("11: one less than the lowest", |half| -half - 1);
    at("11: one more than the highest", |half| half);
    all
}

fn readings() -> Vec<Held> {
    let decode = |field, v| Case::Decode { field, v };
    let mut all = vec![
        ("2: decode, field 4", decode(4, 0)),
        ("2 before 5", decode(4, u32::MAX)),
    ];
    let mut at = |says, value: fn(u32) -> u32| {
        let moduli = (0..).zip([13, 251, 65_521, 2_147_483_647]);
        all.extend(moduli.map(|(field, p)| (says, decode(field, value(p)))));
    };
    at("(p - 1)/2 is itself", |p| (p - 1) / 2);
    at("one more is -(p - 1)/2", |p| p.div_ceil(2));
    at("p - 1 is -1", |p| p - 1);
    at("5: p", |p| p);
    all
}

#[cfg(test)]
mod tests {
    use super::*;
    use crate::line::answer;
    use crate::sheets::held::number_said;

    #[test]
    fn each_comment_starts_with_the_number_answered() {
        for (says, case) in all() {
            let wanted = format!(" : number {} ", number_said(says));
            assert!(answer(&case).contains(&wanted), "{says}: {}", answer(&case));
        }
    }
}
