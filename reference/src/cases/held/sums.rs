//! The calls of sum among those that hold the model's definitions.

use super::Held;
use crate::case::{Case, SumCase};
use crate::field::FIELDS;

pub fn all() -> Vec<Held> {
    let mut all = accepted();
    all.extend(weights());
    all.extend(refused());
    all
}

fn sum((field, parties, threshold): (u32, u32, u32), row: &[u32]) -> Case {
    Case::Sum(SumCase {
        field,
        parties,
        threshold,
        row: row.to_vec(),
    })
}

fn accepted() -> Vec<Held> {
    let mut all = vec![
        ("sum 2 times 7 and 12 times 9", sum((0, 3, 1), &[7, 9, 11])),
        (
            "shares past t + 1 are not summed",
            sum((0, 7, 1), &[7, 9, 11, 0, 2, 4, 6]),
        ),
        ("all shares 0", sum((0, 3, 1), &[0; 3])),
        ("2p, so the secret is 0", sum((0, 3, 1), &[7, 1, 8])),
    ];
    let settings = (0..4).flat_map(|field| [(field, 3, 1), (field, 5, 2), (field, 7, 3)]);
    all.extend(settings.map(last_shares));
    all
}

fn last_shares((field, parties, threshold): (u32, u32, u32)) -> Held {
    let says = match (field, threshold) {
        (3, 3) => "the largest sum of all",
        _ => "all shares p - 1, in each field with each threshold",
    };
    let last = FIELDS[field as usize].modulus - 1;
    let row = vec![last; parties as usize];
    (says, sum((field, parties, threshold), &row))
}

/// Rows in which, of the first t + 1 shares, one is 1 and the others are 0.
fn weights() -> Vec<Held> {
    let (one, two, three) = (
        "the weight of each share, threshold 1",
        "the weight of each share, threshold 2",
        "the weight of each share, threshold 3",
    );
    vec![
        (one, sum((3, 3, 1), &[1, 0, 2_147_483_646])),
        (one, sum((3, 3, 1), &[0, 1, 2])),
        (two, sum((2, 5, 2), &[1, 0, 0, 1, 3])),
        (two, sum((2, 5, 2), &[0, 1, 0, 65_518, 65_513])),
        (two, sum((2, 5, 2), &[0, 0, 1, 3, 6])),
        (three, sum((1, 7, 3), &[1, 0, 0, 0, 250, 247, 241])),
        (three, sum((1, 7, 3), &[0, 1, 0, 0, 4, 15, 36])),
        (three, sum((1, 7, 3), &[0, 0, 1, 0, 245, 231, 206])),
        (three, sum((1, 7, 3), &[0, 0, 0, 1, 4, 10, 20])),
    ]
}

fn refused() -> Vec<Held> {
    let small = (0, 3, 1);
    vec![
        ("2: sum, field 4", sum((4, 3, 1), &[7, 9, 11])),
        ("2 before 3", sum((4, 8, 1), &[7; 8])),
        ("3: two parties", sum((0, 2, 1), &[7, 9])),
        ("3: eight parties", sum((0, 8, 1), &[7; 8])),
        ("3: threshold 0", sum((0, 3, 0), &[7; 3])),
        ("3: 2t + 1 is more than n", sum((0, 4, 2), &[7; 4])),
        ("3 before 4", sum((0, 8, 1), &[7; 3])),
        ("4: a share is missing", sum(small, &[7, 9])),
        ("4: a share more", sum(small, &[7, 9, 11, 0])),
        ("4 before 5", sum(small, &[7, 13])),
        ("5: the last share is p", sum(small, &[2, 1, 13])),
        ("5 before 6", sum((0, 4, 1), &[7, 9, 12, 13])),
        ("6: the last share", sum(small, &[7, 9, 12])),
        (
            "6: one of the shares that are summed",
            sum((1, 5, 2), &[1, 4, 8, 16, 25]),
        ),
    ]
}
