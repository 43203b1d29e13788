//! Each number where nothing else is wrong, and each where the later ones apply too.

use super::Told;
use crate::cases::generator::Generator;
use crate::columns::draft::Draft;
use crate::refusal::{FIELD, HEADER, LENGTH, OUTPUT_SHORT, PARTIES};

/// An input row and a triple for these parties in this field, and a script.
fn some(field: u8, parties: u8, threshold: u8) -> Draft {
    Draft::new(field, parties, threshold)
        .with_rows(1, 0, 1)
        .with_script(5)
}

/// The output takes the input, and all that its header implies.
pub fn alone(generator: &mut Generator) -> Vec<Told> {
    let good = some(2, 4, 1).drawn(generator);
    let mut all = Vec::new();
    for length in [0, 1, 2, 3, 9, 10] {
        all.push((good[..length].to_vec(), good.len(), HEADER));
    }
    for field in [4, 5, 16, 17, 18, 19, 255] {
        all.push(roomy(some(field, 4, 1), generator, FIELD));
    }
    for (n, t) in OUTSIDE {
        all.push(roomy(some(2, n, t), generator, PARTIES));
    }
    all.push(roomy(Draft::new(2, 255, 1), generator, PARTIES));
    for draft in over_limits() {
        all.push(roomy(draft, generator, LENGTH));
    }
    all.extend(wrong_lengths(&good));
    all.extend(high_bytes());
    all.push((good.clone(), good.len() - 1, OUTPUT_SHORT));
    all.push((good, 0, OUTPUT_SHORT));
    all
}

/// n and t of which one is outside its range, or both.
const OUTSIDE: [(u8, u8); 14] = [
    (0, 0),
    (1, 0),
    (2, 0),
    (2, 1),
    (8, 1),
    (8, 3),
    (3, 0),
    (7, 0),
    (3, 2),
    (4, 2),
    (5, 3),
    (6, 3),
    (7, 4),
    (7, 255),
];

/// With an output as long as the input.
fn roomy(draft: Draft, generator: &mut Generator, number: u32) -> Told {
    let input = draft.drawn(generator);
    let length = input.len();
    (input, length, number)
}

/// One count each is one over its limit.
fn over_limits() -> [Draft; 4] {
    let plain = Draft::plain();
    [
        plain.with_rows(65, 0, 0),
        plain.with_rows(0, 17, 0),
        plain.with_rows(0, 0, 513),
        plain.with_script(1025),
    ]
}

/// Bytes too few, down to the header, and too many.
fn wrong_lengths(good: &[u8]) -> Vec<Told> {
    let lent = good.len() + 100;
    let lengths = [1, 4, 16, good.len() - 12, good.len() - 11];
    let shorter = lengths.map(|less| good[..good.len() - less].to_vec());
    let longer = [1, 4, 16, 64].map(|more| [good, &vec![9; more]].concat());
    let all = shorter.into_iter().chain(longer);
    all.map(|input| (input, lent, LENGTH)).collect()
}

/// A count of 256, and nothing after the header: it is over its limit, or implies more bytes.
fn high_bytes() -> [Told; 4] {
    let plain = Draft::plain();
    [
        plain.with_rows(256, 0, 0),
        plain.with_rows(0, 256, 0),
        plain.with_rows(0, 0, 256),
        plain.with_script(256),
    ]
    .map(|draft| (draft.header(), 11, LENGTH))
}

/// Two at a time, and all that follow: for the later ones the header has 256 inputs, and the output is
/// shorter than the input and than all that the header implies.
pub fn in_order(generator: &mut Generator) -> Vec<Told> {
    let many = |field, n, t| Draft::new(field, n, t).with_rows(256, 0, 0).header();
    let mut all = vec![
        (many(4, 8, 0)[..10].to_vec(), 0, HEADER),
        (many(0, 8, 1)[..10].to_vec(), 0, HEADER),
        (many(0, 3, 1)[..10].to_vec(), 0, HEADER),
        (vec![], 0, HEADER),
        (vec![255], 0, HEADER),
        (many(4, 8, 0), 0, FIELD),
        (many(255, 2, 255), 10, FIELD),
        (many(4, 3, 1), 11, FIELD),
        (many(0, 8, 1), 0, PARTIES),
        (many(3, 3, 2), 10, PARTIES),
        (many(1, 2, 1), 11, PARTIES),
        (many(0, 3, 1), 0, LENGTH),
        (many(3, 7, 3), 10, LENGTH),
    ];
    all.push(roomy(some(4, 8, 1), generator, FIELD));
    for (draft, number) in [
        (some(4, 4, 1), FIELD),
        (some(2, 8, 1), PARTIES),
        (some(2, 4, 2), PARTIES),
    ] {
        let input = draft.drawn(generator);
        let (cut, length) = (input[..input.len() - 1].to_vec(), input.len());
        all.extend([(cut, length, number), (input, length - 1, number)]);
    }
    let good = some(2, 4, 1).drawn(generator);
    let cut = &good[..good.len() - 1];
    for lent in [0, cut.len() - 1, cut.len()] {
        all.push((cut.to_vec(), lent, LENGTH));
    }
    all.push(([good.as_slice(), &[1]].concat(), good.len(), LENGTH));
    all
}
