//! Good headers: every number of parties with every threshold in every field, kinds of rows that are
//! missing, counts of two bytes, and numbers of rows about 256.

use super::Told;
use crate::cases::generator::Generator;
use crate::columns::draft::Draft;
use crate::refusal::NONE;

/// With an output that is as long as the input, or some places longer.
pub fn all(generator: &mut Generator) -> Vec<Told> {
    let mut drafts = everywhere();
    drafts.extend(lacking());
    drafts.extend(wide_counts());
    drafts.extend(many_rows());
    let turned = |(place, draft): (usize, Draft)| {
        let input = draft.drawn(generator);
        let lent = input.len() + place % 3;
        (input, lent, NONE)
    };
    drafts.into_iter().enumerate().map(turned).collect()
}

/// An input, a mask and a triple.
fn everywhere() -> Vec<Draft> {
    let mut drafts = Vec::new();
    for parties in 3..=7 {
        for threshold in 1..=(parties - 1) / 2 {
            for field in 0..4 {
                let draft = Draft::new(field, parties, threshold).with_rows(1, 1, 1);
                drafts.push(draft.with_script(u16::from(field) + 1));
            }
        }
    }
    drafts
}

/// Without rows, and with rows of one kind or two.
fn lacking() -> Vec<Draft> {
    let mut drafts = Vec::new();
    for (field, n, t) in [(0, 3, 1), (1, 4, 1), (0, 5, 2), (2, 3, 1), (0, 7, 3)] {
        let draft = Draft::new(field, n, t);
        drafts.extend([draft, draft.with_script(1), draft.with_script(40)]);
        for (inputs, masks, triples) in [
            (1, 0, 0),
            (5, 0, 0),
            (0, 1, 0),
            (0, 0, 1),
            (0, 0, 3),
            (2, 1, 0),
            (2, 0, 1),
            (0, 1, 1),
        ] {
            drafts.push(draft.with_rows(inputs, masks, triples));
        }
    }
    drafts.push(Draft::new(3, 3, 1).with_rows(0, 1, 0));
    drafts
}

/// Counts whose high byte is not 0.
fn wide_counts() -> [Draft; 3] {
    let plain = Draft::plain();
    [
        plain.with_rows(0, 0, 258),
        plain.with_script(256),
        plain.with_script(515).with_rows(2, 0, 0),
    ]
}

/// 256, 257 and 513 rows: the library copies rows in blocks of 256.
fn many_rows() -> [Draft; 3] {
    let plain = Draft::plain();
    [
        plain.with_rows(1, 0, 85),
        plain.with_rows(2, 0, 85),
        plain.with_rows(3, 0, 170),
    ]
}
