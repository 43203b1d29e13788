//! 1 to 4.

use super::{head, Draft, Named};
use crate::forecast::printed::LONGEST;

pub fn all() -> Vec<Named> {
    let mut all = refused();
    all.extend(counts());
    all.extend(lengths());
    all
}

/// END alone.
fn end() -> Draft {
    Draft::new(0, &[0])
}

fn refused() -> Vec<Named> {
    let bytes = end().to_bytes();
    let cut = |name: &str, length: usize| (name.to_owned(), bytes[..length].to_vec());
    vec![
        cut("no-byte", 0),
        cut("one-byte", 1),
        cut("ten-bytes", 10),
        head("field-4", Draft::new(4, &[0])),
        head("field-255", Draft::new(255, &[0])),
        head("two-parties", end().with_parties(2, 0)),
        head("eight-parties", end().with_parties(8, 3)),
        head("255-parties", end().with_parties(255, 255)),
    ]
}

/// Each of the four over its limit, the others none or one; and all as large as two bytes can say, of
/// which the script is not there.
fn counts() -> Vec<Named> {
    let all_over = [[0, 3, 1].as_slice(), &[255; 8]].concat();
    vec![
        head("65-inputs", end().with_counts([65, 1, 0])),
        head("17-masks", Draft::new(0, &[]).with_counts([1, 17, 1])),
        head("513-triples", end().with_counts([0, 0, 513])),
        head("1025-script-bytes", Draft::new(0, &[0; 1025])),
        ("all-counts-over".to_owned(), all_over),
    ]
}

/// Of a sheet with rows of each kind. Of the last two the program reads the same bytes.
fn lengths() -> Vec<Named> {
    let header = end().with_parties(5, 2).with_counts([2, 1, 1]).to_bytes();
    let with_length = |name: &str, length| {
        let mut bytes = header.clone();
        bytes.resize(length, 0);
        (name.to_owned(), bytes)
    };
    vec![
        with_length("a-byte-less", header.len() - 1),
        with_length("a-byte-more", header.len() + 1),
        with_length("59723-bytes", LONGEST - 1),
        with_length("59724-bytes", LONGEST),
        with_length("59725-bytes", LONGEST + 1),
    ]
}
