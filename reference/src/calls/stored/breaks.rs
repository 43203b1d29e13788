//! Line breaks: the last one missing, there and doubled, and what is none.

use super::{good, refused, Lent, Told};
use crate::refusal::{LINE, NONE, TIME};

pub fn all() -> Vec<Told> {
    let mut all = good([
        ("", &[]),
        ("a,1,2,3", &[1]),
        ("a,1,2,3\r\n", &[1]),
        ("a,1,2,3\r\nb,1,2,4", &[1, 2]),
        ("a,1,2,3\r\nb,1,2,4\r\n", &[1, 2]),
        ("a,1,2,\"3\"\r\n\"b\",1,2,\"4\"", &[1, 2]),
        ("a,1,2,3\r\n,1,2,4\r\n,1,,4\r\n", &[1, 2, 0]),
    ]);
    all.extend(refused(
        LINE,
        [
            "\r\n",
            "\r",
            "\n",
            "\n\r",
            "\r\n\r\n",
            "a,1,2,3\r",
            "a,1,2,3\n",
            "a,1,2,3\n\r",
            "a,1,2,3\r\r\n",
            "a,1,2,3 \n",
            "a,1,2,3\nb,1,2,4\r\n",
            "a,1,2,3\rb,1,2,4\r\n",
            "\r\na,1,2,3",
            "\na,1,2,3",
            "a\r\n,1,2,3",
        ],
    ));
    all.extend(refused(TIME, ["a,1,2,\r\n3", "a,1,2,\r\n"]));
    all.extend(
        [
            "a,1,2,3\r\n\r\n",
            "a,1,2,3\r\n\r\nb,1,2,4\r\n",
            "a,1,2,3\r\n\r",
            "a,1,2,3\r\n\n",
            "a,1,2,3\r\n\n\r\n",
            "a,1,2,3\r\n ",
            "a,1,2,3\r\nb,1,2,4\r",
            "a,1,2,3\r\nb,1,2,4\n",
        ]
        .map(|list| (list.into(), LINE, vec![1])),
    );
    all
}

/// Every two bytes of which one is CR or LF, after a line: at the list's end, and before a line.
pub fn pairs() -> Vec<Lent> {
    let bytes = || 0..=255;
    let pairs = bytes().flat_map(|first| bytes().map(move |second| [first, second]));
    let parting = |pair: &[u8; 2]| pair.iter().any(|byte| b"\r\n".contains(byte));
    pairs.filter(parting).flat_map(after_a_line).collect()
}

fn after_a_line(pair: [u8; 2]) -> [Lent; 2] {
    let last = [b"a,1,2,5", &pair[..]].concat();
    let between = [last.as_slice(), b"b,1,2,6"].concat();
    if &pair == b"\r\n" {
        return [(last, 1, NONE, vec![3]), (between, 2, NONE, vec![3, 4])];
    }
    [(last, 1, LINE, vec![]), (between, 2, LINE, vec![])]
}
