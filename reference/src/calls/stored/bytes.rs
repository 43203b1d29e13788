//! Every byte as a name and after a line. Every end of a range of bytes that the grammar has, and
//! its neighbours outside, in the middle of a name.

use super::{Lent, Told};
use crate::refusal::{LINE, NONE, TIME};

/// A byte, whether it may stand without quotes, and whether it may stand alone between quotes.
const BYTES: [(u8, bool, bool); 22] = [
    (0x00, false, false),
    (0x09, false, false),
    (0x0A, false, true),
    (0x0B, false, false),
    (0x0C, false, false),
    (0x0D, false, true),
    (0x0E, false, false),
    (0x1F, false, false),
    (0x20, true, true),
    (0x21, true, true),
    (0x22, false, false),
    (0x23, true, true),
    (0x2B, true, true),
    (0x2D, true, true),
    (0x2F, true, true),
    (0x3A, true, true),
    (0x7E, true, true),
    (0x7F, false, false),
    (0x80, false, false),
    (0xA0, false, false),
    (0xE9, false, false),
    (0xFF, false, false),
];

/// In a name without quotes and in one with quotes, and after a closing quote at the list's end.
pub fn all() -> Vec<Told> {
    let mut all = Vec::new();
    for (byte, plain, quoted) in BYTES {
        all.push(told(&[&[b'a', byte], &b"b,1,2,4\r\n"[..]], plain));
        all.push(told(&[&[b'"', b'a', byte], b"b\",1,2,4\r\n"], quoted));
    }
    for byte in [0x00, 0x09, 0x0A, 0x0D, 0x1F, 0x7F, 0x80, 0xFF] {
        all.push(told(&[b"a,1,2,\"4\"", &[byte]], false));
    }
    all
}

/// Every byte as a name, without quotes and between quotes; and after a line, without its line break
/// and with it.
pub fn every() -> Vec<Lent> {
    let mut all = Vec::new();
    for byte in 0..=255 {
        let is_plain = (0x20..=0x7E).contains(&byte) && byte != b'"' && byte != b',';
        let is_quoted = is_plain || b",\r\n".contains(&byte);
        all.push(name(&[byte], is_plain));
        all.push(name(&[b'"', byte, b'"'], is_quoted));
        let (number, seconds) = match byte {
            b'0'..=b'9' => (NONE, vec![48 + u32::from(byte - b'0')]),
            _ if is_plain => (TIME, vec![]),
            _ => (LINE, vec![]),
        };
        all.push(([b"a,1,2,5", &[byte][..]].concat(), 1, number, seconds));
        all.push(([b"a,1,2,5\r\n", &[byte][..]].concat(), 2, LINE, vec![3]));
    }
    all
}

fn name(name: &[u8], is_read: bool) -> Lent {
    let (list, number, seconds) = told(&[name, b",1,2,4"], is_read);
    (list, 1, number, seconds)
}

fn told(parts: &[&[u8]], is_read: bool) -> Told {
    if is_read {
        (parts.concat(), NONE, vec![2])
    } else {
        (parts.concat(), LINE, vec![])
    }
}
