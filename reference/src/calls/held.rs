//! Short lists that hold the model's definition of the import: crate model computes each, and the stored cases have them too.

use super::case::Case;
use super::import;

/// What every number of the buffer is before the import, in the model's table.
const FILLING: u32 = 99;

/// A list with the length of the lent buffer.
pub struct Held {
    /// What the list is for. It starts with the number that is answered, and with none where that is 0.
    pub says: &'static str,
    pub list: &'static [u8],
    pub lent: usize,
}

/// What an import leaves.
pub struct Left {
    pub number: u32,
    pub calls: usize,
    pub seconds: Vec<u32>,
}

impl Held {
    pub fn left(&self) -> Left {
        let mut seconds = vec![FILLING; self.lent];
        let (number, calls) = import(self.list, &mut seconds);
        Left {
            number,
            calls,
            seconds,
        }
    }
}

fn held(says: &'static str, list: &'static [u8], lent: usize) -> Held {
    Held { says, list, lent }
}

pub fn all() -> Vec<Held> {
    let mut all = records();
    all.extend(broken());
    all.extend(times());
    all.extend(turns());
    all
}

/// All of them, as the stored cases have them.
pub fn cases() -> Vec<Case> {
    let case = |held: Held| Case {
        list: held.list.to_vec(),
        lent: held.lent,
    };
    all().into_iter().map(case).collect()
}

/// What the grammar has.
fn records() -> Vec<Held> {
    vec![
        held("an empty list, and no buffer", b"", 0),
        held("an empty list leaves the buffer", b"", 2),
        held("the last line break is missing", b"a,1,2,5", 2),
        held(
            "one line break at the end begins no line",
            b"a,1,2,5\r\n",
            1,
        ),
        held("two lines", b"a,1,2,5\r\nb,3,,4\r\n", 3),
        held("a name may be empty", b",1,2,5", 1),
        held("20 and 7E, the ends of text", b"~ ,1,2,5", 1),
        held(
            "21, 23, 2B and 2D, next to quote and comma",
            b"!#+-,1,2,5",
            1,
        ),
        held("every field quoted", b"\"a\",\"1\",\"2\",\"5\"\r\n", 1),
        held("a comma between quotes", b"\"a,\",1,2,5", 1),
        held("two quotes between quotes are one", b"\"\"\"\",1,2,5", 1),
        held("a line break between quotes", b"\"\r\n\",1,2,5", 1),
        held("CR alone between quotes", b"\"\r\",1,2,5", 1),
        held("LF alone between quotes", b"\"\n\",1,2,5", 1),
    ]
}

/// What it has not.
fn broken() -> Vec<Held> {
    vec![
        held(
            "31: a quote in the middle of a plain field",
            b"a\"b,1,2,5",
            1,
        ),
        held("31: a quote and LF after a plain field", b"a,1,2,5\"\n", 1),
        held("31: a space before a quote", b" \"a\",1,2,5", 1),
        held("31: text after a closing quote", b"\"a\"b,1,2,5", 1),
        held("31: a space after a closing quote", b"\"a\" ,1,2,5", 1),
        held("31: a quote that is not closed", b"a,1,2,\"5", 1),
        held(
            "31: the last of three quotes opens again",
            b"a,1,2,\"\"\"",
            1,
        ),
        held("31: CR at the very end", b"a,1,2,5\r", 1),
        held("31: LF ends no line", b"a,1,2,5\n", 1),
        held("31: two LF", b"a,1,2,5\n\n", 1),
        held("31: LF before a line break", b"a,1,2,5\n\r\n", 1),
        held("31: CR before a line break", b"a,1,2,5\r\r\n", 1),
        held("31: CR and text", b"a,1,2,5\rb,1,2,5", 2),
        held("31: a tab", b"\t,1,2,5", 1),
        held("31: 1A at the very end", b"a,1,2,5\x1A", 1),
        held("31: 1F between quotes", b"\"\x1F\",1,2,5", 1),
        held("31: 7F", b"\x7F,1,2,5", 1),
        held("31: 80 between quotes", b"\"\x80\",1,2,5", 1),
        held("31: a byte order mark", b"\xEF\xBB\xBFa,1,2,5", 1),
        held("31: three fields", b"a,1,2", 1),
        held("31: five fields", b"a,1,2,5,", 1),
        held("31: six fields", b"a,1,2,5,6,7", 1),
        held("31: a line break alone is an empty line", b"\r\n", 1),
        held(
            "31: a second line break; the call stands",
            b"a,1,2,5\r\n\r\n",
            2,
        ),
    ]
}

fn times() -> Vec<Held> {
    vec![
        held(
            "seven digits, and from the answer to the end",
            b"a,0,1,9999999",
            1,
        ),
        held("leading zeros are digits", b"a,0000001,02,05", 1),
        held("leading zeros, and ten", b"a,0,0,010", 1),
        held("an answer at 0 is an answer", b"a,0,0,5", 1),
        held("nobody picked up", b"a,1,,5", 1),
        held("quotes around nothing are nothing", b"a,1,\"\",5", 1),
        held("equal times are in order", b"a,5,5,5", 1),
        held("equal times, and nobody picked up", b"a,5,,5", 1),
        held("9 is before 10", b"a,9,10,11", 1),
        held("32: eight digits", b"a,00000001,2,5", 1),
        held("32: dialled is empty", b"a,,2,5", 1),
        held("32: ended is empty", b"a,0,,", 1),
        held("32: all times are empty", b"a,,,", 1),
        held(
            "32: a first line is no header",
            b"line,dialled,answered,ended",
            1,
        ),
        held("32: a sign", b"a,+1,2,5", 1),
        held("32: 2F, before the digits", b"a,0,/,5", 1),
        held("32: 3A, after the digits", b"a,1,2,:", 1),
        held("32: a quote in a quoted time", b"a,1,\"2\"\"\",5", 1),
        held("32: a comma in a quoted time", b"a,1,\"2,\",5", 1),
        held("32: CR in a quoted time", b"a,1,\"2\r\",5", 1),
        held("32: LF in a quoted time", b"a,1,\"2\n\",5", 1),
        held("32: a space in a quoted time", b"a,0,\"2 \",5", 1),
        held("32: answered before dialled", b"a,3,2,5", 1),
        held("32: ended before answered", b"a,1,6,5", 1),
        held("32: not answered, ended before dialled", b"a,6,,5", 1),
    ]
}

/// Lines in turn, and the order of the numbers.
fn turns() -> Vec<Held> {
    vec![
        held("31 before 32 in one line", b"a,x,2", 1),
        held("31 before 32: the line is read whole", b"a,x,2,5\"", 1),
        held("32: the line before decides", b"a,x,2,5\r\na", 1),
        held(
            "32: the call of the line before stands",
            b"a,1,2,5\r\nb,1,2,1",
            3,
        ),
        held(
            "31 before 33: a bad line in a full buffer",
            b"a,1,2,5\r\nb",
            1,
        ),
        held("32 before 33: a bad line in a full buffer", b"a,1,2,1", 0),
        held("33: no buffer", b"a,1,2,5", 0),
        held("33: one place for two calls", b"a,1,2,5\r\nb,3,,4", 1),
        held("33: the line before decides", b"a,1,2,5\r\nb", 0),
    ]
}

#[cfg(test)]
mod tests {
    use super::*;
    use crate::sheets::held::number_said;

    #[test]
    fn each_comment_starts_with_the_number_answered() {
        for held in all() {
            assert_eq!(held.left().number, number_said(held.says), "{}", held.says);
        }
    }

    #[test]
    fn lists_are_short() {
        for held in all() {
            assert!(held.list.len() <= 30 && held.lent <= 3, "{}", held.says);
        }
    }

    #[test]
    fn broken_lists_leave_the_buffer_unless_a_call_stands() {
        for held in broken() {
            let stands = usize::from(held.says.ends_with("the call stands"));
            let left = held.left();
            assert_eq!(left.calls, stands, "{}", held.says);
            let rest = &left.seconds[stands..];
            assert!(rest.iter().all(|&left| left == FILLING), "{}", held.says);
        }
    }

    /// The seconds, by hand.
    #[test]
    fn good_lists_leave_their_calls() {
        for (says, seconds) in [
            ("an empty list leaves the buffer", &[99, 99][..]),
            ("the last line break is missing", &[3, 99]),
            ("two lines", &[3, 0, 99]),
            ("seven digits, and from the answer to the end", &[9_999_998]),
            ("leading zeros, and ten", &[10]),
            ("an answer at 0 is an answer", &[5]),
            ("equal times, and nobody picked up", &[0]),
            ("31: CR and text", &[99, 99]),
            ("31: a second line break; the call stands", &[3, 99]),
            ("32: the call of the line before stands", &[3, 99, 99]),
            ("33: one place for two calls", &[3]),
        ] {
            let found = all().into_iter().find(|held| held.says == says);
            let left = found.expect("the list is in the table").left();
            assert_eq!(left.seconds, seconds, "{says}");
        }
    }
}
