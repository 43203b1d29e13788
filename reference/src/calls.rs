//! The import of an exchange's list of calls: lines as RFC 4180 describes, four fields in each, and
//! the seconds of each call.

pub mod bench;
pub mod case;
mod draft;
pub mod drawn;
pub mod examples;
mod fault;
pub mod held;
pub mod record;
pub mod stored;
mod times;

use crate::refusal;
use record::Record;

/// Writes the seconds of each call to the buffer. Answers the number, and how many calls were
/// written: where a line is refused, those of the lines before it.
pub fn import(list: &[u8], seconds: &mut [u32]) -> (u32, usize) {
    let mut calls = 0;
    match import_lines(list, seconds, &mut calls) {
        Ok(()) => (refusal::NONE, calls),
        Err(number) => (number, calls),
    }
}

/// A line is read whole before its times are looked at, and a bad line is not a full buffer.
fn import_lines(list: &[u8], seconds: &mut [u32], calls: &mut usize) -> Result<(), u32> {
    let mut record = Record::default();
    let mut rest = list;
    while !rest.is_empty() {
        rest = record.read(rest).ok_or(refusal::LINE)?;
        let [_, dialled, answered, ended] = record.four().ok_or(refusal::LINE)?;
        let call = times::seconds(dialled, answered, ended).ok_or(refusal::TIME)?;
        let place = seconds.get_mut(*calls).ok_or(refusal::SECONDS_FULL)?;
        *place = call;
        *calls += 1;
    }
    Ok(())
}

#[cfg(test)]
mod tests {
    use super::*;

    /// The number, the calls and the whole buffer of so many sevens.
    fn left(list: &[u8], lent: usize) -> (u32, usize, Vec<u32>) {
        let mut seconds = vec![7; lent];
        let (number, calls) = import(list, &mut seconds);
        (number, calls, seconds)
    }

    #[test]
    fn a_call_lasts_from_its_answer_to_its_end() {
        assert_eq!(left(b"a,1,20,300", 1), (0, 1, vec![280]));
        assert_eq!(left(b"a,1,,300", 1), (0, 1, vec![0]));
    }

    #[test]
    fn an_empty_list_has_no_calls() {
        assert_eq!(left(b"", 2), (0, 0, vec![7, 7]));
        assert_eq!(left(b"", 0), (0, 0, vec![]));
    }

    #[test]
    fn the_rest_of_the_buffer_is_left() {
        let list = b"a,1,2,3\r\nb,1,2,4\r\n";
        assert_eq!(left(list, 4), (0, 2, vec![1, 2, 7, 7]));
        assert_eq!(left(list, 2), (0, 2, vec![1, 2]));
        assert_eq!(left(list, 1), (33, 1, vec![1]));
    }

    #[test]
    fn calls_before_a_refused_line_stand() {
        assert_eq!(left(b"a,1,2,3\r\nb,1,2\r\n", 3), (31, 1, vec![1, 7, 7]));
        assert_eq!(left(b"a,1,2,3\r\nb,1,2,1\r\n", 3), (32, 1, vec![1, 7, 7]));
    }

    /// Each line by each number that it could have, in the order of trying.
    #[test]
    fn a_line_is_read_then_its_times_then_the_room() {
        assert_eq!(left(b"a,x,2,3\"", 0).0, 31);
        assert_eq!(left(b"a,x,2", 0).0, 31);
        assert_eq!(left(b"a,x,2,3", 0).0, 32);
        assert_eq!(left(b"a,1,2,3", 0).0, 33);
    }
}
