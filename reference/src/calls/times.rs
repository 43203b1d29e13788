//! The times of a call, and how long it lasted.

/// The seconds from answer to end, 0 if nobody picked up. None if a time is malformed, or comes
/// before the one that it must follow.
pub fn seconds(dialled: &[u8], answered: &[u8], ended: &[u8]) -> Option<u32> {
    let (dialled, ended) = (time(dialled)?, time(ended)?);
    if answered.is_empty() {
        return (dialled <= ended).then_some(0);
    }
    let answered = time(answered)?;
    (dialled <= answered && answered <= ended).then(|| ended - answered)
}

/// One to seven digits.
fn time(field: &[u8]) -> Option<u32> {
    let is_time = (1..=7).contains(&field.len()) && field.iter().all(u8::is_ascii_digit);
    let digits = field.iter().map(|digit| u32::from(digit - b'0'));
    is_time.then(|| digits.fold(0, |time, digit| 10 * time + digit))
}

#[cfg(test)]
mod tests {
    use super::*;

    #[test]
    fn a_time_is_one_to_seven_digits() {
        for (field, number) in [
            ("0", 0),
            ("7", 7),
            ("1234567", 1_234_567),
            ("9999999", 9_999_999),
            ("0000000", 0),
            ("0000012", 12),
        ] {
            assert_eq!(time(field.as_bytes()), Some(number), "{field}");
        }
        for field in [
            "", "00000001", "12345678", "+1", "-1", " 1", "1 ", "1.0", "1,0", "0x1", "/", ":",
            "1e1",
        ] {
            assert_eq!(time(field.as_bytes()), None, "{field}");
        }
    }

    #[test]
    fn each_time_follows_the_one_before() {
        for (dialled, answered, ended, lasted) in [
            ("1", "2", "9", Some(7)),
            ("2", "2", "2", Some(0)),
            ("2", "1", "9", None),
            ("1", "9", "8", None),
            ("5", "6", "4", None),
            ("1", "", "9", Some(0)),
            ("9", "", "9", Some(0)),
            ("9", "", "8", None),
            ("9", "10", "011", Some(1)),
            ("0", "0", "9999999", Some(9_999_999)),
        ] {
            let [dialled, answered, ended] = [dialled, answered, ended].map(str::as_bytes);
            assert_eq!(seconds(dialled, answered, ended), lasted);
        }
    }

    #[test]
    fn only_the_answer_may_be_missing() {
        assert_eq!(seconds(b"", b"", b"1"), None);
        assert_eq!(seconds(b"", b"1", b"1"), None);
        assert_eq!(seconds(b"1", b"", b""), None);
        assert_eq!(seconds(b"1", b"1", b""), None);
    }
}
