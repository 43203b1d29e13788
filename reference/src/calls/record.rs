//! A record of RFC 4180, read byte by byte.

const QUOTE: u8 = b'"';
const COMMA: u8 = b',';
const CR: u8 = b'\r';
const LF: u8 = b'\n';

/// Where in a record the next byte stands.
#[derive(Clone, Copy)]
enum State {
    /// A field starts.
    Start,
    /// In a field without quotes.
    Plain,
    /// Between quotes.
    Quoted,
    /// After a quote between quotes: the closing one, or the first of two.
    Quote,
    /// After the CR of a line break.
    Break,
}

/// The fields of a record, their quotes taken off.
#[derive(Default)]
pub struct Record {
    /// The fields, one after the other.
    text: Vec<u8>,
    /// Where each field ends in the text.
    ends: Vec<usize>,
}

impl Record {
    /// Reads the record that the text starts with, and gives what stands after its line break. None
    /// if there is no record that a line break or the text's end follows.
    pub fn read<'a>(&mut self, text: &'a [u8]) -> Option<&'a [u8]> {
        self.text.clear();
        self.ends.clear();
        let mut state = State::Start;
        for (place, &byte) in text.iter().enumerate() {
            if matches!(state, State::Break) {
                return (byte == LF).then(|| &text[place + 1..]);
            }
            state = self.step(state, byte)?;
        }
        match state {
            State::Start | State::Plain | State::Quote => {
                self.end_field();
                Some(&[])
            }
            State::Quoted | State::Break => None,
        }
    }

    /// Takes a byte, if the grammar has it there.
    fn step(&mut self, state: State, byte: u8) -> Option<State> {
        use State::*;
        match (state, byte) {
            (Start, QUOTE) => Some(Quoted),
            (Start | Plain | Quote, COMMA) => {
                self.end_field();
                Some(Start)
            }
            (Start | Plain | Quote, CR) => {
                self.end_field();
                Some(Break)
            }
            (Start | Plain, _) if is_textdata(byte) => {
                self.text.push(byte);
                Some(Plain)
            }
            (Quoted, QUOTE) => Some(Quote),
            (Quoted, _) if is_textdata(byte) || matches!(byte, COMMA | CR | LF) => {
                self.text.push(byte);
                Some(Quoted)
            }
            (Quote, QUOTE) => {
                self.text.push(QUOTE);
                Some(Quoted)
            }
            _ => None,
        }
    }

    fn end_field(&mut self) {
        self.ends.push(self.text.len());
    }

    /// The fields, if there are four.
    pub fn four(&self) -> Option<[&[u8]; 4]> {
        let text = &self.text;
        let &[one, two, three, four] = self.ends.as_slice() else {
            return None;
        };
        Some([
            &text[..one],
            &text[one..two],
            &text[two..three],
            &text[three..four],
        ])
    }

    pub fn fields(&self) -> Vec<&[u8]> {
        let starts = [0].into_iter().chain(self.ends.iter().copied());
        let bounds = starts.zip(&self.ends);
        bounds.map(|(start, &end)| &self.text[start..end]).collect()
    }
}

pub fn is_textdata(byte: u8) -> bool {
    matches!(byte, 0x20..=0x21 | 0x23..=0x2B | 0x2D..=0x7E)
}

#[cfg(test)]
mod tests {
    use super::*;

    /// The fields, and what stands after the record.
    fn read(text: &str) -> Option<(Vec<String>, &str)> {
        let mut record = Record::default();
        let rest = record.read(text.as_bytes())?;
        let string = |bytes: &[u8]| String::from_utf8_lossy(bytes).into_owned();
        let fields = record.fields().into_iter().map(string).collect();
        Some((fields, &text[text.len() - rest.len()..]))
    }

    fn is_read(text: &str, fields: &[&str], rest: &str) {
        let fields = fields.iter().map(|&field| field.to_owned()).collect();
        assert_eq!(read(text), Some((fields, rest)), "{text:?}");
    }

    #[test]
    fn commas_part_fields() {
        is_read("a,b c,", &["a", "b c", ""], "");
        is_read(",,", &["", "", ""], "");
        is_read("\"a\",\"\",b", &["a", "", "b"], "");
    }

    #[test]
    fn a_line_break_ends_the_record() {
        is_read("a,b\r\nc\r\n", &["a", "b"], "c\r\n");
        is_read("\"a\"\r\n", &["a"], "");
        is_read("\r\n\r\n", &[""], "\r\n");
    }

    #[test]
    fn quotes_are_taken_off() {
        is_read("\"a,\"\"b\"\"\",c", &["a,\"b\"", "c"], "");
        is_read("\"\"\"\"", &["\""], "");
        is_read("\"a\r\nb\r\r\n\n\",c\r\nd", &["a\r\nb\r\r\n\n", "c"], "d");
    }

    #[test]
    fn what_the_grammar_has_not_is_no_record() {
        for text in [
            "a\"b",
            "a\"",
            "\"a\"b",
            "\"a\" ",
            " \"a\"",
            "\"a",
            "\"\"\"",
            "a\rb",
            "a\nb",
            "a\r",
            "a\n",
            "\"a\"\r",
            "\"a\"\n",
            "\t",
            "\"\t\"",
            "\u{7F}",
            "\"\u{7F}\"",
            "é",
            "\"é\"",
        ] {
            assert_eq!(read(text), None, "{text:?}");
        }
    }

    #[test]
    fn four_fields_are_given_as_such() {
        let mut record = Record::default();
        for (text, is_four) in [(",,,", true), (",,", false), (",,,,", false), ("", false)] {
            assert!(record.read(text.as_bytes()).is_some());
            assert_eq!(record.four().is_some(), is_four, "{text:?}");
        }
        record.read(b"a,,\"b\",cd");
        let four: [&[u8]; 4] = [b"a", b"", b"b", b"cd"];
        assert_eq!(record.four(), Some(four));
    }
}
