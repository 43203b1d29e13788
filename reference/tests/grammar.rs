//! The reader of records against the grammar of RFC 4180, rule by rule, on all short texts.

use std::slice::from_ref;

use reference::calls::record::Record;

/// The values of a record's fields, and what stands after its line break.
type Reading = (Vec<Vec<u8>>, Vec<u8>);

/// TEXTDATA = %x20-21 / %x23-2B / %x2D-7E
fn is_textdata(byte: u8) -> bool {
    (0x20..=0x7E).contains(&byte) && byte != 0x22 && byte != 0x2C
}

/// non-escaped = *TEXTDATA
fn non_escaped(text: &[u8]) -> Option<Vec<u8>> {
    let is_text = text.iter().all(|&byte| is_textdata(byte));
    is_text.then(|| text.to_vec())
}

/// escaped = DQUOTE *(TEXTDATA / COMMA / CR / LF / 2DQUOTE) DQUOTE
fn escaped(text: &[u8]) -> Option<Vec<u8>> {
    unescaped(text.strip_prefix(b"\"")?.strip_suffix(b"\"")?)
}

fn unescaped(text: &[u8]) -> Option<Vec<u8>> {
    let (first, rest) = match *text {
        [] => return Some(Vec::new()),
        [b'"', b'"', ref rest @ ..] => (b'"', rest),
        [byte @ (b',' | b'\r' | b'\n'), ref rest @ ..] => (byte, rest),
        [byte, ref rest @ ..] if is_textdata(byte) => (byte, rest),
        _ => return None,
    };
    let rest = unescaped(rest)?;
    Some([&[first], rest.as_slice()].concat())
}

/// field = (escaped / non-escaped), in every way
fn fields(text: &[u8]) -> impl Iterator<Item = Vec<u8>> {
    escaped(text).into_iter().chain(non_escaped(text))
}

/// record = field *(COMMA field), in every way
fn records(text: &[u8]) -> Vec<Vec<Vec<u8>>> {
    let mut all: Vec<_> = fields(text).map(|field| vec![field]).collect();
    for place in (0..text.len()).filter(|&place| text[place] == b',') {
        let after = records(&text[place + 1..]);
        for field in fields(&text[..place]) {
            let with = |rest: &Vec<Vec<u8>>| [from_ref(&field), rest.as_slice()].concat();
            all.extend(after.iter().map(with));
        }
    }
    all
}

/// A record that a line break or the text's end follows, in every way.
fn readings(text: &[u8]) -> Vec<Reading> {
    let whole = records(text).into_iter().map(|record| (record, vec![]));
    let mut all: Vec<Reading> = whole.collect();
    for place in 0..text.len() {
        if let Some(rest) = text[place..].strip_prefix(b"\r\n") {
            let before = records(&text[..place]).into_iter();
            all.extend(before.map(|record| (record, rest.to_vec())));
        }
    }
    all
}

fn read(text: &[u8]) -> Vec<Reading> {
    let mut record = Record::default();
    let Some(rest) = record.read(text) else {
        return Vec::new();
    };
    let fields = record.fields().into_iter().map(<[u8]>::to_vec);
    vec![(fields.collect(), rest.to_vec())]
}

/// All texts of this length over the bytes.
fn texts(bytes: &'static [u8], length: u32) -> impl Iterator<Item = Vec<u8>> {
    let count = bytes.len();
    let byte = move |number: usize, place| bytes[number / count.pow(place) % count];
    (0..count.pow(length)).map(move |number| (0..length).map(|place| byte(number, place)).collect())
}

#[test]
fn a_text_has_one_reading_or_none_and_the_reader_finds_it() {
    let mut found = 0;
    for text in (0..=6).flat_map(|length| texts(b"a,\"\r\n\x7F", length)) {
        let readings = readings(&text);
        assert_eq!(read(&text), readings, "{}", text.escape_ascii());
        found += readings.len();
    }
    assert!(found > 2_000, "{found}");
}

#[test]
fn longer_texts_of_what_quotes_decide() {
    for text in texts(b"a,\"\r\n", 8) {
        assert_eq!(read(&text), readings(&text), "{}", text.escape_ascii());
    }
}

#[test]
fn every_byte_is_text_or_not() {
    for byte in 0..=255 {
        for text in [&[byte][..], &[b'a', byte], &[b'"', byte, b'"', b',']] {
            assert_eq!(read(text), readings(text), "{byte:02X}");
        }
    }
}
