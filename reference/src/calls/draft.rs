//! Lines as they are written: fields with quotes and without.

use crate::cases::generator::Generator;

pub const LARGEST_TIME: u32 = 9_999_999;

#[derive(Clone)]
pub struct Field {
    pub text: Vec<u8>,
    pub quoted: bool,
}

impl Field {
    /// Between quotes each quote is doubled.
    fn to_bytes(&self) -> Vec<u8> {
        if !self.quoted {
            return self.text.clone();
        }
        let mut bytes = vec![b'"'];
        for &byte in &self.text {
            bytes.push(byte);
            if byte == b'"' {
                bytes.push(b'"');
            }
        }
        bytes.push(b'"');
        bytes
    }
}

pub type Line = Vec<Field>;

/// The lines with a line break after each but the last.
pub fn bytes_of(lines: &[Line]) -> Vec<u8> {
    let line = |fields: &Line| {
        let fields: Vec<_> = fields.iter().map(Field::to_bytes).collect();
        fields.join(&b","[..])
    };
    let lines: Vec<_> = lines.iter().map(line).collect();
    lines.join(&b"\r\n"[..])
}

/// A good line: times in order, often equal or next to each other, and one call in five not
/// answered.
pub fn good(generator: &mut Generator) -> Line {
    let bound = generator.pick(&[10, 1_000, LARGEST_TIME + 1]);
    let any = generator.below(bound);
    let dialled = generator.pick(&[any, any, any, LARGEST_TIME]);
    let answered = later(generator, dialled);
    let ended = later(generator, answered);
    let mut line = vec![
        name(generator),
        time(generator, dialled),
        time(generator, answered),
        time(generator, ended),
    ];
    if generator.below(5) == 0 {
        line[2].text.clear();
    }
    line
}

fn later(generator: &mut Generator, time: u32) -> u32 {
    let any = generator.below(1_000);
    let more = generator.pick(&[0, 1, 2, any, any, LARGEST_TIME]);
    (time + more).min(LARGEST_TIME)
}

/// At times with leading zeros, and at times quoted.
fn time(generator: &mut Generator, time: u32) -> Field {
    let width = generator.pick(&[1, 1, 1, 4, 7]);
    Field {
        text: format!("{time:0width$}").into_bytes(),
        quoted: generator.below(6) == 0,
    }
}

/// Quoted where it must be, and at times where it need not.
fn name(generator: &mut Generator) -> Field {
    let length = generator.below(6);
    let text = (0..length).flat_map(|_| part(generator)).copied();
    let text: Vec<u8> = text.collect();
    let must = text.iter().any(|byte| b"\",\r\n".contains(byte));
    let quoted = must || generator.below(4) == 0;
    Field { text, quoted }
}

/// A part of a name; the last five must be quoted.
fn part(generator: &mut Generator) -> &'static [u8] {
    let parts: [&[u8]; 16] = [
        b"a", b"Z", b"7", b" ", b"!", b"#", b"+", b"-", b"~", b"Line", b"12", b"\"", b",", b"\r\n",
        b"\r", b"\n",
    ];
    generator.pick(&parts)
}
