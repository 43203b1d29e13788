//! A list for measuring time.

use crate::cases::generator::Generator;

const SEED: u64 = 0x5EED_0009;

/// Lines of an exchange in the order of dialling: names of several kinds, and one call in eight not
/// answered.
pub fn list(lines: usize) -> Vec<u8> {
    let mut generator = Generator::new(SEED);
    let mut list = String::new();
    let mut dialled = 1_234_567;
    for _ in 0..lines {
        dialled += generator.below(60);
        list += &line(&mut generator, dialled);
    }
    list.into_bytes()
}

fn line(generator: &mut Generator, dialled: u32) -> String {
    let name = name(generator);
    let answered = dialled + 1 + generator.below(30);
    if generator.below(8) == 0 {
        return format!("{name},{dialled},,{answered}\r\n");
    }
    let ended = answered + generator.below(900);
    format!("{name},{dialled},{answered},{ended}\r\n")
}

fn name(generator: &mut Generator) -> String {
    let line = 1 + generator.below(64);
    match generator.below(8) {
        0..=2 => format!("Line {line}"),
        3..=5 => format!("\"Line {line}, ground floor\""),
        6 => format!("\"Lift {line} \"\"north\"\"\""),
        _ => format!("\"Gate {line}\r\nyard\""),
    }
}

#[cfg(test)]
mod tests {
    use super::*;
    use crate::calls::import;

    #[test]
    fn every_line_is_a_call() {
        let list = list(10_000);
        assert!((300_000..600_000).contains(&list.len()), "{}", list.len());
        let mut seconds = vec![0; 10_000];
        assert_eq!(import(&list, &mut seconds), (0, 10_000));
        let unanswered = seconds.iter().filter(|&&call| call == 0).count();
        assert!((1_000..1_600).contains(&unanswered), "{unanswered}");
    }
}
