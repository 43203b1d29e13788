//! The lines of the program `table`.

use crate::field::FIELDS;
use crate::present::everyone_of;
use crate::refusal;
use crate::run::{run, Answer};
use crate::signed::decode;

pub const RECORD: usize = 10_850;
pub const REVEALED: usize = 511;

/// What the program prints for a sheet: the field and the parties, each opening, each value
/// revealed, and the end; for a refused input only the end. It takes everyone as present.
pub fn lines(sheet: &[u8]) -> String {
    lines_with(sheet, everyone_of(sheet))
}

/// The same lines of a run with these parties present.
pub fn lines_with(sheet: &[u8], present: u8) -> String {
    let mut record = vec![0; RECORD];
    let mut revealed = vec![0; REVEALED];
    let answer = run(sheet, present, &mut record, &mut revealed);
    let mut lines = String::new();
    if !is_input_refused(&answer) {
        lines += &run_lines(sheet, &answer, &record, &revealed);
    }
    lines + &end_line(&answer)
}

pub fn is_input_refused(answer: &Answer) -> bool {
    (refusal::HEADER..=refusal::PRESENT).contains(&answer.number)
}

pub fn end_line(answer: &Answer) -> String {
    let counts = [answer.inputs, answer.masks, answer.triples, answer.openings];
    end_line_of(answer.number, answer.place, counts)
}

/// The counts are inputs, masks, triples and openings.
pub fn end_line_of(number: u32, place: usize, counts: [usize; 4]) -> String {
    let [inputs, masks, triples, openings] = counts;
    format!(
        "end {number} at {place} inputs {inputs} masks {masks} triples {triples} openings {openings}\n"
    )
}

/// The lines before the last of an accepted sheet.
fn run_lines(sheet: &[u8], answer: &Answer, record: &[u32], revealed: &[u32]) -> String {
    let [field, parties, threshold] = [sheet[0], sheet[1], sheet[2]].map(u32::from);
    let p = FIELDS[field as usize].modulus;
    let mut lines = format!("field {p} parties {parties} threshold {threshold}\n");
    let opened = record.chunks_exact(parties as usize).take(answer.openings);
    for row in opened {
        let shares: String = row.iter().map(|share| format!(" {share}")).collect();
        lines += &format!("opened{shares}\n");
    }
    for &value in &revealed[..answer.revealed] {
        let (_, signed) = decode(field, value);
        lines += &format!("revealed {value} signed {signed}\n");
    }
    lines
}

#[cfg(test)]
mod tests {
    use super::*;
    use crate::sheets::bench;

    const PRINTED: &str = "\
field 13 parties 3 threshold 1
opened 5 6 7
opened 2 3 4
opened 7 12 4
revealed 2 signed 2
end 0 at 10 inputs 2 masks 0 triples 1 openings 3
";

    #[test]
    fn prints_the_run_of_the_paper() {
        assert_eq!(lines(&bench::small()), PRINTED);
    }

    #[test]
    fn refused_input_has_only_the_last_line() {
        let mut sheet = bench::small();
        sheet[11] = 15;
        let end = "end 9 at 0 inputs 0 masks 0 triples 0 openings 0\n";
        assert_eq!(lines(&sheet), end);
        let end = "end 1 at 0 inputs 0 masks 0 triples 0 openings 0\n";
        assert_eq!(lines(&[]), end);
    }

    #[test]
    fn prints_p_for_an_absent_share() {
        let printed = PRINTED
            .replace("opened 5 6 7", "opened 5 13 7")
            .replace("opened 2 3 4", "opened 2 13 4")
            .replace("opened 7 12 4", "opened 7 13 4");
        assert_eq!(lines_with(&bench::small(), 0b101), printed);
        let end = "end 12 at 0 inputs 0 masks 0 triples 0 openings 0\n";
        assert_eq!(lines_with(&bench::small(), 0b100), end);
    }

    /// Whatever the header says of n.
    #[test]
    fn the_program_never_answers_12() {
        for (n, t) in (0..=255).flat_map(|n| [0, 1, 2, 3, 4, 255].map(|t| (n, t))) {
            let sheet = [0, n, t, 0, 0, 0, 0, 0, 0, 1, 0, 0];
            let printed = lines(&sheet);
            assert!(!printed.contains("end 12 "), "{n} {t}: {printed}");
        }
    }

    /// The product reads register 3, which is unset.
    #[test]
    fn a_stopped_run_prints_what_it_did() {
        let mut sheet = bench::small();
        sheet[11..22].copy_from_slice(&[1, 0, 12, 0, 1, 1, 6, 2, 0, 3, 0]);
        let printed = "\
field 13 parties 3 threshold 1
opened 7 9 11
revealed 5 signed 5
end 21 at 6 inputs 2 masks 0 triples 0 openings 1
";
        assert_eq!(lines(&sheet), printed);
    }

    #[test]
    fn signed_reading_of_a_large_value_is_negative() {
        let sheet = [
            0, 3, 1, 0, 0, 0, 0, 0, 0, 9, 0, 2, 63, 7, 0, 0, 0, 12, 63, 0,
        ];
        let printed = "\
field 13 parties 3 threshold 1
opened 7 7 7
revealed 7 signed -6
end 0 at 8 inputs 0 masks 0 triples 0 openings 1
";
        assert_eq!(lines(&sheet), printed);
    }

    #[test]
    fn input_longer_than_the_largest_sheet_is_a_wrong_length_after_1_to_3() {
        let mut sheet = bench::largest();
        sheet.extend([0; 5_000]);
        let refused = |number| format!("end {number} at 0 inputs 0 masks 0 triples 0 openings 0\n");
        assert_eq!(lines(&sheet), refused(4));
        sheet[2] = 4;
        assert_eq!(lines(&sheet), refused(3));
        sheet[0] = 4;
        assert_eq!(lines(&sheet), refused(2));
    }
}
