//! The lines of the program `forecast`: number and place, and what they mean in words.

mod amounts;

use super::case::end_line;
use super::course::{given, needs, needs_of_all, Counts, Stop};
use super::{forecast, read_header};
use crate::field::Field;
use crate::refusal;
use crate::script::command::{NAMES, OPERANDS};
use crate::script::{self, Line, Refused};
use crate::sheet::header::{self, Header, LONGEST_SCRIPT, MOST_INPUTS, MOST_MASKS, MOST_TRIPLES};
use amounts::{counted, left_of, listed, needed, part_of, plain};

/// The program reads no more: it is one byte more than the largest sheet has.
pub const LONGEST: usize = 59_724;

/// How many input rows, masks and triples a header may count.
const MOST: Counts = [MOST_INPUTS, MOST_MASKS, MOST_TRIPLES];

/// What the program prints for header and script, or for a whole sheet.
pub fn lines(input: &[u8]) -> String {
    let read = &input[..input.len().min(LONGEST)];
    let head = taken(read);
    end_line(forecast(head)) + &meaning(head)
}

/// Header and script of what has the length of a whole sheet; else the input as it is.
fn taken(input: &[u8]) -> &[u8] {
    match Header::read(input) {
        Ok(header) => &input[..header.head_length()],
        Err(_) => input,
    }
}

/// The lines after the first.
fn meaning(head: &[u8]) -> String {
    let header = match Header::begin(head) {
        Ok(header) => header,
        Err(number) => return of_header(head, number),
    };
    if read_header(head).is_err() {
        return of_length(&header, head.len());
    }
    let script = &head[header::BYTES..];
    match script::read(script, header.field) {
        Ok(lines) => of_stop(&header, &lines),
        Err(refused) => of_script(script, header.field, refused),
    }
}

/// 1, 2 or 3.
fn of_header(head: &[u8], number: u32) -> String {
    match (number, head) {
        (refusal::FIELD, [field, ..]) => {
            format!("Byte 0, the field, is {field}: it may be 0 to 3.\n")
        }
        (refusal::PARTIES, [_, n, t, ..]) => format!(
            "Byte 1, n, is {n}, and byte 2, t, is {t}: n may be 3 to 7, t is at least 1, and 2t + 1 at \
             most n.\n"
        ),
        _ => format!(
            "The input has {}, and a header has {}.\n",
            counted(head.len(), "byte"),
            header::BYTES
        ),
    }
}

/// 4, of a count or of the length. What follows the bytes that are read is not known.
fn of_length(header: &Header, length: usize) -> String {
    if !header.is_within_limits() {
        return of_counts(header);
    }
    let or_more = if length == LONGEST { " or more" } else { "" };
    format!(
        "The input has {length} bytes{or_more}: header and script have {}, and a whole sheet has {}.\n",
        header.head_length(),
        header.implied_length()
    )
}

fn of_counts(header: &Header) -> String {
    let [inputs, masks, triples] = plain(given(header));
    let script = counted(header.script, "script byte");
    format!(
        "A count is over its limit: {inputs} of at most {MOST_INPUTS}, {masks} of at most {MOST_MASKS}, \
         {triples} of at most {MOST_TRIPLES}, {script} of at most {LONGEST_SCRIPT}.\n"
    )
}

/// 9, 10 or 11.
fn of_script(script: &[u8], field: &Field, Refused { number, place }: Refused) -> String {
    match (number, script.get(place)) {
        (refusal::COMMAND, Some(byte)) => format!(
            "The byte at {place} is {byte}, and the last command is {}.\n",
            OPERANDS.len() - 1
        ),
        (refusal::RANGE, Some(&byte)) => format!(
            "{} at {place} has an operand out of range.\n",
            NAMES[usize::from(byte)]
        ),
        (_, Some(_)) if is_whole(&script[..place], field) => {
            format!("Bytes follow END, from {place} on.\n")
        }
        (_, Some(&byte)) => format!(
            "{} at {place} is cut off by the script's end.\n",
            NAMES[usize::from(byte)]
        ),
        (_, None) => format!("The script has {} and no END.\n", counted(place, "byte")),
    }
}

/// Whether the bytes are commands of which the last is END.
fn is_whole(script: &[u8], field: &Field) -> bool {
    script::read(script, field).is_ok()
}

/// 0, or 21 to 24.
fn of_stop(header: &Header, lines: &[Line]) -> String {
    let stop = Stop::of(header, lines);
    let given = given(header);
    let Line { place, command } = stop.line;
    if stop.number == refusal::NONE {
        let spent = std::array::from_fn(|kind| given[kind] - stop.left[kind]);
        let spent = listed(part_of(spent, given));
        return format!("By header and script the run comes to END. It takes {spent}.\n");
    }
    let name = NAMES[usize::from(command.to_bytes()[0])];
    if let Some(register) = stop.unset() {
        return format!(
            "{name} at {place} reads register {register}, which no command before it sets.\n"
        );
    }
    let needs = needs(&command, header.field);
    let (needed, left) = (needed(needs), left_of(needs, stop.left, given));
    let mut text = format!("{name} at {place} needs {needed}: {left} are left.\n");
    if let Some(all) = needs_of_all(lines, header.field) {
        text += &of_all(all);
    }
    text
}

/// What the whole script needs, and whether there can be no sheet that has it.
fn of_all(needs: Counts) -> String {
    let is_over = needs.iter().zip(MOST).any(|(&count, most)| count > most);
    let over = if is_over {
        ", more than a header may count"
    } else {
        ""
    };
    format!("The whole script needs {}{over}.\n", listed(plain(needs)))
}

#[cfg(test)]
mod tests {
    use super::super::draft::Draft;
    use super::*;
    use crate::script::command::Command;
    use crate::sheets::{bench, examples, gate};

    fn printed(draft: Draft) -> String {
        lines(&draft.to_bytes())
    }

    /// In field 0.
    fn scripted(script: &[u8]) -> String {
        printed(Draft::new(0, script))
    }

    #[test]
    fn a_run_that_comes_to_end_is_told_with_what_it_takes() {
        let sheet = bench::small();
        let expected = "end 0 at 10\n\
            By header and script the run comes to END. It takes 2 of 2 input rows, 0 of 0 masks and 1 of 1 triples.\n";
        assert_eq!(lines(&sheet[..22]), expected);
        assert_eq!(lines(&sheet), expected);
        let more = Draft::new(0, &sheet[11..22]).with_counts([64, 16, 512]);
        let expected = "end 0 at 10\n\
            By header and script the run comes to END. It takes 2 of 64 input rows, 0 of 16 masks and 1 of 512 triples.\n";
        assert_eq!(printed(more), expected);
    }

    #[test]
    fn a_header_is_told_with_the_bytes_at_fault() {
        let of = |length, field, n, t| {
            let header = [field, n, t, 0, 0, 0, 0, 0, 0, 1, 0, 0];
            lines(&header[..length])
        };
        for length in 0..=10 {
            let bytes = if length == 1 { "byte" } else { "bytes" };
            let said = format!("The input has {length} {bytes}, and a header has 11.");
            assert_eq!(of(length, 9, 9, 9), format!("end 1 at 0\n{said}\n"));
        }
        let said = "Byte 0, the field, is 17: it may be 0 to 3.";
        assert_eq!(of(12, 17, 9, 9), format!("end 2 at 0\n{said}\n"));
        let said = "Byte 1, n, is 4, and byte 2, t, is 2: n may be 3 to 7, t is at least 1, and 2t + 1 at most n.";
        assert_eq!(of(12, 3, 4, 2), format!("end 3 at 0\n{said}\n"));
        let said = "Byte 1, n, is 255, and byte 2, t, is 0: n may be 3 to 7, t is at least 1, and 2t + 1 at most n.";
        assert_eq!(of(11, 0, 255, 0), format!("end 3 at 0\n{said}\n"));
    }

    #[test]
    fn a_count_is_told_before_the_length() {
        let draft = Draft::new(0, &[0]).with_counts([65, 2, 3]);
        let mut head = draft.to_bytes();
        let said =
            "A count is over its limit: 65 input rows of at most 64, 2 masks of at most 16, \
            3 triples of at most 512, 1 script byte of at most 1024.";
        let expected = format!("end 4 at 0\n{said}\n");
        assert_eq!(lines(&head), expected);
        head.push(0);
        assert_eq!(lines(&head), expected);
        head.resize(12 + 4 * 3 * (65 + 8 + 9), 0);
        assert_eq!(lines(&head), expected);
        head.resize(LONGEST, 0);
        assert_eq!(lines(&head), expected);
    }

    #[test]
    fn a_count_of_one_is_told_in_the_singular() {
        let draft = Draft::new(0, &[0; 1025]).with_counts([1, 1, 1]);
        let said = "A count is over its limit: 1 input row of at most 64, 1 mask of at most 16, \
            1 triple of at most 512, 1025 script bytes of at most 1024.";
        assert_eq!(printed(draft), format!("end 4 at 0\n{said}\n"));
    }

    #[test]
    fn a_length_is_told_with_the_two_that_are_right() {
        let sheet = bench::small();
        let longer = [&sheet[..], &[0]].concat();
        let inputs = [
            &sheet[..11],
            &sheet[..21],
            &sheet[..23],
            &sheet[..81],
            &longer,
        ];
        for input in inputs {
            let length = input.len();
            let said = format!(
                "The input has {length} bytes: header and script have 22, and a whole sheet has 82."
            );
            assert_eq!(lines(input), format!("end 4 at 0\n{said}\n"));
        }
    }

    /// Of the largest sheet and more the program reads one byte more than the sheet has.
    #[test]
    fn no_more_is_read_than_a_byte_over_the_largest_sheet() {
        let mut sheet = bench::largest();
        assert_eq!(sheet.len() + 1, LONGEST);
        assert!(lines(&sheet).starts_with("end 0 at 1023\n"));
        let said =
            "The input has 59724 bytes or more: header and script have 1035, and a whole sheet has 59723.";
        for more in [1, 1, 5_000] {
            sheet.extend(vec![0; more]);
            assert_eq!(lines(&sheet), format!("end 4 at 0\n{said}\n"));
        }
        sheet[0] = 4;
        assert!(lines(&sheet).starts_with("end 2 at 0\n"));
    }

    #[test]
    fn a_script_is_told_with_its_first_fault() {
        for (script, expected) in [
            (
                &[1, 0, 15, 0][..],
                "end 9 at 2\nThe byte at 2 is 15, and the last command is 14.\n",
            ),
            (&[], "end 10 at 0\nThe script has 0 bytes and no END.\n"),
            (&[1, 0], "end 10 at 2\nThe script has 2 bytes and no END.\n"),
            (
                &[1, 0, 6, 0],
                "end 10 at 2\nMUL at 2 is cut off by the script's end.\n",
            ),
            (
                &[1, 0, 0, 6, 0],
                "end 10 at 3\nBytes follow END, from 3 on.\n",
            ),
            (&[0, 15], "end 10 at 1\nBytes follow END, from 1 on.\n"),
            (
                &[13, 0, 63, 2, 0, 0, 0, 0, 0],
                "end 11 at 0\nBITLT at 0 has an operand out of range.\n",
            ),
        ] {
            assert_eq!(scripted(script), expected);
        }
    }

    #[test]
    fn every_command_is_named() {
        for (byte, &length) in OPERANDS.iter().enumerate().skip(1) {
            let script = [vec![byte as u8], vec![255; length], vec![0]].concat();
            let said = format!("{} at 0 has an operand out of range.\n", NAMES[byte]);
            assert_eq!(scripted(&script), format!("end 11 at 0\n{said}"));
            let said = format!("{} at 0 is cut off by the script's end.\n", NAMES[byte]);
            let cut_off = scripted(&script[..length]);
            assert_eq!(cut_off, format!("end 10 at 0\n{said}"));
        }
    }

    #[test]
    fn an_unset_register_is_told() {
        let expected = "end 21 at 2\nADD at 2 reads register 5, which no command before it sets.\n";
        let add = Draft::new(0, &[1, 0, 3, 5, 0, 5, 0]).with_counts([1, 0, 0]);
        assert_eq!(printed(add), expected);
    }

    /// The script of the example, with fewer masks or triples.
    fn three_calls(counts: [u16; 3]) -> String {
        let sheet = examples::named("three-calls").unwrap();
        printed(Draft::new(2, &sheet[11..49]).with_counts(counts))
    }

    #[test]
    fn what_is_short_is_told_with_what_the_command_and_the_script_need() {
        let all = "The whole script needs 3 input rows, 3 masks and 78 triples.";
        let said = "LOAD at 4 needs 1 input row: 0 of 2 input rows are left.";
        assert_eq!(
            three_calls([2, 3, 78]),
            format!("end 22 at 4\n{said}\n{all}\n")
        );
        let said =
            "BLOCKS at 16 needs 1 mask and 26 triples: 0 of 2 masks and 3 of 55 triples are left.";
        assert_eq!(
            three_calls([3, 2, 55]),
            format!("end 23 at 16\n{said}\n{all}\n")
        );
        let said =
            "BLOCKS at 16 needs 1 mask and 26 triples: 1 of 3 masks and 25 of 77 triples are left.";
        assert_eq!(
            three_calls([3, 3, 77]),
            format!("end 24 at 16\n{said}\n{all}\n")
        );
    }

    #[test]
    fn one_is_told_in_the_singular() {
        let (d, a, b) = (0, 0, 0);
        let square = Draft::of(0, &[Command::Load { d }, Command::Mul { d, a, b }]);
        let expected = "end 24 at 2\nMUL at 2 needs 1 triple: 0 of 0 triples are left.\n\
            The whole script needs 1 input row, 0 masks and 1 triple.\n";
        assert_eq!(printed(square.with_counts([1, 0, 0])), expected);
    }

    /// The second LOAD sets the register that REVEAL reads, though it is refused.
    #[test]
    fn the_whole_script_is_told_unless_a_later_command_reads_an_unset_register() {
        let (first, second) = (Command::Load { d: 0 }, Command::Load { d: 1 });
        let told = |a| {
            let draft = Draft::of(0, &[first, second, Command::Reveal { a }]);
            printed(draft.with_counts([1, 0, 0]))
        };
        let said = "end 22 at 2\nLOAD at 2 needs 1 input row: 0 of 1 input rows are left.\n";
        let all = "The whole script needs 2 input rows, 0 masks and 0 triples.\n";
        assert_eq!(told(1), format!("{said}{all}"));
        assert_eq!(told(2), said);
    }

    /// One over each limit; the last that a header may count is told without.
    #[test]
    fn needs_over_a_limit_are_told_as_such() {
        let at_most = "The whole script needs 64 input rows, 16 masks and 512 triples.\n";
        assert_eq!(of_all(MOST), at_most);
        let over = "The whole script needs 65 input rows, 16 masks and 512 triples, more than a header may count.\n";
        assert_eq!(of_all([65, 16, 512]), over);
        for needs in [[64, 17, 512], [64, 16, 513], [0, 17, 0], [0, 0, 513]] {
            assert!(of_all(needs).ends_with(" triples, more than a header may count.\n"));
        }
    }

    /// A sheet with rows is forecast by its header and script, also where a run refuses its rows.
    #[test]
    fn a_whole_sheet_is_told_like_its_head() {
        let sheets = gate::all();
        for (name, sheet) in sheets.iter().filter(|(name, _)| name != "end-4") {
            let head = super::super::head_of(sheet);
            assert_eq!(lines(sheet), lines(head), "{name}");
        }
    }
}
