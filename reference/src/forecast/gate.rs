//! The heads that the gate gives to program `forecast`, beside the examples and the sheets: each sentence
//! that it prints, in the singular and in the plural, and each command's name in those that have one.

mod headers;
mod scripts;
mod short;
mod unset;

use super::draft::Draft;
use crate::script::command::{Command, NAMES};

/// A head with its name.
type Named = (String, Vec<u8>);

/// All of them.
pub fn all() -> Vec<Named> {
    let mut all = headers::all();
    all.extend(scripts::all());
    all.extend(unset::all());
    all.extend(short::all());
    all
}

/// The bytes of the head with this name.
pub fn named(name: &str) -> Option<Vec<u8>> {
    let mut heads = all().into_iter();
    heads.find(|head| head.0 == name).map(|head| head.1)
}

fn head(name: &str, draft: Draft) -> Named {
    (name.to_owned(), draft.to_bytes())
}

/// Such a head of a command.
fn head_of_command(word: &str, command: &Command, draft: Draft) -> Named {
    let byte = command.to_bytes()[0];
    head(&name_with(word, byte), draft)
}

/// The word and the command's name, as in `cut-off-add`.
fn name_with(word: &str, byte: u8) -> String {
    let name = NAMES[usize::from(byte)].to_lowercase();
    format!("{word}-{name}")
}

#[cfg(test)]
mod tests {
    use super::*;
    use crate::forecast::forecast;
    use crate::forecast::printed::lines;
    use std::collections::HashSet;

    /// What is printed after the first line.
    fn said(name: &str) -> String {
        let printed = lines(&named(name).expect(name));
        let (_, said) = printed.split_once('\n').expect("a line");
        said.to_owned()
    }

    #[test]
    fn no_two_heads_have_one_name_and_no_two_are_the_same() {
        let all = all();
        let names: HashSet<_> = all.iter().map(|(name, _)| name).collect();
        let heads: HashSet<_> = all.iter().map(|(_, head)| head).collect();
        assert_eq!((names.len(), heads.len()), (all.len(), all.len()));
        assert_eq!(named("nothing"), None);
    }

    /// The gate's shell divides the names at what else could stand in them.
    #[test]
    fn names_are_plain_words() {
        let is_plain = |byte: u8| matches!(byte, b'a'..=b'z' | b'0'..=b'9' | b'-');
        assert!(all().iter().all(|(name, _)| name.bytes().all(is_plain)));
    }

    #[test]
    fn every_number_is_forecast() {
        let seen: HashSet<u32> = all().iter().map(|(_, head)| forecast(head).0).collect();
        let known: HashSet<u32> = [0, 1, 2, 3, 4, 9, 10, 11, 21, 22, 23, 24].into();
        assert_eq!(seen, known);
    }

    #[test]
    fn every_sentence_is_printed() {
        for (name, sentence) in [
            ("no-byte", "The input has 0 bytes, and a header has 11."),
            ("one-byte", "The input has 1 byte, and a header has 11."),
            ("field-4", "Byte 0, the field, is 4: it may be 0 to 3."),
            (
                "eight-parties",
                "Byte 1, n, is 8, and byte 2, t, is 3: n may be 3 to 7, t is at least 1, and 2t + 1 at most n.",
            ),
            (
                "65-inputs",
                "A count is over its limit: 65 input rows of at most 64, 1 mask of at most 16, 0 triples of at \
                 most 512, 1 script byte of at most 1024.",
            ),
            (
                "17-masks",
                "A count is over its limit: 1 input row of at most 64, 17 masks of at most 16, 1 triple of at \
                 most 512, 0 script bytes of at most 1024.",
            ),
            (
                "a-byte-more",
                "The input has 13 bytes: header and script have 12, and a whole sheet has 192.",
            ),
            (
                "59723-bytes",
                "The input has 59723 bytes: header and script have 12, and a whole sheet has 192.",
            ),
            (
                "59724-bytes",
                "The input has 59724 bytes or more: header and script have 12, and a whole sheet has 192.",
            ),
            ("no-command", "The byte at 2 is 15, and the last command is 14."),
            ("empty-script", "The script has 0 bytes and no END."),
            ("no-end", "The script has 2 bytes and no END."),
            ("cut-off-mul", "MUL at 2 is cut off by the script's end."),
            ("after-end", "Bytes follow END, from 3 on."),
            ("out-of-range-const", "CONST at 2 has an operand out of range."),
            (
                "end-alone",
                "By header and script the run comes to END. It takes 0 of 0 input rows, 0 of 0 masks and 0 of 0 triples.",
            ),
            (
                "end-with-all-taken",
                "By header and script the run comes to END. It takes 1 of 1 input rows, 1 of 1 masks and 5 of 5 triples.",
            ),
            (
                "unset-add",
                "ADD at 2 reads register 1, which no command before it sets.",
            ),
            (
                "unset-bitlt",
                "BITLT at 6 reads register 6, which no command before it sets.",
            ),
        ] {
            assert_eq!(said(name), format!("{sentence}\n"), "{name}");
        }
    }

    #[test]
    fn every_sentence_of_what_is_short_is_printed() {
        for (name, first, last) in [
            (
                "short-load",
                "LOAD at 0 needs 1 input row: 0 of 0 input rows are left.",
                "1 input row, 0 masks and 0 triples.",
            ),
            (
                "no-mask-ltz",
                "LTZ at 2 needs 1 mask and 4 triples: 0 of 0 masks and 4 of 4 triples are left.",
                "1 input row, 1 mask and 4 triples.",
            ),
            (
                "short-mul",
                "MUL at 2 needs 1 triple: 0 of 0 triples are left.",
                "1 input row, 0 masks and 1 triple.",
            ),
            (
                "short-bitlt",
                "BITLT at 6 needs 2 triples: 1 of 1 triples are left.",
                "3 input rows, 0 masks and 2 triples.",
            ),
            (
                "needs-64-inputs",
                "LOAD at 126 needs 1 input row: 0 of 63 input rows are left.",
                "64 input rows, 0 masks and 0 triples.",
            ),
            (
                "needs-65-inputs",
                "LOAD at 128 needs 1 input row: 0 of 64 input rows are left.",
                "65 input rows, 0 masks and 0 triples, more than a header may count.",
            ),
            (
                "needs-16-masks",
                "LTZ at 62 needs 1 mask and 4 triples: 0 of 15 masks and 452 of 512 triples are left.",
                "1 input row, 16 masks and 64 triples.",
            ),
            (
                "needs-17-masks",
                "LTZ at 66 needs 1 mask and 4 triples: 0 of 16 masks and 448 of 512 triples are left.",
                "1 input row, 17 masks and 68 triples, more than a header may count.",
            ),
            (
                "needs-512-triples",
                "TRUNC at 22 needs 1 mask and 77 triples: 1 of 6 masks and 76 of 511 triples are left.",
                "1 input row, 6 masks and 512 triples.",
            ),
            (
                "needs-513-triples",
                "MUL at 27 needs 1 triple: 0 of 512 triples are left.",
                "1 input row, 6 masks and 513 triples, more than a header may count.",
            ),
        ] {
            holds_to_need(name, first, last);
        }
    }

    /// The two sentences about what is short.
    fn holds_to_need(name: &str, first: &str, last: &str) {
        let all = format!("The whole script needs {last}");
        assert_eq!(said(name), format!("{first}\n{all}\n"), "{name}");
    }

    #[test]
    fn the_unset_registers_of_ltzs_are_printed() {
        for (name, sentence) in [
            (
                "unset-ltzs",
                "LTZS at 6 reads register 6, which no command before it sets.",
            ),
            (
                "unset-first-of-16",
                "LTZS at 30 reads register 48, which no command before it sets.",
            ),
            (
                "unset-last-of-16",
                "LTZS at 30 reads register 63, which no command before it sets.",
            ),
        ] {
            assert_eq!(said(name), format!("{sentence}\n"), "{name}");
        }
    }

    #[test]
    fn what_is_short_for_ltzs_is_printed() {
        for (name, first, last) in [
            (
                "no-mask-ltzs",
                "LTZS at 4 needs 2 masks and 8 triples: 1 of 1 masks and 8 of 8 triples are left.",
                "2 input rows, 2 masks and 8 triples.",
            ),
            (
                "short-ltzs",
                "LTZS at 4 needs 2 masks and 8 triples: 2 of 2 masks and 7 of 7 triples are left.",
                "2 input rows, 2 masks and 8 triples.",
            ),
            (
                "no-mask-one-sign",
                "LTZS at 2 needs 1 mask and 4 triples: 0 of 0 masks and 4 of 4 triples are left.",
                "1 input row, 1 mask and 4 triples.",
            ),
            (
                "short-16-signs",
                "LTZS at 32 needs 16 masks and 64 triples: 16 of 16 masks and 63 of 63 triples are left.",
                "16 input rows, 16 masks and 64 triples.",
            ),
            (
                "needs-275616-triples",
                "LTZS at 32 needs 16 masks and 1392 triples: 16 of 16 masks and 512 of 512 triples are left.",
                "16 input rows, 3168 masks and 275616 triples, more than a header may count.",
            ),
        ] {
            holds_to_need(name, first, last);
        }
    }

    /// The line about the whole script is missing.
    #[test]
    fn what_is_short_before_an_unset_register_is_printed_alone() {
        for name in ["load", "mod", "mul"] {
            let said = said(&format!("unset-after-{name}"));
            assert_eq!(said.lines().count(), 1);
            assert!(said.ends_with(" are left.\n"), "{said}");
        }
        assert_eq!(said("set-by-refused").lines().count(), 2);
    }

    /// 10 and 11 of every command but END, 21 of those that read, 23 and 24 of those that need a mask or
    /// triples.
    #[test]
    fn every_command_is_named_with_every_number_that_it_can_have() {
        let masked = ["MOD", "TRUNC", "LTZ", "OVER", "BLOCKS", "LTZS"];
        let reading = ["ADD", "SUB", "SCALE", "MUL", "REVEAL", "BITLT"];
        let mut expected: Vec<(u32, &str)> = vec![(22, "LOAD"), (24, "MUL"), (24, "BITLT")];
        expected.extend(NAMES[1..].iter().flat_map(|&name| [(10, name), (11, name)]));
        let unset = masked.iter().chain(&reading);
        expected.extend(unset.map(|&name| (21, name)));
        expected.extend(masked.iter().flat_map(|&name| [(23, name), (24, name)]));
        let all = all();
        for (number, name) in expected {
            let is_said = |head: &[u8]| {
                let (found, place) = forecast(head);
                let start = format!("end {found} at {place}\n{name} at {place} ");
                found == number && lines(head).starts_with(&start)
            };
            assert!(all.iter().any(|(_, head)| is_said(head)), "{number} {name}");
        }
    }
}
