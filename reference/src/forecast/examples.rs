//! The heads of examples/heads: header and script of the example sheet three-calls, and what can be wrong
//! with them and with those of the sheet lift-bank.

use super::head_of;
use crate::sheets::examples;

pub const NAMES: [&str; 5] = [
    "three-calls",
    "one-mask-short",
    "one-triple-short",
    "unset-register",
    "lift-bank-one-triple-short",
];

/// Where the header has its masks and its triples.
const MASKS: usize = 5;
const TRIPLES: usize = 7;

/// The bytes of the head with this name.
pub fn named(name: &str) -> Option<Vec<u8>> {
    match name {
        "three-calls" => Some(of("three-calls")),
        "one-mask-short" => Some(one_less("three-calls", MASKS)),
        "one-triple-short" => Some(one_less("three-calls", TRIPLES)),
        "unset-register" => Some(unset_register()),
        "lift-bank-one-triple-short" => Some(one_less("lift-bank", TRIPLES)),
        _ => None,
    }
}

/// Header and script of the example sheet.
fn of(sheet: &str) -> Vec<u8> {
    let sheet = examples::named(sheet).expect("the sheet is there");
    head_of(&sheet).to_vec()
}

/// No count is a multiple of 256, so that one less is one less in its first byte.
fn one_less(sheet: &str, place: usize) -> Vec<u8> {
    let mut head = of(sheet);
    head[place] -= 1;
    head
}

/// The third BLOCKS stands after the additions, of which the second reads its register. The script begins
/// at 11; BLOCKS has five bytes from 16 on, and each addition four.
fn unset_register() -> Vec<u8> {
    let mut head = of("three-calls");
    head[11 + 16..11 + 29].rotate_left(5);
    head
}

#[cfg(test)]
mod tests {
    use super::*;
    use crate::forecast::printed::lines;

    const PRINTED: [&str; 5] = [
        "end 0 at 37\n\
         By header and script the run comes to END. It takes 3 of 3 input rows, 3 of 3 masks and 78 of 78 triples.\n",
        "end 23 at 16\n\
         BLOCKS at 16 needs 1 mask and 26 triples: 0 of 2 masks and 26 of 78 triples are left.\n\
         The whole script needs 3 input rows, 3 masks and 78 triples.\n",
        "end 24 at 16\n\
         BLOCKS at 16 needs 1 mask and 26 triples: 1 of 3 masks and 25 of 77 triples are left.\n\
         The whole script needs 3 input rows, 3 masks and 78 triples.\n",
        "end 21 at 20\n\
         ADD at 20 reads register 5, which no command before it sets.\n",
        "end 24 at 78\n\
         LTZS at 78 needs 12 masks and 504 triples: 12 of 12 masks and 503 of 503 triples are left.\n\
         The whole script needs 12 input rows, 12 masks and 504 triples.\n",
    ];

    #[test]
    fn every_name_is_printed_as_it_should() {
        for (name, printed) in NAMES.into_iter().zip(PRINTED) {
            assert_eq!(lines(&named(name).expect(name)), printed, "{name}");
        }
        assert_eq!(named("nothing"), None);
    }

    /// In another order.
    #[test]
    fn unset_register_has_the_commands_of_three_calls() {
        let (mut head, mut moved) = (of("three-calls"), unset_register());
        assert_ne!(head, moved);
        head.sort();
        moved.sort();
        assert_eq!(head, moved);
    }
}
