//! Short inputs that hold the model's definition of the column form: crate model computes each, and the
//! stored cases have them too.

use super::case::Case;
use super::draft::Draft;
use super::{to_columns, Way};
use crate::sheets::bench;

/// In the model's table an output is a list of numbers, and place i is this and i more before.
pub const BEFORE: u16 = 100;

/// An input, turned one way, with the length of the lent output.
pub struct Held {
    /// What the input is for. It starts with the number that is answered, and with none where that is 0.
    pub says: String,
    pub case: Case,
}

/// The number, and the whole output.
pub struct Left {
    pub number: u32,
    pub output: Vec<u16>,
}

impl Held {
    /// An output of bytes cannot have another one in each place. So the input is turned on the low bytes
    /// of the places, on their complements, and on the high bytes: where the first two agree a byte was
    /// written, and elsewhere stands what was at the place that low and high byte tell.
    pub fn left(&self) -> Left {
        let low = self.case.outcome_on(|place| place as u8);
        let other = self.case.outcome_on(|place| !(place as u8));
        let high = self.case.outcome_on(|place| (place >> 8) as u8);
        let number = |place: usize| match low.output[place] {
            byte if byte == other.output[place] => u16::from(byte),
            byte => BEFORE + u16::from_le_bytes([byte, high.output[place]]),
        };
        Left {
            number: low.number,
            output: (0..self.case.lent).map(number).collect(),
        }
    }
}

fn held(says: String, way: Way, input: &[u8], lent: usize) -> Held {
    let input = input.to_vec();
    let case = Case { way, input, lent };
    Held { says, case }
}

/// The same input to the column form and to the sheet.
fn both(says: &str, input: &[u8], lent: usize) -> [Held; 2] {
    let of = |way, goal| held(format!("{says}, to the {goal}"), way, input, lent);
    [of(Way::ToColumns, "column form"), of(Way::ToSheet, "sheet")]
}

pub fn all() -> Vec<Held> {
    let mut all = shapes();
    all.extend(parties());
    all.extend(masks());
    all.extend(bodies());
    all.extend(room());
    all.extend(refused());
    all.extend(ordered());
    all
}

/// All of them, as the stored cases have them.
pub fn cases() -> Vec<Case> {
    all().into_iter().map(|held| held.case).collect()
}

/// Three parties in field 0, and what the input has besides the header.
fn shapes() -> Vec<Held> {
    let shapes = [
        ("nothing but a header", (0, 0, 0), 0),
        ("a script alone", (0, 0, 0), 3),
        ("one row, which stays as it is", (1, 0, 0), 0),
        ("two inputs", (2, 0, 0), 0),
        ("a triple, of which both ways make the same", (0, 0, 1), 0),
        ("a mask", (0, 1, 0), 0),
        ("script, input, mask and triple", (1, 1, 1), 2),
    ];
    let shape = |(says, (inputs, masks, triples), script)| {
        let draft = Draft::plain()
            .with_rows(inputs, masks, triples)
            .with_script(script);
        exact(says, draft)
    };
    shapes.into_iter().flat_map(shape).collect()
}

/// With an output as long as the input.
fn exact(says: &str, draft: Draft) -> [Held; 2] {
    let input = draft.counting();
    both(says, &input, input.len())
}

fn parties() -> Vec<Held> {
    let parties = [
        ("four parties", 4, 1),
        ("five parties", 5, 2),
        ("six parties", 6, 2),
        ("seven parties", 7, 3),
    ];
    let inputs = |(says, n, t)| exact(says, Draft::new(0, n, t).with_rows(2, 0, 0));
    parties.into_iter().flat_map(inputs).collect()
}

/// One mask in the other fields: 8, 16 and 31 rows.
fn masks() -> Vec<Held> {
    let [small, middle, large] = [1, 2, 3].map(|field| {
        let draft = Draft::new(field, 3, 1).with_rows(0, 1, 0);
        draft.counting()
    });
    let mut masks = Vec::from(both("a mask in field 1", &small, small.len()));
    let says = "a mask in field 2, to the sheet".to_owned();
    masks.push(held(says, Way::ToSheet, &middle, middle.len()));
    let says = "a mask in field 3, to the column form".to_owned();
    masks.push(held(says, Way::ToColumns, &large, large.len()));
    masks
}

/// What the bytes after the header are is not looked at.
fn bodies() -> Vec<Held> {
    let sheet = bench::small();
    let mut columns = vec![0; sheet.len()];
    to_columns(&sheet, &mut columns);
    let says = "the sheet of the paper's printed run, to the column form".to_owned();
    let mut bodies = vec![held(says, Way::ToColumns, &sheet, sheet.len())];
    let says = "its column form, to the sheet".to_owned();
    bodies.push(held(says, Way::ToSheet, &columns, columns.len()));
    let rows = Draft::plain().with_rows(2, 0, 0);
    let no_sharings = rows.with_shares([1, 2, 4, 12, 0, 12]);
    let says = "shares below p, in rows that are no sharings";
    bodies.extend(both(says, &no_sharings, no_sharings.len()));
    bodies
}

fn room() -> Vec<Held> {
    let input = Draft::plain().with_rows(2, 0, 0).with_script(1).counting();
    let length = input.len();
    let mut room = Vec::new();
    room.extend(both("the output is one longer", &input, length + 1));
    room.extend(both("the output has a tail", &input, length + 12));
    room.extend(both("15: the output is one short", &input, length - 1));
    room.extend(both("15: there is no output", &input, 0));
    room
}

/// Each number where nothing else is wrong.
fn refused() -> Vec<Held> {
    let input = Draft::plain().with_rows(1, 0, 0).counting();
    let (shorter, longer) = (&input[..22], [input.as_slice(), &[1]].concat());
    let with = |field, n, t| {
        let draft = Draft::new(field, n, t).with_rows(1, 0, 0);
        draft.counting()
    };
    let mut refused = Vec::new();
    refused.extend(both("1: no byte", &[], 12));
    refused.extend(both("1: ten bytes", &input[..10], 12));
    refused.extend(both("2: field 4", &with(4, 3, 1), 24));
    refused.extend(both("3: two parties", &with(0, 2, 1), 20));
    refused.extend(both("3: eight parties", &with(0, 8, 1), 44));
    refused.extend(both("3: threshold 0", &with(0, 3, 0), 24));
    refused.extend(both("3: threshold 2 of four", &with(0, 4, 2), 28));
    refused.extend(both("4: a byte too few", shorter, 24));
    refused.extend(both("4: a byte too many", &longer, 24));
    let script = long_script();
    refused.extend(both("4: a script of 1,025 bytes", &script, script.len()));
    refused
}

/// A script that is one byte over its limit, and as many bytes as the header implies.
fn long_script() -> Vec<u8> {
    let mut input = Draft::plain().with_script(1025).header();
    input.extend([7; 1025]);
    input
}

/// Each number where the later ones apply too.
fn ordered() -> Vec<Held> {
    let many = Draft::plain().with_rows(256, 0, 0);
    let header = |field, parties| {
        let draft = Draft {
            field,
            parties,
            ..many
        };
        draft.header()
    };
    let [one, other] = Way::BOTH;
    let row = |says: &str, way, input: &[u8], lent| held(says.to_owned(), way, input, lent);
    let mut ordered = vec![
        row("1 before the rest", one, &header(4, 8)[..10], 0),
        row(
            "2 before the rest: field 4 with n 8",
            other,
            &header(4, 8),
            0,
        ),
        row(
            "3 before the rest: n 8 and a wrong length",
            one,
            &header(0, 8),
            0,
        ),
        row("4 before 15: no output", other, &header(0, 3), 0),
        row("4: 256 inputs are not 0", one, &header(0, 3), 11),
    ];
    let longer = [Draft::plain().header(), vec![1]].concat();
    let says = "4 before 15: a header and a byte too many, no output";
    ordered.extend(both(says, &longer, 0));
    ordered
}

#[cfg(test)]
mod tests {
    use super::*;
    use crate::sheets::held::number_said;

    #[test]
    fn each_comment_starts_with_the_number_answered() {
        for held in all() {
            assert_eq!(held.left().number, number_said(&held.says), "{}", held.says);
        }
    }

    #[test]
    fn no_two_comments_are_the_same() {
        let mut comments: Vec<_> = all().into_iter().map(|held| held.says).collect();
        let count = comments.len();
        assert!((50..=70).contains(&count), "{count}");
        comments.sort();
        comments.dedup();
        assert_eq!(comments.len(), count);
    }

    #[test]
    fn inputs_are_short_but_for_two_masks_and_a_script() {
        let long = |held: &&Held| held.case.input.len() > 120 || held.case.lent > 120;
        let all = all();
        let says: Vec<_> = all.iter().filter(long).map(|held| &held.says).collect();
        let expected = [
            "a mask in field 2, to the sheet",
            "a mask in field 3, to the column form",
            "4: a script of 1,025 bytes, to the column form",
            "4: a script of 1,025 bytes, to the sheet",
        ];
        assert_eq!(says, expected);
    }

    #[test]
    fn a_refusal_leaves_the_output_and_else_the_tail_is_left() {
        for held in all() {
            let left = held.left();
            let written = match left.number {
                0 => held.case.input.len(),
                _ => 0,
            };
            let bytes = held.case.outcome().output;
            let front = bytes[..written].iter().map(|&byte| u16::from(byte));
            let tail = (BEFORE..).take(held.case.lent).skip(written);
            assert!(
                left.output.into_iter().eq(front.chain(tail)),
                "{}",
                held.says
            );
        }
    }

    /// By hand.
    #[test]
    fn two_inputs_go_there_and_back() {
        let left = |says: &str| {
            let found = all().into_iter().find(|held| held.says == says);
            found.expect("the input is in the table").left().output
        };
        let header = [0, 3, 1, 2, 0, 0, 0, 0, 0, 0, 0];
        let there = left("two inputs, to the column form");
        assert_eq!(there[..11], header);
        let columns = [
            1, 2, 3, 4, 13, 14, 15, 16, 5, 6, 7, 8, 17, 18, 19, 20, 9, 10, 11, 12, 21, 22, 23, 24,
        ];
        assert_eq!(there[11..], columns);
        let back = left("two inputs, to the sheet");
        assert_eq!(back[..11], header);
        let rows = [
            1, 2, 3, 4, 9, 10, 11, 12, 17, 18, 19, 20, 5, 6, 7, 8, 13, 14, 15, 16, 21, 22, 23, 24,
        ];
        assert_eq!(back[11..], rows);
    }
}
