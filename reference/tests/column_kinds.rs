//! The stored inputs of the column form are of every kind, either way.

use std::collections::HashSet;

use reference::cases::PERMITTED;
use reference::columns::case::Case;
use reference::columns::{held, stored, Way};
use reference::field::FIELDS;
use reference::present::everyone_of;
use reference::sheet::Sheet;
use reference::sheets::bench;

/// What a stored case shows of itself.
struct Seen {
    case: Case,
    number: u32,
    /// The whole output.
    output: Vec<u8>,
}

/// The most inputs, masks, triples and script bytes.
const LIMITS: [usize; 4] = [64, 16, 512, 1024];

impl Seen {
    fn length(&self) -> usize {
        self.case.input.len()
    }

    /// A byte of the input; 0 where it ends before.
    fn byte(&self, place: usize) -> usize {
        self.case.input.get(place).map_or(0, |&byte| byte.into())
    }

    /// Inputs, masks, triples and script bytes.
    fn counts(&self) -> [usize; 4] {
        [3, 5, 7, 9].map(|place| self.byte(place) + 256 * self.byte(place + 1))
    }

    fn rows(&self) -> usize {
        let [inputs, masks, triples, _] = self.counts();
        let field = FIELDS.get(self.byte(0));
        let bits = field.map_or(0, |field| field.bits() as usize);
        inputs + masks * bits + 3 * triples
    }

    fn front(&self) -> usize {
        11 + self.counts()[3]
    }

    /// The length that the header asks for.
    fn implied(&self) -> usize {
        self.front() + 4 * self.rows() * self.byte(1)
    }

    fn has_header(&self) -> bool {
        self.length() >= 11
    }

    fn has_field(&self) -> bool {
        self.byte(0) <= 3
    }

    fn has_parties(&self) -> bool {
        let (n, t) = (self.byte(1), self.byte(2));
        (3..=7).contains(&n) && t >= 1 && 2 * t < n
    }

    /// Which counts are over their limits.
    fn over(&self) -> [bool; 4] {
        let counts = self.counts();
        [0, 1, 2, 3].map(|place| counts[place] > LIMITS[place])
    }

    fn is_long_as_implied(&self) -> bool {
        self.length() == self.implied()
    }

    /// Nothing is wrong with counts and length.
    fn has_length(&self) -> bool {
        self.over() == [false; 4] && self.is_long_as_implied()
    }

    /// The output takes the input and what the header asks for.
    fn has_room(&self) -> bool {
        self.case.lent >= self.length().max(self.implied())
    }

    /// The output takes neither.
    fn has_no_room(&self) -> bool {
        self.case.lent < self.length().min(self.implied())
    }

    /// Alone: this is wrong, and nothing else is.
    fn is_alone(&self, number: u32) -> bool {
        let checks = [
            (1, self.has_header()),
            (2, self.has_field()),
            (3, self.has_parties()),
            (4, self.has_length()),
            (15, self.has_room()),
        ];
        let is_so = |&(tried, holds): &(u32, bool)| holds == (tried != number);
        self.number == number && checks.iter().all(is_so)
    }

    /// One count is over its limit, and all else is right.
    fn is_over_alone(&self, place: usize) -> bool {
        let one = [0, 1, 2, 3].map(|other| other == place);
        self.is_alone(4) && self.over() == one && self.is_long_as_implied()
    }

    /// The sheet, if it was turned: the input or what was written.
    fn sheet(&self) -> Option<&[u8]> {
        let bytes = match self.case.way {
            Way::ToColumns => &self.case.input,
            Way::ToSheet => &self.output,
        };
        (self.number == 0).then(|| &bytes[..self.length()])
    }

    /// The number that the sheet's shares would get in a run, if it was turned.
    fn read(&self) -> Option<u32> {
        let sheet = self.sheet()?;
        Some(Sheet::read(sheet, everyone_of(sheet)).err().unwrap_or(0))
    }

    fn script(&self) -> &[u8] {
        &self.case.input[11..self.front()]
    }

    fn has_rows(&self, inputs: bool, masks: bool, triples: bool) -> bool {
        let [of_inputs, of_masks, of_triples, _] = self.counts().map(|count| count > 0);
        self.number == 0 && [of_inputs, of_masks, of_triples] == [inputs, masks, triples]
    }

    /// Turned with an output so much longer.
    fn is_longer_by(&self, least: usize, most: usize) -> bool {
        let more = self.case.lent.checked_sub(self.length());
        self.number == 0 && more.is_some_and(|more| (least..=most).contains(&more))
    }

    /// No two shares are the same, and no two bytes next to each other.
    fn is_uneven(&self) -> bool {
        let shares = &self.case.input[self.front()..];
        let different: HashSet<_> = shares.chunks_exact(4).collect();
        let even = shares.windows(2).any(|pair| pair[0] == pair[1]);
        different.len() == self.rows() * self.byte(1) && !even
    }
}

/// A kind of case, and whether the one seen is of it.
type Kind = (&'static str, fn(&Seen) -> bool);

const ALONE: [Kind; 17] = [
    ("1: no byte, with room", |it| {
        it.number == 1 && it.length() == 0 && it.case.lent >= 11
    }),
    ("1: ten bytes of a good header, with room", |it| {
        let good = it.has_field() && it.has_parties();
        it.number == 1 && it.length() == 10 && good && it.case.lent >= 11
    }),
    ("2 alone: field 4", |it| it.is_alone(2) && it.byte(0) == 4),
    ("2 alone: field 255", |it| {
        it.is_alone(2) && it.byte(0) == 255
    }),
    ("3 alone: n 2", |it| it.is_alone(3) && it.byte(1) == 2),
    ("3 alone: n 8", |it| it.is_alone(3) && it.byte(1) == 8),
    ("3 alone: t 0", |it| {
        it.is_alone(3) && it.byte(2) == 0 && it.byte(1) == 3
    }),
    ("3 alone: 2t + 1 is n + 1", |it| {
        it.is_alone(3) && 2 * it.byte(2) == it.byte(1) && it.byte(1) == 4
    }),
    ("3 alone: 2t + 1 is n + 2", |it| {
        it.is_alone(3) && 2 * it.byte(2) == it.byte(1) + 1 && it.byte(1) == 7
    }),
    ("4 alone: 65 inputs", |it| it.is_over_alone(0)),
    ("4 alone: 17 masks", |it| it.is_over_alone(1)),
    ("4 alone: 513 triples", |it| it.is_over_alone(2)),
    ("4 alone: 1025 script bytes", |it| it.is_over_alone(3)),
    ("4 alone: a byte short", |it| {
        it.is_alone(4) && it.length() + 1 == it.implied()
    }),
    ("4 alone: a byte long", |it| {
        it.is_alone(4) && it.length() == it.implied() + 1
    }),
    ("15 alone: one place short", |it| {
        it.is_alone(15) && it.case.lent + 1 == it.length()
    }),
    ("15 alone: no place", |it| {
        it.is_alone(15) && it.case.lent == 0
    }),
];

const ORDERED: [Kind; 10] = [
    ("1 before the rest", |it| {
        it.number == 1
            && it.length() == 10
            && it.byte(0) > 3
            && !it.has_parties()
            && it.has_no_room()
    }),
    ("2 before the rest", |it| {
        it.number == 2 && !it.has_parties() && !it.has_length() && it.case.lent < it.length()
    }),
    ("2 before 3 alone: field 4 with n 8", |it| {
        let others = it.is_long_as_implied() && it.has_room();
        it.number == 2 && it.byte(0) == 4 && it.byte(1) == 8 && others
    }),
    ("2 before 15 alone", |it| {
        it.number == 2 && it.has_parties() && it.has_length() && it.has_no_room()
    }),
    ("3 before the rest", |it| {
        it.number == 3 && !it.has_length() && it.has_no_room()
    }),
    ("3 before 4 alone", |it| {
        it.number == 3 && !it.has_length() && it.case.lent > it.length()
    }),
    ("3 before 15 alone", |it| {
        it.number == 3 && it.has_length() && it.has_no_room()
    }),
    ("4 before 15: a byte short, and no room for it", |it| {
        it.number == 4 && it.length() + 1 == it.implied() && it.has_no_room()
    }),
    (
        "4 before 15: a header and a byte too many, and no place",
        |it| it.number == 4 && it.length() == 12 && it.implied() == 11 && it.case.lent == 0,
    ),
    ("4 before 15: by a count", |it| {
        it.number == 4 && it.over()[0] && it.has_no_room()
    }),
];

const SHAPES: [Kind; 11] = [
    ("a header alone", |it| it.number == 0 && it.length() == 11),
    ("a script alone", |it| {
        it.has_rows(false, false, false) && it.length() > 11
    }),
    ("only inputs", |it| it.has_rows(true, false, false)),
    ("only masks", |it| it.has_rows(false, true, false)),
    ("only triples", |it| it.has_rows(false, false, true)),
    ("inputs and masks", |it| it.has_rows(true, true, false)),
    ("inputs and triples", |it| it.has_rows(true, false, true)),
    ("masks and triples", |it| it.has_rows(false, true, true)),
    ("triples by two bytes that are not 0", |it| {
        it.number == 0 && it.byte(7) > 0 && it.byte(8) > 0 && it.is_uneven()
    }),
    ("script bytes by two bytes that are not 0", |it| {
        it.number == 0 && it.byte(9) > 0 && it.byte(10) > 0 && it.rows() > 0
    }),
    ("a script of 256 bytes", |it| {
        it.number == 0 && it.counts()[3] == 256
    }),
];

const OTHERS: [Kind; 13] = [
    ("an output that is filled", |it| it.is_longer_by(0, 0)),
    ("an output that is one longer", |it| it.is_longer_by(1, 1)),
    ("an output with a long tail", |it| it.is_longer_by(200, 400)),
    ("15 of a header alone", |it| {
        it.is_alone(15) && it.length() == 11
    }),
    (
        "a count of 256 whose low byte is 0, without its rows",
        |it| it.number == 4 && it.length() == 11 && it.counts()[0] == 256,
    ),
    ("a sheet that would run", |it| {
        it.read() == Some(0) && it.rows() > 0
    }),
    ("shares not below p", |it| it.read() == Some(5)),
    ("rows that are no sharings", |it| it.read() == Some(6)),
    ("a mask that is not well formed", |it| it.read() == Some(7)),
    ("a triple that is not well formed", |it| {
        it.read() == Some(8)
    }),
    ("the largest bytes alone", |it| {
        it.number == 0 && it.rows() > 0 && it.case.input[it.front()..].iter().all(|&b| b == 255)
    }),
    ("a script that is no commands", |it| {
        it.number == 0 && it.rows() > 0 && it.counts()[3] > 0 && it.script().iter().all(|&b| b > 13)
    }),
    ("a script of every byte", |it| {
        it.number == 0 && it.rows() > 0 && it.script().iter().collect::<HashSet<_>>().len() == 256
    }),
];

fn seen() -> Vec<Seen> {
    seen_of(stored::all())
}

fn seen_of(cases: Vec<Case>) -> Vec<Seen> {
    let seen = |case: Case| {
        let outcome = case.outcome();
        Seen {
            case,
            number: outcome.number,
            output: outcome.output,
        }
    };
    cases.into_iter().map(seen).collect()
}

#[test]
fn every_kind_is_stored_either_way() {
    let seen = seen();
    for way in Way::BOTH {
        let of_way = || seen.iter().filter(|it| it.case.way == way);
        let kinds = ALONE.iter().chain(&ORDERED).chain(&SHAPES).chain(&OTHERS);
        for (name, is_of) in kinds {
            assert!(of_way().any(is_of), "{way:?}: {name}");
        }
    }
}

/// The kinds that the model's table has either way. It has others one way only, and leaves out what is
/// long.
const IN_THE_TABLE: [&str; 15] = [
    "1: no byte, with room",
    "1: ten bytes of a good header, with room",
    "2 alone: field 4",
    "3 alone: n 2",
    "3 alone: n 8",
    "3 alone: t 0",
    "3 alone: 2t + 1 is n + 1",
    "4 alone: 1025 script bytes",
    "4 alone: a byte short",
    "4 alone: a byte long",
    "4 before 15: a header and a byte too many, and no place",
    "15 alone: one place short",
    "15 alone: no place",
    "an output that is filled",
    "an output that is one longer",
];

#[test]
fn the_model_s_table_has_these_kinds_either_way() {
    let seen = seen_of(held::cases());
    for name in IN_THE_TABLE {
        let mut kinds = ALONE.iter().chain(&ORDERED).chain(&OTHERS);
        let kind = kinds.find(|kind| kind.0 == name);
        let (_, is_of) = kind.expect("the kind has this name");
        for way in Way::BOTH {
            let mut of_way = seen.iter().filter(|it| it.case.way == way);
            assert!(of_way.any(is_of), "{way:?}: {name}");
        }
    }
}

#[test]
fn the_model_s_table_has_every_number_of_parties_either_way() {
    let seen = seen_of(held::cases());
    for way in Way::BOTH {
        for n in 3..=7 {
            let is_it = |it: &Seen| it.case.way == way && it.byte(1) == n && it.rows() > 1;
            let mut turned = seen.iter().filter(|it| it.number == 0);
            assert!(turned.any(is_it), "{way:?} {n}");
        }
    }
}

/// With a mask, an input and a triple, and so that every exchange of shares shows.
#[test]
fn all_parties_thresholds_and_fields_are_stored_either_way() {
    let mut found = HashSet::new();
    for it in seen() {
        if it.has_rows(true, true, true) && it.is_uneven() {
            found.insert((it.case.way as u8, it.case.input[..3].to_vec()));
        }
    }
    for way in Way::BOTH {
        for (n, t) in PERMITTED {
            for field in 0..4 {
                let start = vec![field, n as u8, t as u8];
                assert!(
                    found.contains(&(way as u8, start)),
                    "{way:?} {field} {n} {t}"
                );
            }
        }
    }
}

#[test]
fn the_largest_sheet_is_stored_there_and_back() {
    let largest = bench::largest();
    for way in Way::BOTH {
        for lent in [59_723, 60_000] {
            let is_it = |it: &Seen| it.case.lent == lent && it.sheet() == Some(&largest);
            let mut of_way = seen().into_iter().filter(|it| it.case.way == way);
            assert!(of_way.any(|it| is_it(&it)), "{way:?} {lent}");
        }
    }
}

#[test]
fn the_rows_of_the_model_s_table_are_stored() {
    let stored = stored::all();
    for held in held::all() {
        assert!(stored.contains(&held.case), "{}", held.says);
    }
}

/// Besides the cases of these kinds.
#[test]
fn drawn_inputs_are_stored() {
    let stored = stored::all();
    let drawn = (0..2_000).map(|index| reference::columns::drawn::turn_for(0x5EED_000C, index));
    let count = drawn.filter(|case| stored.contains(case)).count();
    assert!(count >= 300, "{count}");
}
