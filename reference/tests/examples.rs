//! The files of examples/sheets, examples/lists and examples/heads are those that the reference makes, and
//! the documents quote them, the column form of a sheet, and runs with a party absent.

mod files;

use std::fs;

use files::{path, read, text};
use reference::calls::case::printed;
use reference::calls::examples as lists;
use reference::columns::case::filling;
use reference::columns::{to_columns, Way};
use reference::forecast::examples as heads;
use reference::forecast::printed as forecasts;
use reference::present::{bit, everyone_of};
use reference::run_case::Case;
use reference::sheets::examples::{named, NAMES};
use reference::table;

#[test]
fn stored_sheets_and_their_lines_are_those_of_the_reference() {
    for name in NAMES {
        let sheet = named(name).unwrap();
        assert!(read(&format!("examples/sheets/{name}.sheet")) == sheet);
        assert_eq!(
            text(&format!("examples/sheets/{name}.txt")),
            table::lines(&sheet)
        );
    }
    let files = fs::read_dir(path("examples/sheets")).unwrap();
    assert_eq!(files.count(), 2 * NAMES.len());
}

#[test]
fn stored_lists_and_their_lines_are_those_of_the_reference() {
    for name in lists::NAMES {
        let list = lists::named(name).unwrap();
        assert!(read(&format!("examples/lists/{name}.csv")) == list);
        assert_eq!(text(&format!("examples/lists/{name}.txt")), printed(list));
    }
    let files = fs::read_dir(path("examples/lists")).unwrap();
    assert_eq!(files.count(), 2 * lists::NAMES.len());
}

#[test]
fn stored_heads_and_their_lines_are_those_of_the_reference() {
    for name in heads::NAMES {
        let head = heads::named(name).unwrap();
        assert!(read(&format!("examples/heads/{name}.head")) == head);
        assert_eq!(
            text(&format!("examples/heads/{name}.txt")),
            forecasts::lines(&head)
        );
    }
    let files = fs::read_dir(path("examples/heads")).unwrap();
    assert_eq!(files.count(), 2 * heads::NAMES.len());
}

/// The last line of an import, as `end 0 calls 3`.
fn is_import_end(line: &str) -> bool {
    line.starts_with("end ") && line.contains(" calls ")
}

/// Whether an example list's import ends with the line.
fn ends_an_import(line: &str) -> bool {
    let mut lists = lists::NAMES.into_iter().filter_map(lists::named);
    lists.any(|list| printed(list).lines().last() == Some(line))
}

/// A line of a forecast, as `end 0 at 37` without counts, or what it means in words.
fn is_of_a_forecast(line: &str) -> bool {
    let is_end = line.starts_with("end ") && line.contains(" at ") && !line.contains(" inputs ");
    let words = [
        "By header and script the run comes to END. ",
        "The whole script needs ",
    ];
    is_end
        || words.iter().any(|words| line.starts_with(words))
        || line.contains(" are left.")
        || line.contains(" reads register ")
}

/// Whether the forecast of an example head or sheet has the line.
fn is_forecast(line: &str) -> bool {
    let heads = heads::NAMES.into_iter().filter_map(heads::named);
    let mut all = heads.chain(NAMES.into_iter().filter_map(named));
    all.any(|input| forecasts::lines(&input).lines().any(|it| it == line))
}

/// A line of a run, as `opened 5 6 7`.
fn is_printed(line: &str) -> bool {
    ["field ", "opened ", "revealed ", "end "]
        .iter()
        .any(|word| line.starts_with(word))
}

/// An offset in decimal and the bytes after it, as `13  01 01    LOAD 1`.
fn quoted_bytes(line: &str) -> Option<(usize, Vec<u8>)> {
    let (offset, rest) = line.trim_start().split_once("  ")?;
    let offset = offset.parse().ok()?;
    let is_byte = |word: &&str| word.len() == 2;
    let words = rest.split(' ').take_while(is_byte);
    let bytes = words.map_while(|word| u8::from_str_radix(word, 16).ok());
    Some((offset, bytes.collect()))
}

/// A line that the examples in C and Rust print of the column form, as `put together 82 bytes same`, of
/// a run with a party absent, or of a replay.
fn is_of_the_programs(line: &str) -> bool {
    ["part ", "put together ", "party 1 absent: ", "replay by "]
        .iter()
        .any(|words| line.starts_with(words))
}

/// The input turned with an output of its length.
fn turned(way: Way, input: &[u8]) -> Vec<u8> {
    let mut output = vec![0; input.len()];
    assert_eq!(way.turn(input, &mut output), 0);
    output
}

/// A party's part of a column form, parties counted from 1: from 11 + script length + (j - 1) times the
/// part's length on.
fn part(columns: &[u8], party: usize) -> &[u8] {
    let front = 11 + usize::from(u16::from_le_bytes([columns[9], columns[10]]));
    let length = (columns.len() - front) / usize::from(columns[1]);
    &columns[front + (party - 1) * length..][..length]
}

/// What a heading quotes.
enum Bytes {
    Sheet,
    Columns,
    Part(usize),
    Back,
}

/// The name of an example, and what is quoted of it.
fn headed(heading: &str) -> (&str, Bytes) {
    if let Some(name) = heading.strip_suffix(" as a column form") {
        return (name, Bytes::Columns);
    }
    if let Some(name) = heading.strip_suffix(" turned back") {
        return (name, Bytes::Back);
    }
    if let Some((name, party)) = heading.split_once(", part of party ") {
        return (name, Bytes::Part(party.parse().unwrap()));
    }
    (heading, Bytes::Sheet)
}

/// The name of an example, or more than it, and the party that is absent.
fn absence(heading: &str) -> (&str, Option<usize>) {
    let of_party = heading.strip_suffix(" absent");
    let split = of_party.and_then(|heading| heading.split_once(" with party "));
    match split {
        Some((name, party)) => (name, Some(party.parse().unwrap())),
        None => (heading, None),
    }
}

/// An example that a document quotes, what is quoted of it, who is absent when it is run, and how many
/// lines of its run stand before the next quotation.
struct Quoted {
    name: String,
    bytes: Bytes,
    absent: Option<usize>,
    passed: usize,
}

impl Quoted {
    fn new(heading: &str) -> Quoted {
        let (heading, absent) = absence(heading);
        let (name, bytes) = headed(heading);
        Quoted {
            name: name.to_owned(),
            bytes,
            absent,
            passed: 0,
        }
    }

    /// The lines of the sheet's run.
    fn lines(&self, sheet: &[u8]) -> String {
        match self.absent {
            None => table::lines(sheet),
            Some(party) => table::lines_with(sheet, everyone_of(sheet) & !bit(party)),
        }
    }

    /// The bytes that are quoted of the sheet.
    fn quoted(&self, sheet: &[u8]) -> Vec<u8> {
        let columns = || turned(Way::ToColumns, sheet);
        match self.bytes {
            Bytes::Sheet => sheet.to_vec(),
            Bytes::Columns => columns(),
            Bytes::Part(party) => part(&columns(), party).to_vec(),
            Bytes::Back => turned(Way::ToSheet, &columns()),
        }
    }

    /// Holds an indented line to the bytes that are quoted or to the lines of the sheet's run, which are
    /// quoted in their order. Whether it is a quotation.
    fn holds(&mut self, line: &str) -> bool {
        if is_import_end(line) {
            assert!(ends_an_import(line), "no example list ends so: {line}");
            return true;
        }
        if is_of_a_forecast(line) {
            assert!(is_forecast(line), "no example is forecast so: {line}");
            return true;
        }
        if is_of_the_programs(line) {
            let expected = text("examples/expected");
            assert!(expected.lines().any(|it| it == line), "not printed: {line}");
            return true;
        }
        let name = &self.name;
        let sheet = named(name).unwrap_or_else(|| panic!("no example {name}"));
        if is_printed(line) {
            let printed = self.lines(&sheet);
            let place = printed.lines().skip(self.passed).position(|it| it == line);
            let place = place.unwrap_or_else(|| panic!("{name}: not printed, or earlier: {line}"));
            self.passed += place + 1;
            return true;
        }
        let Some((offset, bytes)) = quoted_bytes(line) else {
            return false;
        };
        assert!(!bytes.is_empty(), "{name}: {line}");
        let quoted = self.quoted(&sheet);
        assert!(quoted[offset..].starts_with(&bytes), "{name}: {line}");
        true
    }
}

/// The number of quotations in a document. A heading of the third level names the example.
fn quotations(document: &str, first: &str) -> usize {
    let mut example = Quoted::new(first);
    let mut count = 0;
    for line in text(document).lines() {
        if let Some(heading) = line.strip_prefix("### ") {
            example = Quoted::new(heading);
        } else if let Some(code) = line.strip_prefix("    ") {
            count += usize::from(example.holds(code));
        }
    }
    count
}

#[test]
fn documents_quote_the_sheets_and_their_lines() {
    assert!(quotations("docs/EXAMPLES.md", "mul") > 50);
    assert!(quotations("README.md", "three-calls") > 5);
    assert_eq!(quotations("docs/REFUSALS.md", "no-mask-left"), 1);
}

/// docs/EXAMPLES.md: of three parties with threshold 1 four sets are permitted.
#[test]
fn every_other_byte_for_mul_is_answered_with_12() {
    let mul = Case::with_room(named("mul").unwrap());
    for present in 0..=u8::MAX {
        let answer = mul.clone().with_present(present).outcome().answer;
        let is_permitted = [3, 5, 6, 7].contains(&present);
        assert_eq!(answer.number, if is_permitted { 0 } else { 12 });
    }
}

/// docs/EXAMPLES.md: an output of 81 bytes is refused, and of one of 128 bytes the last 46 stay.
#[test]
fn the_column_form_of_mul_needs_82_bytes_and_leaves_more_as_they_were() {
    let mul = named("mul").unwrap();
    let before: [u8; 128] = std::array::from_fn(filling);
    let mut output = before;
    assert_eq!(to_columns(&mul, &mut output[..81]), 15);
    assert_eq!(output, before);
    assert_eq!(to_columns(&mul, &mut output), 0);
    assert_eq!(output[82..], before[82..]);
}

/// docs/EXAMPLES.md: a sheet that is turned as if it were a column form.
#[test]
fn mul_turned_to_a_sheet_is_neither_mul_nor_its_column_form() {
    let mul = named("mul").unwrap();
    let other = turned(Way::ToSheet, &mul);
    assert!(other != mul && other != turned(Way::ToColumns, &mul));
}

/// docs/EXAMPLES.md: also the sheet that a run refuses.
#[test]
fn every_example_is_turned_over_and_back() {
    for name in NAMES {
        let sheet = named(name).unwrap();
        let columns = turned(Way::ToColumns, &sheet);
        assert!(turned(Way::ToSheet, &columns) == sheet, "{name}");
    }
}
