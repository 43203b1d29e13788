//! The text of the model's tables of cases (crates/model/specs), with the answers that this crate computes.

use crate::calls::held as lists;
use crate::case::Case;
use crate::cases::held as calls;
use crate::columns::{held as turns, Way};
use crate::compare::Entered;
use crate::forecast::{forecast, held as heads};
use crate::replay::{case::Case as Replay, held as replays, Answer};
use crate::sheet::header;
use crate::sheets::held::{self as sheets, Held, Left};

pub const NAMES: [&str; 10] = [
    "SheetCases",
    "ScriptCases",
    "RunCases",
    "MaskCases",
    "PresentCases",
    "EntryCases",
    "CallCases",
    "ColumnCases",
    "ForecastCases",
    "ReplayCases",
];

/// No line of a table is longer, but for a long comment.
const WIDTH: usize = 140;

/// From so many equal numbers on, a list is written with replicate.
const RUN: usize = 10;

/// A row's comment, and its parts, which stand on one line if they fit.
type Row = (String, Vec<String>);

/// The file with this name.
pub fn text(name: &str) -> Option<String> {
    match name {
        "SheetCases" => Some(file(
            "The paper, \"Refused because of the input\": sheets that 1 to 8 refuse, and the last that they let through.",
            ("Case", "sheet_cases"),
            sheet_rows(&sheets::sheets(), sheet_row),
        )),
        "ScriptCases" => Some(file(
            "The paper, \"Refused because of the input\": scripts that 9 to 11 refuse, and the last that they let through.",
            ("Case", "script_cases"),
            sheet_rows(&sheets::scripts(), sheet_row),
        )),
        "RunCases" => Some(file(
            "The paper, \"Steps\" and \"Refused because of the state\": the commands that take no mask, and 21 to 26.",
            ("Case", "run_cases"),
            sheet_rows(&sheets::runs(), sheet_row),
        )),
        "MaskCases" => Some(file(
            "The paper, \"Steps\": the commands that take a mask, with the rows that they open.",
            ("Case", "mask_cases"),
            sheet_rows(&sheets::masked(), sheet_row),
        )),
        "PresentCases" => Some(file(
            "Request 5, \"A firm's machine is down\": runs with absent parties, and the sets that 12 refuses.",
            ("Case", "present_cases"),
            sheet_rows(&sheets::present(), present_row),
        )),
        "EntryCases" => Some(file(
            "The paper, \"Fields and parties\", and request 4, \"Sum first, reduce after\": calls of the small entries, and what they answer.",
            ("Entry", "entry_cases"),
            calls::all()
                .iter()
                .map(|(says, call)| (says.to_string(), vec![entry(call)]))
                .collect(),
        )),
        "CallCases" => Some(file(
            "The request \"Calls from the exchange's own list\": short lists, and what their import leaves.",
            ("CallCase", "call_cases"),
            lists::all().iter().map(list_row).collect(),
        )),
        "ColumnCases" => Some(column_table()),
        "ForecastCases" => Some(forecast_table()),
        "ReplayCases" => Some(replay_table()),
        _ => None,
    }
}

fn column_table() -> String {
    file(
        "Request 3, \"One firm's shares together\": short inputs, and what turning them over and back leaves.",
        ("Entry", "column_cases"),
        turns::all().iter().map(turn_row).collect(),
    )
}

fn forecast_table() -> String {
    file(
        "Request 6, \"Will this deal last?\": short headers with their scripts, and the number and the place that are forecast.",
        ("ForecastCase", "forecast_cases"),
        heads::all().iter().map(forecast_row).collect(),
    )
}

fn replay_table() -> String {
    file(
        "Request 8, \"A firm replays its own column\": small replays, and the number, place, counts and cells that they leave.",
        ("Case", "replay_cases"),
        replays::all().iter().map(replay_row).collect(),
    )
}

fn file(subject: &str, (kind, name): (&str, &str), rows: Vec<Row>) -> String {
    let body = body(rows);
    let code = without_comments(&body);
    let used = |words: &[&'static str]| -> String {
        let used = words.iter().filter(|&&word| has_word(&code, word));
        used.map(|word| format!(", {word}")).collect()
    };
    let mut text = format!(
        "-- {subject}\n\
         -- The reference writes this table (reference model-cases).\n\
         -- Assumes nothing.\n\
         use Rattle.std.specs.Prelude.{{List, [], ◌∷◌{}{}}}\n",
        if has_word(&code, "++") { ", ◌++◌" } else { "" },
        used(&["pos", "neg_ℤ", "replicate"]),
    );
    if has_word(&code, "from") {
        text += "use Rattle.algebra.specs.Lists.{from}\n";
    }
    if has_word(&code, "share_bytes") {
        text += "use Rattle.model.specs.Sheet.{share_bytes}\n";
    }
    let forms = used(&[
        "ran",
        "ran_by",
        "stopped",
        "stopped_by",
        "scripted",
        "shared",
        "recovered",
        "summed",
        "encoded",
        "decoded",
        "took",
        "as_columns",
        "as_sheet",
        "forecast_of",
        "replay_of",
    ]);
    text += &format!("use Rattle.model.specs.CaseForms.{{{kind}{forms}}}\n\n");
    text + &format!("unfoldable pub {name} : List {kind}\n{name} =\n{body}    ∷ []\n")
}

fn without_comments(body: &str) -> String {
    let is_code = |line: &&str| !line.trim_start().starts_with("--");
    body.split_inclusive('\n').filter(is_code).collect()
}

fn has_word(text: &str, word: &str) -> bool {
    text.split([' ', '(', ')', '\n']).any(|found| found == word)
}

/// Rows with the same comment stand under it together.
fn body(rows: Vec<Row>) -> String {
    let mut body = String::new();
    let mut said = String::new();
    let mut first = true;
    for (says, mut parts) in rows {
        if says != said {
            body += &format!("    -- {says}\n");
            said = says;
        }
        if !first {
            parts[0].insert_str(0, "∷ ");
        }
        first = false;
        let line = parts.join(" ");
        if line.chars().count() <= WIDTH - 4 {
            parts = vec![line];
        }
        body.extend(parts.iter().map(|part| wrapped(part)));
    }
    body
}

/// A space at which no line is broken.
const TIE: char = '\u{a0}';

/// Lines are broken before an operator, and not between pos and its number.
fn wrapped(part: &str) -> String {
    let kept = ["∷", "++", "pos"];
    let part = kept.iter().fold(part.to_owned(), |part, word| {
        part.replace(&format!("{word} "), &format!("{word}{TIE}"))
    });
    let mut text = String::new();
    let mut line = String::from("   ");
    for word in part.split(' ') {
        if line.chars().count() + 1 + word.chars().count() > WIDTH {
            text += &format!("{line}\n");
            line = String::from("   ");
        }
        line += &format!(" {word}");
    }
    text += &format!("{line}\n");
    text.replace(TIE, " ")
}

fn sheet_rows(all: &[Held], row: fn(&Held) -> Vec<String>) -> Vec<Row> {
    all.iter()
        .map(|held| (held.says.to_string(), row(held)))
        .collect()
}

/// A run with everyone present. One that did nothing is told by its number and place.
fn sheet_row(held: &Held) -> Vec<String> {
    let left = held.left();
    if !is_untouched(held, &left) {
        return ran("ran", held, &left);
    }
    if held.shares.is_empty() && held.header == plain_header(held) {
        let (field, script) = (held.header[0], list(&held.script));
        let (number, place) = (left.answer.number, left.answer.place);
        return vec![format!("scripted {field} {script} {number} {place}")];
    }
    stopped("stopped", held, &left)
}

/// A run that says who is present.
fn present_row(held: &Held) -> Vec<String> {
    let left = held.left();
    let present = held.present;
    if is_untouched(held, &left) {
        stopped(&format!("stopped_by {present}"), held, &left)
    } else {
        ran(&format!("ran_by {present}"), held, &left)
    }
}

/// The sheet, the lengths of the buffers, and all that the run left.
fn ran(form: &str, held: &Held, left: &Left) -> Vec<String> {
    let (header, script, shares) = (list(&held.header), list(&held.script), list(&held.shares));
    let (record, revealed) = (held.record, held.revealed);
    vec![
        format!("{form} {header} {script}"),
        format!("{shares} {record} {revealed}"),
        told(left),
    ]
}

/// The sheet, number and place.
fn stopped(form: &str, held: &Held, left: &Left) -> Vec<String> {
    let (header, script, shares) = (list(&held.header), list(&held.script), list(&held.shares));
    let (number, place) = (left.answer.number, left.answer.place);
    vec![
        format!("{form} {header} {script}"),
        format!("{shares} {number} {place}"),
    ]
}

/// The header of a script in the sheet's field for three parties, threshold 1, without rows.
fn plain_header(held: &Held) -> Vec<u8> {
    let field = held.header.first().copied().unwrap_or(0);
    vec![field, 3, 1, 0, 0, 0, 0, 0, 0, held.script.len() as u8, 0]
}

/// Three numbers and one were lent, and nothing is counted, set or written.
fn is_untouched(held: &Held, left: &Left) -> bool {
    let answer = &left.answer;
    let counts = [answer.inputs, answer.masks, answer.triples];
    (held.record, held.revealed) == (3, 1)
        && counts == [0; 3]
        && (answer.openings, answer.revealed) == (0, 0)
        && !answer.set.contains(&true)
        && left
            .record
            .iter()
            .chain(&left.revealed)
            .all(|&x| x == sheets::FILLING)
}

/// Number, place and counts; the record; the revealed list; each set register's number and cells.
fn told(left: &Left) -> String {
    let answer = &left.answer;
    let counts = [
        answer.place,
        answer.inputs,
        answer.masks,
        answer.triples,
        answer.openings,
        answer.revealed,
    ];
    let mut end = vec![answer.number as usize];
    end.extend(counts);
    let mut lists = vec![list(&end), list(&left.record), list(&left.revealed)];
    for (register, cells) in answer.registers.iter().enumerate() {
        if answer.set[register] {
            lists.push(list(&[&[register as u32], cells.as_slice()].concat()));
        }
    }
    format!("({} ∷ [])", lists.join(" ∷ "))
}

/// The list's bytes and how many numbers are lent; the number, the calls written, and the whole buffer after the import.
fn list_row(held: &lists::Held) -> Row {
    let left = held.left();
    let (lent, number, calls) = (held.lent, left.number, left.calls);
    let (bytes, seconds) = (list(held.list), list(&left.seconds));
    let row = vec![
        format!("took {bytes}"),
        format!("{lent} {number} {calls} {seconds}"),
    ];
    (shown(held), row)
}

/// What the list is for, and its text.
fn shown(held: &lists::Held) -> String {
    let byte = |&byte: &u8| match byte {
        b'\r' => String::from("<CR>"),
        b'\n' => String::from("<LF>"),
        b' '..=b'~' => char::from(byte).to_string(),
        _ => format!("<{byte:02X}>"),
    };
    let text: String = held.list.iter().map(byte).collect();
    if text.is_empty() {
        return held.says.to_string();
    }
    format!("{}: {text}", held.says)
}

/// The way and the input's bytes; the length of the output, the number, and the whole output after the call.
fn turn_row(held: &turns::Held) -> Row {
    let left = held.left();
    let (lent, number) = (held.case.lent, left.number);
    let (input, output) = (list(&held.case.input), output(&left.output));
    let way = match held.case.way {
        Way::ToColumns => "as_columns",
        Way::ToSheet => "as_sheet",
    };
    let row = vec![
        format!("{way} {input}"),
        format!("{lent} {number} {output}"),
    ];
    (held.says.clone(), row)
}

/// The input's bytes, the number and the place.
fn forecast_row(held: &heads::Held) -> Row {
    let (number, place) = forecast(&held.head);
    let head = list(&held.head);
    let row = vec![format!("forecast_of {head} {number} {place}")];
    (held.says.clone(), row)
}

/// The party, header, script, part and record; number, place and counts, and each cell that is not 0.
fn replay_row(held: &replays::Held) -> Row {
    let Replay {
        party,
        head,
        part,
        record,
    } = &held.case;
    let (header, script) = head.split_at(head.len().min(header::BYTES));
    let (header, script) = (list(header), list(script));
    let (part, record) = (part_of(part), list(record));
    let row = vec![
        format!("replay_of {party} {header} {script}"),
        format!("{part} {record}"),
        replayed(&held.case.answer()),
    ];
    (held.says.clone(), row)
}

/// By its shares, unless it is no list of whole ones.
fn part_of(part: &[u8]) -> String {
    let word = |four: &[u8]| u32::from_le_bytes([four[0], four[1], four[2], four[3]]);
    if part.is_empty() || part.len() % 4 > 0 {
        return list(part);
    }
    let shares: Vec<u32> = part.chunks_exact(4).map(word).collect();
    format!("(share_bytes {})", list(&shares))
}

/// Number, place and counts; the register and the share of each cell that is not 0.
fn replayed(answer: &Answer) -> String {
    let counts = &answer.counts;
    let end = [
        answer.number as usize,
        answer.place,
        counts.inputs,
        counts.masks,
        counts.triples,
        counts.openings,
        counts.revealed,
    ];
    let cells = (0..).zip(answer.cells).filter(|&(_, cell)| cell != 0);
    let cells = cells.map(|(register, cell)| list(&[register, cell]));
    let lists: Vec<String> = [list(&end)].into_iter().chain(cells).collect();
    format!("({} ∷ [])", lists.join(" ∷ "))
}

/// A long end that is as it was before is counted.
fn output(numbers: &[u16]) -> String {
    let before: Vec<u16> = (turns::BEFORE..).take(numbers.len()).collect();
    let pairs = numbers.iter().zip(&before).rev();
    match pairs.take_while(|(left, before)| left == before).count() {
        left if left < RUN => list(numbers),
        left => format!("({})", chained(numbers, left)),
    }
}

/// The call, and what it answers. Encode, decode and sum leave no list, and share has no value.
fn entry(call: &Case) -> String {
    let entered = Entered::by_reference(call);
    let (number, value, left) = (entered.number, signed(entered.value), list(&entered.lent));
    match call {
        Case::Share(call) => format!(
            "shared {} {} {} {} {} {} {number} {left}",
            call.field,
            call.parties,
            call.threshold,
            call.secret,
            list(&call.coefficients),
            call.lent.len()
        ),
        Case::Recover(call) => format!(
            "recovered {} {} {} {} {} {number} {value} {left}",
            call.field,
            call.parties,
            call.threshold,
            list(&call.row),
            call.lent.len()
        ),
        Case::Encode { field, k, a } => {
            let a = signed((*a).into());
            format!("encoded {field} {k} {a} {number} {value}")
        }
        Case::Decode { field, v } => format!("decoded {field} {v} {number} {value}"),
        Case::Sum(call) => format!(
            "summed {} {} {} {} {number} {value}",
            call.field,
            call.parties,
            call.threshold,
            list(&call.row)
        ),
    }
}

fn signed(a: i128) -> String {
    if a < 0 {
        format!("(neg_ℤ (pos {}))", -a)
    } else {
        format!("(pos {a})")
    }
}

fn list<T: Copy + PartialEq + std::fmt::Display>(numbers: &[T]) -> String {
    if numbers.is_empty() {
        return String::from("[]");
    }
    format!("({})", chained(numbers, 0))
}

/// The numbers one by one, long runs of one number with replicate, and with from so many at the end,
/// which count up.
fn chained<T: Copy + PartialEq + std::fmt::Display>(numbers: &[T], counted: usize) -> String {
    let mut text = String::new();
    let mut rest = numbers;
    let mut open = 0;
    while let Some(&first) = rest.first() {
        let single = &rest[..rest.len() - counted];
        let run = single.iter().take_while(|&&number| number == first).count();
        let (part, length) = match run {
            0 => (format!("from {first} {counted}"), counted),
            RUN.. => (format!("replicate {run} {first}"), run),
            _ => {
                text += &format!("{first} ∷ ");
                rest = &rest[1..];
                continue;
            }
        };
        if !text.is_empty() {
            text += "(";
            open += 1;
        }
        text += &format!("{part} ++ ");
        rest = &rest[length..];
    }
    let text = match text.strip_suffix(" ++ ") {
        Some(text) => String::from(text),
        None => text + "[]",
    };
    text + &")".repeat(open)
}

#[cfg(test)]
mod tests {
    use super::*;

    #[test]
    fn long_runs_of_one_number_are_replicated() {
        assert_eq!(list::<u32>(&[]), "[]");
        assert_eq!(list(&[0; 9]), format!("({}[])", "0 ∷ ".repeat(9)));
        assert_eq!(list(&[0; 10]), "(replicate 10 0)");
        let numbers = [vec![1], vec![0; 10], vec![2], vec![3; 11], vec![4]].concat();
        assert_eq!(
            list(&numbers),
            "(1 ∷ (replicate 10 0 ++ 2 ∷ (replicate 11 3 ++ 4 ∷ [])))"
        );
    }

    #[test]
    fn an_end_as_before_is_counted() {
        let before = |from: u16, to: u16| (from..to).collect::<Vec<_>>();
        assert_eq!(output(&[]), "[]");
        assert_eq!(output(&before(100, 103)), "(100 ∷ 101 ∷ 102 ∷ [])");
        assert_eq!(output(&before(100, 110)), "(from 100 10)");
        assert_eq!(output(&before(100, 1136)), "(from 100 1036)");
        let tail = [vec![7, 102], before(102, 112)].concat();
        assert_eq!(output(&tail), "(7 ∷ 102 ∷ (from 102 10))");
        let tail = [vec![7; 12], before(112, 123)].concat();
        assert_eq!(output(&tail), "(replicate 12 7 ++ (from 112 11))");
        let other = [vec![7, 102], before(101, 112)].concat();
        assert_eq!(output(&other), list(&other));
    }

    #[test]
    fn lines_are_not_long() {
        for name in NAMES {
            for line in text(name).unwrap().lines() {
                assert!(line.chars().count() <= 150, "{line}");
            }
        }
    }

    #[test]
    fn each_row_has_its_comment_and_answer() {
        let row = "    -- 10: no END: the place is the script length\n    ∷ scripted 0 (1 ∷ 0 ∷ []) 10 2\n";
        assert!(text("ScriptCases").unwrap().contains(row));
        let row = "    -- 31: a line break alone is an empty line: <CR><LF>\n    ∷ took (13 ∷ 10 ∷ []) 1 31 0 (99 ∷ [])\n";
        assert!(text("CallCases").unwrap().contains(row));
        let row = "    -- sum 2 times 7 and 12 times 9\n    ∷ summed 0 3 1 (7 ∷ 9 ∷ 11 ∷ []) 0 (pos 122)\n";
        assert!(text("EntryCases").unwrap().contains(row));
        let row = " ∷ []) 0\n    (pos 9223372026117357570)\n";
        assert!(text("EntryCases").unwrap().contains(row));
        let row = "    -- 1: no byte, to the sheet\n    ∷ as_sheet [] 12 1 (from 100 12)\n";
        assert!(text("ColumnCases").unwrap().contains(row));
        let row = "    -- 1: no byte\n    ∷ forecast_of [] 1 0\n";
        assert!(text("ForecastCases").unwrap().contains(row));
        let row = "\
    -- the paper's printed run, party 2
    ∷ replay_of 2 (0 ∷ 3 ∷ 1 ∷ 2 ∷ 0 ∷ 0 ∷ 0 ∷ 1 ∷ 0 ∷ 11 ∷ 0 ∷ []) (1 ∷ 0 ∷ 1 ∷ 1 ∷ 6 ∷ 2 ∷ 0 ∷ 1 ∷ 12 ∷ 2 ∷ 0 ∷ [])
    (share_bytes (9 ∷ 11 ∷ 3 ∷ 8 ∷ 12 ∷ [])) (5 ∷ 6 ∷ 7 ∷ 2 ∷ 3 ∷ 4 ∷ 7 ∷ 12 ∷ 4 ∷ [])
    ((0 ∷ 10 ∷ 2 ∷ 0 ∷ 1 ∷ 3 ∷ 1 ∷ []) ∷ (0 ∷ 9 ∷ []) ∷ (1 ∷ 11 ∷ []) ∷ (2 ∷ 12 ∷ []) ∷ [])
";
        assert!(text("ReplayCases").unwrap().contains(row));
    }
}
