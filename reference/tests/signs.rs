//! LTZS against the LTZ commands that it stands for.

use std::collections::HashSet;

use reference::run_case::{Case, Outcome};
use reference::script;
use reference::script::command::Command;
use reference::script::Line;
use reference::sheet::Sheet;
use reference::sheets::split::split;
use reference::sheets::{examples, gate, sheet_for, stored};

fn stored_and_drawn() -> impl Iterator<Item = Case> {
    let examples = examples::NAMES.into_iter().filter_map(examples::named);
    let gate = gate::all().into_iter().map(|(_, sheet)| sheet);
    let sheets = examples.chain(gate).map(Case::with_room);
    let drawn = (0..20_000).map(|index| sheet_for(31, index));
    stored::all().into_iter().chain(sheets).chain(drawn)
}

/// The lines of a sheet that the input is not refused for.
fn lines_of(case: &Case) -> Vec<Line> {
    match Sheet::read(&case.sheet, case.present) {
        Ok(sheet) => script::read(sheet.script, sheet.field).unwrap_or_default(),
        Err(_) => Vec::new(),
    }
}

fn is_signs(line: &&Line) -> bool {
    matches!(line.command, Command::Ltzs { .. })
}

/// Cells, marks, counts and both buffers.
fn is_same(one: &Outcome, other: &Outcome) -> bool {
    let place = one.answer.place;
    let mut answer = other.answer.clone();
    answer.place = place;
    one.answer == answer && one.record == other.record && one.revealed == other.revealed
}

/// Whoever is present, and also where another command is refused. Where LTZS is, some of its LTZ commands may
/// finish: such runs are left out.
#[test]
fn a_finished_run_is_that_of_the_ltz_commands() {
    let (mut finished, mut absent) = (0, 0);
    for case in stored_and_drawn() {
        let lines = lines_of(&case);
        let outcome = case.outcome();
        let stop = lines.iter().find(|line| line.place == outcome.answer.place);
        if !lines.iter().any(|line| is_signs(&line)) || stop.is_some_and(|line| is_signs(&line)) {
            continue;
        }
        let Some(sheet) = split(&case.sheet) else {
            continue;
        };
        let other = Case {
            sheet,
            ..case.clone()
        };
        assert!(is_same(&outcome, &other.outcome()), "{case:?}");
        finished += 1;
        absent += usize::from(case.present.count_ones() < u32::from(case.sheet[1]));
    }
    assert!(finished > 1_500 && absent > 500, "{finished} {absent}");
}

/// h in the sheet's field, and h where the stretches are equal or apart.
fn kinds(case: &Case, command: &Command) -> Vec<(String, u8)> {
    match *command {
        Command::Ltzs { d, a, h, .. } => {
            let stretches = if d == a { "equal" } else { "apart" };
            let field = format!("field {}", case.sheet[0]);
            vec![(field, h), (stretches.to_owned(), h)]
        }
        _ => Vec::new(),
    }
}

/// LTZS finishes in every field with every h, into the same registers and into others, and is refused with
/// each number of 21, 23, 24 and 25.
#[test]
fn signs_of_every_kind_are_drawn() {
    let (mut finished, mut refused) = (HashSet::new(), [0; 27]);
    for case in (0..40_000).map(|index| sheet_for(32, index)) {
        let (lines, answer) = (lines_of(&case), case.outcome().answer);
        let before = lines.iter().filter(|line| line.place < answer.place);
        finished.extend(before.flat_map(|line| kinds(&case, &line.command)));
        let stop = lines.iter().find(|line| line.place == answer.place);
        if stop.is_some_and(|line| is_signs(&line)) {
            refused[answer.number as usize] += 1;
        }
    }
    let fields = (0..4).map(|field| format!("field {field}"));
    let all = fields.chain(["equal", "apart"].map(str::to_owned));
    let all = all.flat_map(|name| (1..=16).map(move |h| (name.clone(), h)));
    let missing: Vec<_> = all.filter(|kind| !finished.contains(kind)).collect();
    assert!(missing.is_empty(), "{missing:?}");
    assert!(
        [21, 23, 24, 25].iter().all(|&number| refused[number] > 50),
        "{refused:?}"
    );
}
