//! The stored cases do not fill the buffers of the programs that read them.

mod files;

use files::text;
use reference::{calls, case, cases, columns, forecast, replay, sheets, steps};

/// The number that stands between these words in the program of this crate.
fn number(name: &str, before: &str, after: &str) -> usize {
    let program = text(&format!("crates/{name}/src/main.rt"));
    let (_, rest) = program.split_once(before).unwrap();
    let (number, _) = rest.split_once(after).unwrap();
    number.parse().unwrap()
}

fn leave_a_place<T>(name: &str, cases: Vec<T>, to_bytes: fn(&T) -> Vec<u8>) {
    let length: usize = cases.iter().map(|case| to_bytes(case).len()).sum();
    let buffer = number(name, "let mut input = [0u8; ", "];");
    assert!(length < buffer, "{name}: {length} of {buffer}");
}

#[test]
fn stored_cases_leave_a_place_in_the_program_s_buffer() {
    leave_a_place("entries", cases::all(), case::Case::to_bytes);
    let all = steps::cases::all();
    leave_a_place("step_cases", all, steps::case::StepCase::to_bytes);
    let all = calls::stored::all();
    leave_a_place("call_cases", all, calls::case::Case::to_bytes);
    let all = columns::stored::all();
    leave_a_place("column_cases", all, columns::case::Case::to_bytes);
    let all = forecast::stored::all();
    leave_a_place("forecast_cases", all, forecast::case::Case::to_bytes);
}

/// The constant of this name in the program of this crate.
fn constant(name: &str, constant: &str) -> usize {
    number(name, &format!("const {constant}: usize = "), ";")
}

/// How many cases the program of this crate takes.
fn taken(name: &str) -> usize {
    number(name, "for _ in 0..", " {")
}

/// Program cases reads case by case.
#[test]
fn stored_runs_are_no_more_than_the_program_takes_and_fit_its_buffers() {
    let cases = sheets::stored::all();
    assert!(cases.len() <= taken("cases"));
    for case in cases {
        assert!(case.sheet.len() <= constant("cases", "SHEET"));
        assert!(case.record <= constant("cases", "LOG"));
        assert!(case.revealed <= constant("cases", "REVEALED"));
    }
}

/// Program replay_cases too.
#[test]
fn stored_replays_are_no_more_than_the_program_takes_and_fit_its_buffers() {
    let cases = replay::stored::all();
    assert!(cases.len() <= taken("replay_cases"));
    for case in cases {
        assert!(case.head.len() <= constant("replay_cases", "HEAD"));
        assert!(case.part.len() <= constant("replay_cases", "PART"));
        assert!(case.record.len() <= constant("replay_cases", "NUMBERS"));
    }
}
