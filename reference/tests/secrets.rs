//! Whole runs of drawn sheets against the same scripts over the secrets alone.

mod plain;

use plain::{finished, Plain};
use reference::present::{everyone_of, is_present};
use reference::run_case::{Case, Outcome, FILLING};
use reference::script;
use reference::script::command::Cost;
use reference::sheet::Sheet;
use reference::sheets::sheet_for;

fn check(case: &Case) -> bool {
    let outcome = case.outcome();
    let Ok(sheet) = Sheet::read(&case.sheet, case.present) else {
        assert!((1..=8)
            .chain([12])
            .any(|number| number == outcome.answer.number));
        return false;
    };
    let Ok(lines) = script::read(sheet.script, sheet.field) else {
        assert!((9..=11).contains(&outcome.answer.number));
        return false;
    };
    let mut plain = Plain::new(&sheet);
    finished(&lines, &outcome).for_each(|command| plain.perform(command));
    check_registers(&sheet, &plain, &outcome);
    let costs: Vec<Cost> = finished(&lines, &outcome)
        .map(|command| command.cost(sheet.field))
        .collect();
    check_counts(&costs, &outcome);
    check_record(&sheet, case, &outcome);
    check_revealed(&plain, &outcome);
    true
}

fn check_registers(sheet: &Sheet, plain: &Plain, outcome: &Outcome) {
    let answer = &outcome.answer;
    for (register, value) in plain.registers.iter().enumerate() {
        let (cells, past) = answer.registers[register].split_at(sheet.parties);
        let row: Vec<u64> = cells.iter().map(|&cell| cell.into()).collect();
        assert_eq!(answer.set[register], value.is_some());
        assert_eq!(sheet.weights.secret(&row), value.unwrap_or(0));
        assert!(sheet.weights.is_sharing(&row));
        assert!(past.iter().all(|&cell| cell == 0));
        assert!(value.is_some() || cells.iter().all(|&cell| cell == 0));
    }
}

fn check_counts(costs: &[Cost], outcome: &Outcome) {
    let answer = &outcome.answer;
    let sum = |of: fn(&Cost) -> usize| costs.iter().map(of).sum::<usize>();
    assert_eq!(answer.inputs, sum(|cost| cost.inputs));
    assert_eq!(answer.masks, sum(|cost| cost.masks));
    assert_eq!(answer.triples, sum(|cost| cost.triples));
    assert_eq!(answer.openings, sum(|cost| cost.openings()));
    assert_eq!(answer.revealed, sum(|cost| cost.revealed));
}

/// p stands for absent shares alone, and rows with every share are sharings.
fn check_record(sheet: &Sheet, case: &Case, outcome: &Outcome) {
    let shares = outcome.answer.openings * sheet.parties;
    let (opened, tail) = outcome.record.split_at(shares);
    let p = u64::from(sheet.field.modulus);
    for row in opened.chunks_exact(sheet.parties) {
        let row: Vec<u64> = row.iter().map(|&share| share.into()).collect();
        for (party, &share) in (1..).zip(&row) {
            assert!(share <= p && (share == p) != is_present(case.present, party));
        }
        let whole = case.present == everyone_of(&case.sheet);
        assert!(!whole || sheet.weights.is_sharing(&row));
    }
    assert!(tail.iter().all(|&number| number == FILLING));
}

fn check_revealed(plain: &Plain, outcome: &Outcome) {
    let (values, tail) = outcome.revealed.split_at(plain.revealed.len());
    assert_eq!(values, plain.revealed);
    assert!(tail.iter().all(|&number| number == FILLING));
}

#[test]
fn runs_leave_the_secrets_that_the_script_says() {
    let accepted = (0..10_000).filter(|&index| check(&sheet_for(11, index)));
    assert!(accepted.count() > 5_000);
}

#[test]
fn stored_cases_leave_the_secrets_that_their_scripts_say() {
    let cases = reference::sheets::stored::all();
    assert!(cases.iter().filter(|case| check(case)).count() > 200);
}

#[test]
fn measured_sheets_leave_the_secrets_that_their_scripts_say() {
    use reference::sheets::bench;
    for sheet in [
        bench::small(),
        bench::largest(),
        bench::signs(30),
        bench::signs(2),
    ] {
        assert!(check(&Case::with_room(sheet)));
    }
}

/// What was refused leaves both buffers and says nothing of registers or counts.
#[test]
fn a_refused_input_changes_nothing() {
    for index in 0..10_000 {
        let outcome = sheet_for(12, index).outcome();
        let answer = &outcome.answer;
        if !(1..=12).contains(&answer.number) {
            continue;
        }
        assert!((9..=11).contains(&answer.number) || answer.place == 0);
        let counts = [answer.inputs, answer.masks, answer.triples];
        assert_eq!(counts, [0; 3]);
        assert_eq!((answer.openings, answer.revealed), (0, 0));
        assert_eq!(answer.set, [false; 64]);
        assert_eq!(answer.registers, [[0; 7]; 64]);
        let mut numbers = outcome.record.iter().chain(&outcome.revealed);
        assert!(numbers.all(|&number| number == FILLING));
    }
}
