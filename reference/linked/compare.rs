//! Holds the proved library to the reference: the stored sheets, entries, lists, inputs of the column form
//! and of the forecast, and replays, then drawn ones.
//!
//! `reference/link` builds it. A sheet is run with any byte that says who is present. Of a run are
//! compared number, place and counts, marks, register cells, and both buffers to their last number; of
//! a small entry (share, recover, encode, decode, sum) number, value and the lent list, and of a sum
//! also the remainder by p with the secret that the library recovers from the same row; of the import
//! of a list of calls number, how many calls were written, and the buffer to its last number; of the
//! column form, there and back, number and the output to its last byte; of the forecast number and
//! place, and for the header and script of a sheet whose rows and length are not refused also with
//! number and place of the library's own run; of the replay number, cells, place and counts, and for the
//! record of the library's own run also with number, column and counts of that run. Lists of numbers are filled before with numbers that are
//! never written, so that a number too many, too few or left over is seen. Every byte can be written to
//! an output of the column form, so it is filled with bytes that change from place to place. The lists
//! for registers, marks, counts and a replay's cells are at times too short or too long.

mod entries;
mod forecasts;
mod library;
mod replays;
mod words;

use std::collections::BTreeMap;
use std::process::ExitCode;

use reference::calls;
use reference::calls::drawn::list_for;
use reference::case::Case;
use reference::cases::generator::Generator;
use reference::cases::{self, case_for, sum_for};
use reference::columns;
use reference::columns::drawn::turn_for;
use reference::compare::forecasts::is_decided_by_head;
use reference::compare::summed::{recovery, recovery_difference};
use reference::compare::{Entered, Forecast, Imported, Lengths, Ran, Replayed, Turned};
use reference::forecast::drawn::head_for;
use reference::forecast::{self, head_of};
use reference::present::everyone_of;
use reference::replay;
use reference::replay::drawn::replay_for;
use reference::replay::recorded::Recorded;
use reference::run_case;
use reference::sheets::{self, sheet_for};
use reference::table::{RECORD, REVEALED};

const USAGE: &str = "\
usage: compare SEED COUNT [FIRST]

Compares the proved library with the reference: all that is stored, COUNT sheets drawn from SEED
and the indices FIRST, FIRST + 1, ... (FIRST is 0 if left out), each with a drawn set of present
parties, permitted or not, and for each of them 5 calls of small entries (4 of share, recover, encode
or decode, and one of sum), the import of a list of calls, an input turned to the column form or to
the sheet, the forecast of a drawn input and of the sheet's header and script, a drawn replay, and
the replay of the sheet's run by each of its parties. A sum's remainder is compared also with the
secret that the library recovers from the same row, the forecast of a sheet's header and script with
the end of the library's run of the sheet, everyone being present and both buffers ample, and the
replays of the sheet's run with the columns of the library's run, with the drawn set if it is
permitted. The last line tells how many were compared and how many differ. Exits with 1 if
any does, with 2 if the arguments are wrong.

Build it with bash reference/link, after bash programs/build jundrethol.";

/// How many calls of small entries are drawn for a sheet besides one of sum.
const ENTRIES: u64 = 4;

/// How many differences are listed.
const LISTED: usize = 5;

/// How many bytes of a sheet, a list or an input are listed.
const SHOWN: usize = 400;

/// Apart from the sheet's own sequence, so that one does not decide the other.
const LENGTHS_SEED: u64 = 0x5EED_0004;

/// Apart from the replay's own sequence.
const CELLS_SEED: u64 = 0x5EED_0016;

/// How many there were of each number.
type Numbers = BTreeMap<u32, u64>;

#[derive(Default)]
struct Tally {
    runs: Numbers,
    /// How many of them were runs of accepted sheets with a party absent.
    absent: u64,
    entries: u64,
    sums: Numbers,
    imports: Numbers,
    turns: Numbers,
    forecasts: Numbers,
    /// How many of them were compared with a run.
    against_runs: u64,
    replays: Numbers,
    /// How many of them were compared with a column of a run.
    against_columns: u64,
    differing: usize,
}

impl Tally {
    fn run(&mut self, name: &str, case: &run_case::Case, lengths: Lengths) {
        let mut reference = Ran::before(case.record, case.revealed, lengths);
        let mut library = reference.clone();
        reference.by_reference(&case.sheet, case.present);
        library::run(&mut library, &case.sheet, case.present);
        *self.runs.entry(reference.number).or_default() += 1;
        let is_accepted = !(1..=12).contains(&reference.number);
        let is_absent = case.present != everyone_of(&case.sheet);
        self.absent += u64::from(is_accepted && is_absent);
        if let Some(difference) = reference.difference(&library) {
            let (present, record, revealed) = (case.present, case.record, case.revealed);
            let shown = &case.sheet[..case.sheet.len().min(SHOWN)];
            let length = case.sheet.len();
            self.differs(format!(
                "{name}: {difference}\n  present {present:08b} record {record} revealed {revealed} {lengths:?}\n  \
                 sheet of {length} bytes: {shown:?}"
            ));
        }
    }

    fn entry(&mut self, name: &str, case: &Case) {
        let reference = Entered::by_reference(case);
        let library = entries::enter(case);
        self.entries += 1;
        let mut difference = reference.difference(&library);
        if let Case::Sum(call) = case {
            *self.sums.entry(reference.number).or_default() += 1;
            let recovered = entries::enter(&recovery(call));
            difference = difference.or_else(|| recovery_difference(call, &library, &recovered));
        }
        if let Some(difference) = difference {
            self.differs(format!("{name}: {difference}\n  {case:?}"));
        }
    }

    fn import(&mut self, name: &str, case: &calls::case::Case) {
        let mut reference = Imported::before(case.lent);
        let mut library = reference.clone();
        reference.by_reference(&case.list);
        library::import(&mut library, &case.list);
        *self.imports.entry(reference.number).or_default() += 1;
        if let Some(difference) = reference.difference(&library) {
            let lent = case.lent;
            let shown = case.list[..case.list.len().min(SHOWN)].escape_ascii();
            let length = case.list.len();
            self.differs(format!(
                "{name}: {difference}\n  buffer {lent}\n  list of {length} bytes: {shown}"
            ));
        }
    }

    fn turn(&mut self, name: &str, case: &columns::case::Case) {
        let mut reference = Turned::before(case.lent);
        let mut library = reference.clone();
        reference.by_reference(case.way, &case.input);
        library::turn(&mut library, case.way, &case.input);
        *self.turns.entry(reference.number).or_default() += 1;
        if let Some(difference) = reference.difference(&library) {
            let (way, lent) = (case.way, case.lent);
            let shown = &case.input[..case.input.len().min(SHOWN)];
            let length = case.input.len();
            self.differs(format!(
                "{name}: {difference}\n  {way:?} output {lent}\n  \
                 input of {length} bytes: {shown:?}"
            ));
        }
    }

    /// The library's forecast, after it is compared.
    fn forecast(&mut self, name: &str, head: &[u8]) -> Forecast {
        let mut reference = Forecast::before();
        let mut library = reference.clone();
        reference.by_reference(head);
        forecasts::forecast(&mut library, head);
        *self.forecasts.entry(reference.number).or_default() += 1;
        if let Some(difference) = reference.difference(&library) {
            let shown = &head[..head.len().min(SHOWN)];
            let length = head.len();
            self.differs(format!(
                "{name}: {difference}\n  input of {length} bytes: {shown:?}"
            ));
        }
        library
    }

    /// The forecast of the sheet's header and script, compared with the sheet's run too, where they decide
    /// how it ends.
    fn forecast_of_sheet(&mut self, name: &str, sheet: &[u8]) {
        if !is_decided_by_head(sheet) {
            return;
        }
        let forecast = self.forecast(name, head_of(sheet));
        let mut ran = Ran::before(RECORD, REVEALED, Lengths::WHOLE);
        library::run(&mut ran, sheet, everyone_of(sheet));
        self.against_runs += 1;
        if let Some(difference) = forecast.run_difference(&ran) {
            let shown = &sheet[..sheet.len().min(SHOWN)];
            let length = sheet.len();
            self.differs(format!(
                "{name}: {difference}\n  sheet of {length} bytes: {shown:?}"
            ));
        }
    }

    /// The library's replay, after it is compared.
    fn replay(&mut self, name: &str, case: &replay::case::Case, before: Replayed) -> Replayed {
        let mut reference = before;
        let mut library = reference.clone();
        reference.by_reference(case);
        replays::replay(&mut library, case);
        *self.replays.entry(reference.number).or_default() += 1;
        if let Some(difference) = reference.difference(&library) {
            let party = case.party;
            let head = &case.head[..case.head.len().min(SHOWN)];
            let part = &case.part[..case.part.len().min(SHOWN)];
            let record = &case.record[..case.record.len().min(SHOWN)];
            let (length, numbers) = (case.part.len(), case.record.len());
            self.differs(format!(
                "{name}: {difference}\n  party {party} head {head:?}\n  \
                 part of {length} bytes: {part:?}\n  record of {numbers} numbers: {record:?}"
            ));
        }
        library
    }

    /// The replays of the library's run of the sheet by all its parties, if it is accepted, compared with the
    /// run's columns too.
    fn replays_of_sheet(&mut self, name: &str, sheet: &[u8], present: u8) {
        let mut ran = Ran::before(RECORD, REVEALED, Lengths::WHOLE);
        library::run(&mut ran, sheet, present);
        let Some(mut recorded) = Recorded::of(sheet, present) else {
            return;
        };
        let length = ran.record.len().min(recorded.record.len());
        recorded.record.copy_from_slice(&ran.record[..length]);
        for party in 1..=recorded.parts.len() {
            let name = format!("{name} party {party}");
            let replayed = self.replay(&name, &recorded.case(party), Replayed::before());
            self.against_columns += 1;
            if let Some(difference) = replayed.run_difference(party, &ran) {
                let shown = &sheet[..sheet.len().min(SHOWN)];
                let length = sheet.len();
                self.differs(format!(
                    "{name}: {difference}\n  present {present:08b}\n  \
                     sheet of {length} bytes: {shown:?}"
                ));
            }
        }
    }

    fn differs(&mut self, lines: String) {
        if self.differing < LISTED {
            println!("{lines}");
        }
        self.differing += 1;
    }

    fn stored(&mut self) {
        for (place, case) in sheets::stored::all().iter().enumerate() {
            self.run(&format!("stored sheet {place}"), case, Lengths::WHOLE);
            self.forecast_of_sheet(&format!("head of stored sheet {place}"), &case.sheet);
            let name = format!("replay of stored sheet {place}");
            self.replays_of_sheet(&name, &case.sheet, case.present);
        }
        for (place, case) in cases::all().iter().enumerate() {
            self.entry(&format!("stored entry {place}"), case);
        }
        for (place, case) in calls::stored::all().iter().enumerate() {
            self.import(&format!("stored list {place}"), case);
        }
        for (place, case) in columns::stored::all().iter().enumerate() {
            self.turn(&format!("stored input {place}"), case);
        }
        for (place, case) in forecast::stored::all().iter().enumerate() {
            self.forecast(&format!("stored head {place}"), &case.head);
        }
        for (place, case) in replay::stored::all().iter().enumerate() {
            self.replay(&format!("stored replay {place}"), case, Replayed::before());
        }
    }

    fn drawn(&mut self, seed: u64, index: u64) {
        let case = sheet_for(seed, index);
        let lengths = Lengths::draw(&mut Generator::at(seed ^ LENGTHS_SEED, index));
        self.run(&format!("sheet {seed} {index}"), &case, lengths);
        for entry in 0..ENTRIES {
            let index = index.wrapping_mul(ENTRIES).wrapping_add(entry);
            self.entry(&format!("entry {seed} {index}"), &case_for(seed, index));
        }
        self.entry(&format!("sum {seed} {index}"), &sum_for(seed, index));
        self.import(&format!("list {seed} {index}"), &list_for(seed, index));
        self.turn(&format!("input {seed} {index}"), &turn_for(seed, index));
        let head = head_for(seed, index).head;
        self.forecast(&format!("head {seed} {index}"), &head);
        self.forecast_of_sheet(&format!("head of sheet {seed} {index}"), &case.sheet);
        let before = Replayed::drawn_before(&mut Generator::at(seed ^ CELLS_SEED, index));
        let replay = replay_for(seed, index);
        self.replay(&format!("replay {seed} {index}"), &replay, before);
        let name = format!("replay of sheet {seed} {index}");
        self.replays_of_sheet(&name, &case.sheet, case.present);
    }

    fn tell(&self) {
        println!("runs by number: {}", told(&self.runs));
        println!("accepted with a party absent: {}", self.absent);
        println!("sums by number: {}", told(&self.sums));
        println!("lists by number: {}", told(&self.imports));
        println!("turned by number: {}", told(&self.turns));
        println!("forecasts by number: {}", told(&self.forecasts));
        println!("replays by number: {}", told(&self.replays));
        let numbers = [
            &self.runs,
            &self.sums,
            &self.imports,
            &self.turns,
            &self.forecasts,
            &self.replays,
        ];
        let [runs, sums, imports, turns, forecasts, replays] = numbers.map(total);
        println!(
            "{runs} runs of sheets, {} calls of small entries, {sums} of them sums, {imports} imports \
             of lists, {turns} inputs turned, {forecasts} forecasts, {} of them against a run, and \
             {replays} replays, {} of them against a column of a run, compared, {} differ",
            self.entries, self.against_runs, self.against_columns, self.differing
        );
    }
}

fn total(numbers: &Numbers) -> u64 {
    numbers.values().sum()
}

fn told(numbers: &Numbers) -> String {
    let told = |(number, count)| format!("{number}: {count}");
    numbers.iter().map(told).collect::<Vec<_>>().join(", ")
}

/// SEED, COUNT and FIRST, or which word is wrong.
fn numbers(words: &[String]) -> Result<(u64, u64, u64), String> {
    let number = |name: &str, word: &str| {
        let parsed = word.parse();
        parsed.map_err(|_| format!("{name} is not a number from 0 to 2^64 - 1: {word}"))
    };
    match words {
        [] => Err("SEED is missing".to_owned()),
        [_] => Err("COUNT is missing".to_owned()),
        [seed, count] => Ok((number("SEED", seed)?, number("COUNT", count)?, 0)),
        [seed, count, first] => Ok((
            number("SEED", seed)?,
            number("COUNT", count)?,
            number("FIRST", first)?,
        )),
        [_, _, _, more, ..] => Err(format!(
            "three words are allowed, and this is another: {more}"
        )),
    }
}

fn main() -> ExitCode {
    let (seed, count, first) = match words::read("compare", USAGE, numbers) {
        Ok(numbers) => numbers,
        Err(code) => return code,
    };
    let mut tally = Tally::default();
    tally.stored();
    for place in 0..count {
        tally.drawn(seed, first.wrapping_add(place));
    }
    tally.tell();
    ExitCode::from(u8::from(tally.differing > 0))
}
