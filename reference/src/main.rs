//! The command line: writes cases, their answers and examples, and prints the run of a sheet, the import of
//! a list and the forecast of a run.

use std::io::{self, Read, Write};
use std::process::ExitCode;

use reference::{
    calls, case, cases, columns, forecast, line, model_cases, replay, run_case, sheets, steps,
    table,
};

const USAGE: &str = "usage: reference WORD [NAME]    (reference --help says what each word does)";

/// TABLES stands for the names of the model's tables, SHEETS, LISTS and HEADS for those of the examples.
const HELP: &str = "\
usage: reference WORD [NAME]

Reads standard input where a word says so, and writes to standard output.

cases             writes the stored calls of the small entries
answers           reads such calls and writes their answers
step-cases        writes the stored cases of the steps
step-answers      writes the answers to those
run-cases         writes the stored sheets, each with the lengths of its lent buffers and who is present
run-answers       reads such sheets and writes all that each run leaves
call-cases        writes the stored lists of calls, each with the length of its lent buffer
call-answers      reads such lists and writes all that each import leaves
column-cases      writes the stored inputs of the column form, each with its direction and its output's length
column-answers    reads such inputs and writes all that turning each leaves
forecast-cases    writes the stored inputs of the forecast, mostly headers with their scripts
forecast-answers  reads such inputs and writes number and place of each
replay-cases      writes the stored replays: party, header with script, the party's part, and a record
replay-answers    reads such replays and writes end, revealed values and cells of each
model-cases NAME  writes one of the model's tables of cases; the names are TABLES
table             reads a sheet and writes the lines of its run
calls             reads a list of calls and writes the seconds of each, and the end of the import
forecast          reads header and script, or a sheet, and writes how its run would end, and why
example NAME      writes an example sheet; the names are SHEETS
example-list NAME writes an example list; the names are LISTS
example-head NAME writes header and script of an example; the names are HEADS
largest           writes a sheet that reaches every limit
gate-sheets       writes the names of the further sheets that the gate runs, one to a line
gate-sheet NAME   writes the sheet with such a name
gate-heads        writes the names of the further heads that the gate forecasts, one to a line
gate-head NAME    writes the head with such a name
--help            writes this

Exits with 1 if the work fails, with 2 if the words are wrong.
";

fn main() -> ExitCode {
    let words = match words() {
        Ok(words) => words,
        Err(message) => return refuse(&message),
    };
    let words: Vec<&str> = words.iter().map(String::as_str).collect();
    let outcome = match words[..] {
        ["cases"] => write_out(&all_bytes(&cases::all(), |case| case.to_bytes())),
        ["answers"] => answers(),
        ["step-cases"] => write_out(&all_bytes(&steps::cases::all(), |case| case.to_bytes())),
        ["step-answers"] => step_answers(),
        ["run-cases"] => write_out(&all_bytes(&sheets::stored::all(), |case| case.to_bytes())),
        ["run-answers"] => run_answers(),
        ["call-cases"] => write_out(&all_bytes(&calls::stored::all(), |case| case.to_bytes())),
        ["call-answers"] => call_answers(),
        ["column-cases"] => write_out(&all_bytes(&columns::stored::all(), |case| case.to_bytes())),
        ["column-answers"] => column_answers(),
        ["forecast-cases"] => {
            write_out(&all_bytes(&forecast::stored::all(), |case| case.to_bytes()))
        }
        ["forecast-answers"] => forecast_answers(),
        ["replay-cases"] => write_out(&all_bytes(&replay::stored::all(), |case| case.to_bytes())),
        ["replay-answers"] => replay_answers(),
        ["model-cases", name] => model_table(name),
        ["table"] => read_in().and_then(|sheet| write_out(table::lines(&sheet).as_bytes())),
        ["calls"] => read_in().and_then(|list| write_out(calls::case::printed(&list).as_bytes())),
        ["forecast"] => {
            read_in().and_then(|input| write_out(forecast::printed::lines(&input).as_bytes()))
        }
        ["example", name] => example(name),
        ["example-list", name] => example_list(name),
        ["example-head", name] => example_head(name),
        ["largest"] => write_out(&sheets::bench::largest()),
        ["gate-sheets"] => write_out(names_of(&sheets::gate::all()).as_bytes()),
        ["gate-sheet", name] => gate_sheet(name),
        ["gate-heads"] => write_out(names_of(&forecast::gate::all()).as_bytes()),
        ["gate-head", name] => gate_head(name),
        ["--help"] => write_out(help().as_bytes()),
        [] => return refuse("a word is missing"),
        ["example" | "example-list" | "example-head" | "gate-sheet" | "gate-head"
        | "model-cases"] => return refuse(&format!("{}: the NAME is missing", words[0])),
        _ => return refuse(&format!("not understood: {}", words.join(" "))),
    };
    ended(outcome)
}

/// What to exit with after the work.
fn ended(outcome: Result<(), String>) -> ExitCode {
    match outcome {
        Ok(()) => ExitCode::SUCCESS,
        Err(message) => {
            eprintln!("reference: {message}");
            ExitCode::from(1)
        }
    }
}

fn words() -> Result<Vec<String>, String> {
    let text = |word: std::ffi::OsString| {
        word.into_string()
            .map_err(|word| format!("not UTF-8: {word:?}"))
    };
    std::env::args_os().skip(1).map(text).collect()
}

/// For words that are wrong.
fn refuse(message: &str) -> ExitCode {
    eprintln!("reference: {message}\n{USAGE}");
    ExitCode::from(2)
}

fn all_bytes<T>(cases: &[T], bytes: impl Fn(&T) -> Vec<u8>) -> Vec<u8> {
    cases.iter().flat_map(bytes).collect()
}

/// Writes nothing unless every case can be read.
fn answers() -> Result<(), String> {
    let cases = case::read_all(&read_in()?)?;
    let lines: String = cases.iter().map(line::answer).collect();
    write_out(lines.as_bytes())
}

/// The answers to the cases that `step-cases` writes.
fn step_answers() -> Result<(), String> {
    let lines: Option<String> = steps::cases::all()
        .iter()
        .map(|case| case.lines())
        .collect();
    let lines = lines.ok_or("a case's deal is not what its step takes")?;
    write_out(lines.as_bytes())
}

/// Writes nothing unless every case can be read.
fn run_answers() -> Result<(), String> {
    let cases = run_case::read_all(&read_in()?)?;
    let lines: String = cases.iter().map(run_case::lines).collect();
    write_out(lines.as_bytes())
}

/// Writes nothing unless every case can be read.
fn call_answers() -> Result<(), String> {
    let cases = calls::case::read_all(&read_in()?)?;
    let lines: String = cases.iter().map(calls::case::lines).collect();
    write_out(lines.as_bytes())
}

/// Writes nothing unless every case can be read.
fn column_answers() -> Result<(), String> {
    let cases = columns::case::read_all(&read_in()?)?;
    let lines: String = cases.iter().map(columns::case::lines).collect();
    write_out(lines.as_bytes())
}

/// Writes nothing unless every case can be read.
fn forecast_answers() -> Result<(), String> {
    let cases = forecast::case::read_all(&read_in()?)?;
    let lines: String = cases.iter().map(forecast::case::line).collect();
    write_out(lines.as_bytes())
}

/// Writes nothing unless every case can be read.
fn replay_answers() -> Result<(), String> {
    let cases = replay::case::read_all(&read_in()?)?;
    let lines: String = cases.iter().map(replay::case::lines).collect();
    write_out(lines.as_bytes())
}

fn model_table(name: &str) -> Result<(), String> {
    let names = model_cases::NAMES.join(", ");
    let text = model_cases::text(name)
        .ok_or_else(|| format!("no table {name}; the tables are {names}"))?;
    write_out(text.as_bytes())
}

fn example(name: &str) -> Result<(), String> {
    let names = example_names();
    let sheet = sheets::examples::named(name)
        .ok_or_else(|| format!("no example {name}; the examples are {names}"))?;
    write_out(&sheet)
}

fn example_names() -> String {
    sheets::examples::NAMES.join(", ")
}

fn example_list(name: &str) -> Result<(), String> {
    let names = list_names();
    let list = calls::examples::named(name)
        .ok_or_else(|| format!("no example list {name}; the lists are {names}"))?;
    write_out(list)
}

fn list_names() -> String {
    calls::examples::NAMES.join(", ")
}

fn example_head(name: &str) -> Result<(), String> {
    let names = head_names();
    let head = forecast::examples::named(name)
        .ok_or_else(|| format!("no example head {name}; the heads are {names}"))?;
    write_out(&head)
}

fn head_names() -> String {
    forecast::examples::NAMES.join(", ")
}

fn gate_sheet(name: &str) -> Result<(), String> {
    let sheet = sheets::gate::named(name).ok_or_else(|| format!("no gate sheet {name}"))?;
    write_out(&sheet)
}

fn gate_head(name: &str) -> Result<(), String> {
    let head = forecast::gate::named(name).ok_or_else(|| format!("no gate head {name}"))?;
    write_out(&head)
}

/// Each name on a line of its own.
fn names_of(named: &[(String, Vec<u8>)]) -> String {
    named.iter().map(|(name, _)| format!("{name}\n")).collect()
}

fn help() -> String {
    HELP.replace("TABLES", &model_cases::NAMES.join(", "))
        .replace("SHEETS", &example_names())
        .replace("LISTS", &list_names())
        .replace("HEADS", &head_names())
}

fn read_in() -> Result<Vec<u8>, String> {
    let mut bytes = Vec::new();
    io::stdin()
        .read_to_end(&mut bytes)
        .map_err(|error| format!("cannot read: {error}"))?;
    Ok(bytes)
}

fn write_out(bytes: &[u8]) -> Result<(), String> {
    let mut output = io::stdout().lock();
    output
        .write_all(bytes)
        .and_then(|()| output.flush())
        .map_err(|error| format!("cannot write: {error}"))
}
