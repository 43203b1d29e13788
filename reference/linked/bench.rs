//! Measures the time of the proved library over that of the reference, in one process.
//!
//! `reference/link` builds it. For each sheet, for a list of calls, for the column form of a sheet there
//! and back, and for a replay, both sides do their job once and are held to each other. The library's
//! replay is measured against its own run too. Then come rounds: in each,
//! either side does the job so often that it takes about half a millisecond or once if that is longer,
//! and the side that starts changes from round to round. A round's time is that of one job on average.
//! On a busy machine the best round tells most: a round is slowed by what else runs.

mod library;
mod replays;
mod rounds;
mod words;

use std::hint::black_box;
use std::process::ExitCode;

use reference::calls;
use reference::columns::Way;
use reference::compare::{Imported, Lengths, Ran, Replayed, Turned};
use reference::present::everyone_of;
use reference::replay::case::Case;
use reference::replay::recorded::Recorded;
use reference::run::run;
use reference::sheets::bench;
use reference::table::{RECORD, REVEALED};
use rounds::{measure, Sides};

const USAGE: &str = "\
usage: bench [ROUNDS]

Prints for the run of three sheets, for the import of a list of 10,000 lines, for turning the
largest sheet to its column form and back, and for the replay of the largest sheet's run by one
party the time of the proved library and of the reference, as median and as best of ROUNDS rounds
(2001 if left out, at least 1), and the ratio of the two: below 1 the library is faster. A third
line has the median of the rounds' own ratios. The last job is the library's replay beside the
library's own run of that sheet. Both sides run in the same process, in turn, after their answers
and buffers were found equal. Exits with 1 if they are not, with 2 if the arguments are wrong.

Build it with bash reference/link, after bash programs/build jundrethol.";

const ROUNDS: usize = 2001;

/// The lines of the list.
const LINES: usize = 10_000;

/// The run of a sheet with everyone present.
struct Runs<'a> {
    sheet: &'a [u8],
    present: u8,
    library: Ran,
    reference: Ran,
}

impl Runs<'_> {
    fn new(sheet: &[u8]) -> Runs<'_> {
        let before = Ran::before(RECORD, REVEALED, Lengths::WHOLE);
        Runs {
            sheet,
            present: everyone_of(sheet),
            library: before.clone(),
            reference: before,
        }
    }
}

impl Sides for Runs<'_> {
    fn agree(&mut self) -> Result<(), String> {
        self.by_library();
        self.reference.by_reference(self.sheet, self.present);
        self.reference.difference(&self.library).map_or(Ok(()), Err)
    }

    fn by_library(&mut self) {
        library::run(&mut self.library, black_box(self.sheet), self.present);
        black_box(&mut self.library);
    }

    /// The run alone: the reference's answer is a value, which is not moved to lists.
    fn by_reference(&mut self) {
        let ran = &mut self.reference;
        let sheet = black_box(self.sheet);
        black_box(run(sheet, self.present, &mut ran.record, &mut ran.revealed));
    }
}

/// The import of a list, with a buffer that its calls fill.
struct Imports<'a> {
    list: &'a [u8],
    library: Imported,
    reference: Imported,
}

impl Imports<'_> {
    fn new(list: &[u8]) -> Imports<'_> {
        let before = Imported::before(LINES);
        Imports {
            list,
            library: before.clone(),
            reference: before,
        }
    }
}

impl Sides for Imports<'_> {
    fn agree(&mut self) -> Result<(), String> {
        self.by_library();
        self.by_reference();
        self.reference.difference(&self.library).map_or(Ok(()), Err)
    }

    fn by_library(&mut self) {
        library::import(&mut self.library, black_box(self.list));
        black_box(&mut self.library);
    }

    fn by_reference(&mut self) {
        self.reference.by_reference(black_box(self.list));
        black_box(&mut self.reference);
    }
}

/// A sheet to its column form, and that to the sheet, with outputs that they fill.
struct Turns<'a> {
    sheet: &'a [u8],
    library: [Turned; 2],
    reference: [Turned; 2],
}

impl Turns<'_> {
    fn new(sheet: &[u8]) -> Turns<'_> {
        let before = Turned::before(sheet.len());
        let both = [before.clone(), before];
        Turns {
            sheet,
            library: both.clone(),
            reference: both,
        }
    }
}

impl Sides for Turns<'_> {
    fn agree(&mut self) -> Result<(), String> {
        self.by_library();
        self.by_reference();
        let mut sides = self.reference.iter().zip(&self.library);
        let difference = sides.find_map(|(reference, library)| reference.difference(library));
        difference.map_or(Ok(()), Err)
    }

    fn by_library(&mut self) {
        let [columns, back] = &mut self.library;
        library::turn(columns, Way::ToColumns, black_box(self.sheet));
        library::turn(back, Way::ToSheet, black_box(&columns.output));
        black_box(&mut self.library);
    }

    fn by_reference(&mut self) {
        let [columns, back] = &mut self.reference;
        columns.by_reference(Way::ToColumns, black_box(self.sheet));
        back.by_reference(Way::ToSheet, black_box(&columns.output));
        black_box(&mut self.reference);
    }
}

/// The party whose replays are measured.
const PARTY: usize = 1;

/// The replay of a run with everyone present, by one party.
struct Replays {
    case: Case,
    library: Replayed,
    reference: Replayed,
}

impl Replays {
    fn new(sheet: &[u8]) -> Option<Replays> {
        let case = Recorded::of(sheet, everyone_of(sheet))?.case(PARTY);
        let before = Replayed::before();
        Some(Replays {
            case,
            library: before.clone(),
            reference: before,
        })
    }
}

impl Sides for Replays {
    fn agree(&mut self) -> Result<(), String> {
        self.by_library();
        self.reference.by_reference(&self.case);
        self.reference.difference(&self.library).map_or(Ok(()), Err)
    }

    fn by_library(&mut self) {
        replays::replay(&mut self.library, black_box(&self.case));
        black_box(&mut self.library);
    }

    /// The replay alone: the reference's answer is a value, which is not moved to lists.
    fn by_reference(&mut self) {
        black_box(black_box(&self.case).answer());
    }
}

/// The library's replay of a run, and the run.
struct ReplayAndRun<'a> {
    replays: Replays,
    runs: Runs<'a>,
}

impl Sides for ReplayAndRun<'_> {
    const SECOND: &'static str = "its run";

    fn agree(&mut self) -> Result<(), String> {
        self.by_library();
        self.by_reference();
        let replayed = &self.replays.library;
        let difference = replayed.run_difference(PARTY, &self.runs.library);
        difference.map_or(Ok(()), Err)
    }

    fn by_library(&mut self) {
        self.replays.by_library();
    }

    /// The library's run, too.
    fn by_reference(&mut self) {
        self.runs.by_library();
    }
}

fn measure_all(rounds: usize) -> Result<(), String> {
    let sheets = [
        ("largest sheet", bench::largest()),
        ("LTZ of 30 bits in field 3", bench::signs(30)),
        ("small sheet", bench::small()),
    ];
    for (name, sheet) in sheets {
        measure(name, Runs::new(&sheet), rounds)?;
    }
    let list = calls::bench::list(LINES);
    measure("list of 10,000 calls", Imports::new(&list), rounds)?;
    let sheet = bench::largest();
    measure("largest sheet there and back", Turns::new(&sheet), rounds)?;
    let refused = || String::from("the largest sheet is refused");
    let replays = || Replays::new(&sheet).ok_or_else(refused);
    measure("replay of the largest run", replays()?, rounds)?;
    let both = ReplayAndRun {
        replays: replays()?,
        runs: Runs::new(&sheet),
    };
    measure("replay over the largest run", both, rounds)
}

/// The number of rounds, or which word is wrong.
fn rounds(words: &[String]) -> Result<usize, String> {
    match words {
        [] => Ok(ROUNDS),
        [word] => word
            .parse()
            .ok()
            .filter(|&rounds| rounds > 0)
            .ok_or_else(|| format!("ROUNDS is not a number from 1 on: {word}")),
        [_, more, ..] => Err(format!("one word is allowed, and this is another: {more}")),
    }
}

fn main() -> ExitCode {
    let rounds = match words::read("bench", USAGE, rounds) {
        Ok(rounds) => rounds,
        Err(code) => return code,
    };
    println!("{rounds} rounds");
    match measure_all(rounds) {
        Ok(()) => ExitCode::SUCCESS,
        Err(message) => {
            eprintln!("bench: {message}");
            ExitCode::from(1)
        }
    }
}
