//! Rounds in which the proved library and the reference, or another work of the library, do a job in turn, and
//! their times.

use std::time::{Duration, Instant};

/// About how long one side works in a round.
const SPAN: Duration = Duration::from_micros(500);

/// A job, and the lists that each side writes to.
pub trait Sides: Sized {
    /// What the second side is called.
    const SECOND: &'static str = "reference";

    /// Lets either side do the job once, and says where they differ.
    fn agree(&mut self) -> Result<(), String>;

    fn by_library(&mut self);

    fn by_reference(&mut self);

    /// Nanoseconds of one job, on average over some.
    fn time(&mut self, jobs: u32, side: fn(&mut Self)) -> f64 {
        let start = Instant::now();
        for _ in 0..jobs {
            side(self);
        }
        start.elapsed().as_nanos() as f64 / f64::from(jobs)
    }

    /// How many jobs take about the span.
    fn jobs(&mut self, side: fn(&mut Self)) -> u32 {
        let mut jobs = 1;
        while self.time(jobs, side) * f64::from(jobs) < SPAN.as_nanos() as f64 {
            jobs *= 2;
        }
        jobs
    }

    /// The library's time and the reference's in each round.
    fn rounds(&mut self, rounds: usize) -> (Vec<f64>, Vec<f64>) {
        let library_jobs = self.jobs(Self::by_library);
        let reference_jobs = self.jobs(Self::by_reference);
        let (mut library, mut reference) = (Vec::new(), Vec::new());
        for round in 0..rounds {
            if round % 2 == 0 {
                library.push(self.time(library_jobs, Self::by_library));
                reference.push(self.time(reference_jobs, Self::by_reference));
            } else {
                reference.push(self.time(reference_jobs, Self::by_reference));
                library.push(self.time(library_jobs, Self::by_library));
            }
        }
        (library, reference)
    }
}

struct Times {
    median: f64,
    best: f64,
}

impl Times {
    fn of(mut rounds: Vec<f64>) -> Times {
        rounds.sort_by(f64::total_cmp);
        Times {
            median: rounds[rounds.len() / 2],
            best: rounds[0],
        }
    }
}

/// Prints the job's lines, or says where the sides differ.
pub fn measure<S: Sides>(name: &str, mut sides: S, rounds: usize) -> Result<(), String> {
    sides
        .agree()
        .map_err(|message| format!("{name}: {message}"))?;
    let (library, reference) = sides.rounds(rounds);
    let ratios = library.iter().zip(&reference).map(|(one, two)| one / two);
    let paired = Times::of(ratios.collect()).median;
    let (library, reference) = (Times::of(library), Times::of(reference));
    print_times(
        (name, "median"),
        library.median,
        (S::SECOND, reference.median),
    );
    print_times((name, "best"), library.best, (S::SECOND, reference.best));
    println!("{name:<28} median of the rounds' ratios {paired:.3}");
    Ok(())
}

/// The times are in nanoseconds.
fn print_times((name, which): (&str, &str), library: f64, (second, other): (&str, f64)) {
    let ratio = library / other;
    let (library, other) = (library / 1000.0, other / 1000.0);
    println!(
        "{name:<28} {which:<6}  library {library:>10.3} us  {second:<9} {other:>10.3} us  \
         ratio {ratio:.3}"
    );
}
