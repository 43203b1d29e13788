//! The stored sheets run every command that takes a mask at the ends of k, m and its range.

mod plain;
mod walk;

use plain::Plain;
use reference::field::{Field, FIELDS};
use reference::script::command::Command;
use walk::found_in_stored;

/// The modulus, the command's name, k, m, and the number worked on, modulo p.
type Run = (u32, &'static str, u8, u8, u64);

/// What a command works on, for each mask that it takes.
fn masked(field: &Field, plain: &Plain, command: &Command) -> Vec<Run> {
    match *command {
        Command::Ltzs { a, h, k, .. } => {
            let run = |register| (field.modulus, "LTZS", k, k - 1, plain.at(register));
            (a..a + h).map(run).collect()
        }
        _ => with_one_mask(field, plain, command).into_iter().collect(),
    }
}

fn with_one_mask(field: &Field, plain: &Plain, command: &Command) -> Option<Run> {
    let p = field.modulus;
    match *command {
        Command::Mod { a, k, m, .. } => Some((p, "MOD", k, m, plain.at(a))),
        Command::Trunc { a, k, m, .. } => Some((p, "TRUNC", k, m, plain.at(a))),
        Command::Ltz { a, k, .. } => Some((p, "LTZ", k, k - 1, plain.at(a))),
        Command::Over { a, k, v, .. } => {
            let difference = field.subtract(v.into(), plain.at(a));
            Some((p, "OVER", k, k - 1, difference))
        }
        Command::Blocks { a, k, m, .. } => {
            let sum = field.add(plain.at(a), (1 << m) - 1);
            Some((p, "BLOCKS", k, m, sum))
        }
        _ => None,
    }
}

/// The commands at the smallest and the largest k, and there at the smallest and the largest m.
fn commands(largest: u8) -> Vec<(&'static str, u8, u8)> {
    let widths = [(2, 1), (largest, 1), (largest, largest - 1)];
    let with_m = ["MOD", "TRUNC", "BLOCKS"]
        .into_iter()
        .flat_map(|name| widths.map(|(k, m)| (name, k, m)));
    let without_m = ["LTZ", "OVER", "LTZS"]
        .into_iter()
        .flat_map(|name| [2, largest].map(|k| (name, k, k - 1)));
    with_m.chain(without_m).collect()
}

/// The signed numbers that each command must run at; of several in one list, at one of them, since
/// the sheets of the larger fields are long.
fn ends(number: usize, k: u8) -> Vec<Vec<i64>> {
    let half = 1 << (k - 1);
    let (below, above) = (-half - 1, half);
    let mut ends = vec![vec![-half], vec![half - 1]];
    ends.extend(match number {
        0 => vec![vec![below], vec![above], vec![-1], vec![0]],
        1 => vec![vec![below], vec![above], vec![-1, 0]],
        2 => vec![vec![below], vec![above]],
        _ => vec![vec![below, above]],
    });
    ends
}

/// What the field's commands do not run at.
fn missing(number: usize, runs: &[Run]) -> Vec<String> {
    let Field { modulus, largest_k } = FIELDS[number];
    let asked = commands(largest_k as u8).into_iter().flat_map(|command| {
        let ends = ends(number, command.1);
        ends.into_iter().map(move |ends| (command, ends))
    });
    let mut missing = Vec::new();
    for ((name, k, m), ends) in asked {
        let mut values = ends.iter().map(|end| end.rem_euclid(modulus.into()) as u64);
        if !values.any(|value| runs.contains(&(modulus, name, k, m, value))) {
            missing.push(format!("modulo {modulus}: {name} k={k} m={m} at {ends:?}"));
        }
    }
    missing
}

#[test]
fn every_command_runs_at_the_ends() {
    let runs = found_in_stored(masked);
    let missing: Vec<String> = (0..4).flat_map(|number| missing(number, &runs)).collect();
    assert!(missing.is_empty(), "not run:\n{}", missing.join("\n"));
}

/// Both neighbours of a range stand in the largest field too, each with some of the commands.
#[test]
fn the_largest_field_runs_on_both_sides_of_each_range() {
    let runs = found_in_stored(masked);
    let p = FIELDS[3].modulus;
    for (k, m) in [(2, 1), (30, 1), (30, 29)] {
        let half = 1 << (k - 1);
        let is_run = |value| {
            let mut all = runs.iter();
            all.any(|run| (run.0, run.2, run.3, run.4) == (p, k, m, value))
        };
        assert!(is_run(u64::from(p) - half - 1), "k={k} m={m} below");
        assert!(is_run(half), "k={k} m={m} above");
    }
}
