//! Runs that the state stops: 21 to 26, alone and where several are tried.

use super::bits_at;
use crate::cases::generator::Generator;
use crate::dealer::Dealer;
use crate::field::FIELDS;
use crate::run_case::Case;
use crate::script::command::{Command, Cost};
use crate::sheets::draft::Draft;

/// A command, and what is left for it after the ones before it.
struct Stop {
    command: Command,
    inputs: usize,
    masks: usize,
    triples: usize,
    /// Numbers that the record still takes.
    record: usize,
    revealed: usize,
}

pub fn all(generator: &mut Generator) -> Vec<Case> {
    stops()
        .iter()
        .map(|(_, stop)| stopped(generator, stop))
        .collect()
}

/// Registers 0 to 4 are set, one by LOAD and the others by CONST, and register 4 is revealed.
fn before() -> Vec<Command> {
    let mut commands = bits_at(0, 4, 0b1011);
    commands.extend([Command::Load { d: 4 }, Command::Reveal { a: 4 }]);
    commands
}

fn stopped(generator: &mut Generator, stop: &Stop) -> Case {
    let mut commands = before();
    commands.extend([stop.command, Command::Const { d: 9, v: 9 }]);
    let mut dealer = Dealer::new(generator, 0, (3, 1));
    let secrets = vec![10; 1 + stop.inputs];
    let mut draft = Draft::deal(&mut dealer, &commands, &secrets, &vec![11; stop.masks]);
    draft.triples = dealer.triples(stop.triples);
    Case {
        record: 3 + stop.record,
        revealed: 1 + stop.revealed,
        ..Case::with_room(draft.to_bytes())
    }
}

/// Commands whose operands are set, with all that they take, and a target that is set before.
fn allowed() -> [Command; 10] {
    let (d, a, k, m) = (3, 4, 3, 1);
    [
        Command::Mul { d, a, b: 0 },
        Command::Mod { d, a, k, m },
        Command::Trunc { d, a, k, m: 2 },
        Command::Ltz { d, a, k },
        Command::Over { d, a, k, v: 12 },
        Command::Blocks { d, a, k: 2, m },
        Command::Bitlt {
            d,
            b: 0,
            w: 4,
            v: 9,
        },
        Command::Reveal { a },
        Command::Ltzs { d, a: d, h: 2, k },
        Command::Ltzs {
            d: 0,
            a: 2,
            h: 2,
            k: 2,
        },
    ]
}

/// The number that each run ends with, and what is left for its command.
fn stops() -> Vec<(u32, Stop)> {
    let mut stops = Vec::new();
    for command in unset().into_iter().chain(unset_of_two()) {
        stops.push((21, nothing(command)));
    }
    for d in [0, 4, 62, 63] {
        stops.push((22, nothing(Command::Load { d })));
    }
    stops.push((0, nothing(Command::Load { d: 63 }).inputs(1)));
    for command in allowed() {
        stops.extend(short_of(command));
    }
    stops.extend(short_of(Command::Reveal { a: 0 }));
    stops.extend(parts_of_signs());
    stops
}

fn nothing(command: Command) -> Stop {
    Stop {
        command,
        inputs: 0,
        masks: 0,
        triples: 0,
        record: 0,
        revealed: 0,
    }
}

/// Just enough of everything.
fn enough(command: Command) -> Stop {
    let cost = command.cost(&FIELDS[0]);
    nothing(command)
        .inputs(cost.inputs)
        .masks(cost.masks)
        .triples(cost.triples)
        .record(3 * cost.openings())
        .revealed(cost.revealed)
}

impl Stop {
    fn inputs(self, inputs: usize) -> Stop {
        Stop { inputs, ..self }
    }

    fn masks(self, masks: usize) -> Stop {
        Stop { masks, ..self }
    }

    fn triples(self, triples: usize) -> Stop {
        Stop { triples, ..self }
    }

    fn record(self, record: usize) -> Stop {
        Stop { record, ..self }
    }

    fn revealed(self, revealed: usize) -> Stop {
        Stop { revealed, ..self }
    }
}

/// Just enough, one less of each thing that the command takes, and nothing from some thing on.
fn short_of(command: Command) -> Vec<(u32, Stop)> {
    let nothing = || nothing(command);
    let enough = || enough(command);
    let Stop {
        masks,
        triples,
        record,
        revealed,
        ..
    } = enough();
    let mut stops = vec![(0, enough())];
    if masks > 0 {
        stops.push((23, nothing()));
        stops.push((23, enough().masks(masks - 1)));
        stops.push((24, nothing().masks(masks)));
    }
    if triples > 0 {
        stops.push((24, enough().triples(triples - 1)));
        stops.push((25, nothing().masks(masks).triples(triples)));
    }
    stops.push((25, enough().record(record - 1)));
    if revealed > 0 {
        stops.push((25, nothing()));
        stops.push((26, enough().revealed(0)));
        stops.push((26, nothing().record(9)));
    }
    stops
}

/// LTZS of registers 0 to 2 into 3 to 5, with masks, triples or room in the record for one sign or two.
fn parts_of_signs() -> Vec<(u32, Stop)> {
    let (d, a, h, k) = (3, 0, 3, 2);
    let signs = || enough(Command::Ltzs { d, a, h, k });
    let Cost { triples, .. } = Command::Ltz { d, a, k }.cost(&FIELDS[0]);
    let shares = 3 * (1 + 2 * triples);
    let part = |count| {
        [
            (23, signs().masks(count)),
            (24, signs().triples(count * triples)),
            (25, signs().record(count * shares)),
            (23, signs().masks(count).triples(count * triples)),
            (24, signs().triples(count * triples).record(count * shares)),
        ]
    };
    [1, 2].into_iter().flat_map(part).collect()
}

/// Commands that read a register that is unset.
fn unset() -> Vec<Command> {
    let (d, a, k, m) = (0, 63, 3, 1);
    let mut commands = vec![
        Command::Scale { d, a, v: 1 },
        Command::Mod { d, a, k, m },
        Command::Trunc { d, a, k, m },
        Command::Ltz { d, a, k },
        Command::Over { d, a, k, v: 1 },
        Command::Blocks { d, a, k, m },
        Command::Reveal { a },
        Command::Reveal { a: 5 },
    ];
    for (d, b, w) in [(5, 5, 1), (0, 1, 5), (0, 0, 31), (0, 33, 31)] {
        commands.push(Command::Bitlt { d, b, w, v: 1 });
    }
    for (d, a, h) in [(63, 63, 1), (0, 5, 1), (0, 4, 2), (3, 3, 3), (32, 0, 16)] {
        commands.push(Command::Ltzs { d, a, h, k });
    }
    commands
}

/// Commands that read two registers, of which one or both are unset.
fn unset_of_two() -> Vec<Command> {
    let mut commands = Vec::new();
    for (a, b) in [(5, 0), (0, 5), (5, 5)] {
        commands.push(Command::Add { d: 5, a, b });
        commands.push(Command::Sub { d: 0, a, b });
        commands.push(Command::Mul { d: 0, a, b });
    }
    commands
}

#[cfg(test)]
mod tests {
    use super::*;
    use crate::run_case::FILLING;

    /// The place of the command after those that are always there.
    const PLACE: usize = 4 * 6 + 2 + 2;

    #[test]
    fn runs_stop_with_their_numbers_at_the_command() {
        for (number, stop) in stops() {
            let outcome = stopped(&mut Generator::new(6), &stop).outcome();
            let answer = outcome.answer;
            assert_eq!(answer.number, number, "{:?}", stop.command);
            if number == 0 {
                assert!(answer.set[9] && answer.place > PLACE);
                continue;
            }
            assert_eq!(answer.place, PLACE);
            let counts = [answer.inputs, answer.masks, answer.triples, answer.openings];
            assert_eq!(counts, [1, 0, 0, 1]);
            assert!(outcome.record[3..].iter().all(|&x| x == FILLING));
            assert!(outcome.revealed[1..].iter().all(|&x| x == FILLING));
            assert_eq!(outcome.revealed[0], 10);
        }
    }

    #[test]
    fn a_refused_command_leaves_every_register() {
        for (_, stop) in stops().iter().filter(|(number, _)| *number != 0) {
            let answer = stopped(&mut Generator::new(6), stop).outcome().answer;
            assert_eq!(answer.registers[3], [1, 1, 1, 0, 0, 0, 0]);
            assert_eq!(answer.registers[5..], [[0; 7]; 59]);
            assert_eq!(answer.set.iter().filter(|&&set| set).count(), 5);
        }
    }
}
