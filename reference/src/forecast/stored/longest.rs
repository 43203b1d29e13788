//! Scripts of 1,023 to 1,025 bytes: as many commands as there can be, and all limits together. However often
//! REVEAL stands, no buffer is full.

use super::Told;
use crate::forecast::draft::Draft;
use crate::forecast::head_of;
use crate::refusal::{COMMAND, FORM, LENGTH, NONE, NO_INPUT, NO_MASK, NO_TRIPLES, RANGE, UNSET};
use crate::script::command::Command::{self, *};
use crate::sheet::header;
use crate::sheets::{bench, gate};

pub fn all() -> Vec<Told> {
    let largest = bench::largest();
    let mut all = vec![(head_of(&largest).to_vec(), NONE, 1023)];
    all.extend(reveals());
    all.extend(lengths());
    all.extend(spent());
    all.extend(most_openings());
    all
}

/// The commands, and as many REVEALs of a register as fit into so many bytes with END.
fn filled(commands: &[Command], a: u8, bytes: usize) -> Vec<Command> {
    let length: usize = commands.iter().map(|it| it.to_bytes().len()).sum();
    let reveals = (bytes - 1 - length) / 2;
    [commands, &vec![Reveal { a }; reveals]].concat()
}

fn told(commands: &[Command], counts: [u16; 3], number: u32, place: usize) -> Told {
    let draft = Draft::of(3, commands).with_parties(7, 3);
    let head = draft.with_counts(counts).to_bytes();
    (head, number, place)
}

/// 508 REVEALs of a constant, 510 of a loaded row, 511 of an unset register, and one of these at the end.
fn reveals() -> Vec<Told> {
    let constant = filled(&[Const { d: 5, v: 1 }], 5, 1024);
    let loaded = filled(&[Load { d: 5 }], 5, 1024);
    let unset = filled(&[], 5, 1024);
    let last = [&loaded[..510], &[Reveal { a: 6 }]].concat();
    vec![
        told(&constant, [0; 3], NONE, 1022),
        told(&loaded, [1, 0, 0], NONE, 1022),
        told(&loaded, [0; 3], NO_INPUT, 0),
        told(&unset, [0; 3], UNSET, 0),
        told(&last, [1, 0, 0], UNSET, 1020),
    ]
}

/// 1,024 bytes with END and without, 1,025, and 9 to 11 near the end of 1,024.
fn lengths() -> Vec<Told> {
    // SCALE has seven bytes, so that the script's length is even
    let scaled = filled(&[Load { d: 0 }, Scale { d: 0, a: 0, v: 2 }], 0, 1024);
    let script = Draft::of(0, &scaled).script;
    let with = |script: &[u8], number, place| {
        let draft = Draft::new(0, script).with_counts([1, 0, 0]);
        (draft.to_bytes(), number, place)
    };
    let ended = |end: &[u8]| [&script[..1024 - end.len()], end].concat();
    vec![
        with(&script, NONE, 1023),
        with(&[&script[..], &[0]].concat(), LENGTH, 0),
        with(&[1, 0].repeat(512), FORM, 1024),
        with(&[0; 1024], FORM, 1),
        with(&ended(&[15]), COMMAND, 1023),
        with(&ended(&[12]), FORM, 1023),
        with(&ended(&[0, 0, 0]), FORM, 1022),
        with(&ended(&[12, 64, 0]), RANGE, 1021),
    ]
}

/// 6 commands on all 512 triples; one triple less, and one command more. 16 masks on 496 triples, and MULs on
/// the rest.
fn spent() -> Vec<Told> {
    let (a, b, k) = (0, 0, 30);
    let mut few = vec![Load { d: a }];
    few.extend((1..6).map(|d| Ltz { d, a, k }));
    few.push(Trunc { d: 6, a, k, m: 24 });
    let place = 2 + 5 * 4;
    let more = [&few[..], &[Mul { d: 7, a, b }]].concat();
    let mut many = vec![Load { d: a }];
    many.extend((1..17).map(|d| Ltz { d, a, k: 2 }));
    many.extend((17..33).map(|d| Mul { d, a, b }));
    let end = |commands: &[Command]| Draft::of(3, commands).script.len() - 1;
    let (few, many) = (filled(&few, 3, 1024), filled(&many, 32, 1024));
    vec![
        told(&few, [1, 6, 512], NONE, end(&few)),
        told(&few, [1, 16, 511], NO_TRIPLES, place),
        told(&filled(&more, 3, 1024), [1, 16, 512], NO_TRIPLES, place + 5),
        told(&many, [64, 16, 512], NONE, end(&many)),
        told(&many, [64, 16, 511], NO_TRIPLES, 2 + 16 * 4 + 15 * 4),
    ]
}

/// The gate's sheet with the most openings, whose three LTZS take all masks and triples; one of either less,
/// and what the first of them takes.
fn most_openings() -> Vec<Told> {
    let sheet = gate::named("most-openings").expect("the sheet is there");
    let script = &head_of(&sheet)[header::BYTES..];
    let with = |masks, triples, number, place| {
        let draft = Draft::new(3, script).with_parties(7, 3);
        let head = draft.with_counts([3, masks, triples]).to_bytes();
        (head, number, place)
    };
    vec![
        with(16, 512, NONE, 1023),
        with(16, 511, NO_TRIPLES, 16),
        with(15, 512, NO_MASK, 16),
        with(3, 93, NO_MASK, 11),
        with(16, 93, NO_TRIPLES, 11),
    ]
}

#[cfg(test)]
mod tests {
    use super::*;

    #[test]
    fn scripts_have_1023_to_1025_bytes() {
        for (head, number, place) in all() {
            let script = head.len() - header::BYTES;
            assert!(
                (1023..=1025).contains(&script),
                "{number} at {place}: {script}"
            );
            assert_eq!(script == 1025, number == LENGTH);
        }
    }

    /// LOAD and 510 REVEALs, or 511 REVEALs.
    #[test]
    fn no_script_has_more_commands() {
        let commands = [filled(&[Load { d: 5 }], 5, 1024), filled(&[], 5, 1024)];
        assert_eq!(commands.map(|it| it.len()), [511, 511]);
    }
}
