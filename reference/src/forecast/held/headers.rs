//! 1 to 4: each where nothing else is wrong, the last that they let through, and each before the later ones.

use super::{held, held_bytes, Draft, Held};

/// END alone, for three parties in field 0.
fn end() -> Draft {
    Draft::new(0, &[0])
}

pub fn all() -> Vec<Held> {
    let mut all = vec![held("END alone", end())];
    all.extend(refused());
    all.extend(limits());
    all.extend(lengths());
    all.extend(ordered());
    all.extend(longer());
    all
}

fn refused() -> [Held; 4] {
    let head = end().to_bytes();
    [
        held_bytes("1: no byte", vec![]),
        held_bytes("1: ten bytes", head[..10].to_vec()),
        held("2: field 4", Draft::new(4, &[0])),
        held("3: eight parties", end().with_parties(8, 1)),
    ]
}

/// No row follows the header, so all counts can be at their limits.
fn limits() -> [Held; 6] {
    let most = Draft::new(3, &[0])
        .with_parties(7, 3)
        .with_counts([64, 16, 512]);
    let (longest, longer) = (vec![255; 1024], vec![255; 1025]);
    let says = "9: a script of 1,024 bytes, which are no commands";
    [
        held(
            "64 inputs, 16 masks and 512 triples of seven parties in field 3",
            most,
        ),
        held("4: 65 inputs", end().with_counts([65, 0, 0])),
        held("4: 17 masks", end().with_counts([0, 17, 0])),
        held("4: 513 triples", end().with_counts([0, 0, 513])),
        held(says, Draft::new(0, &longest)),
        held("4: a script of 1,025 bytes", Draft::new(0, &longer)),
    ]
}

/// LOAD 0 and END with an input row.
fn lengths() -> [Held; 4] {
    let head = Draft::new(0, &[1, 0, 0]).with_counts([1, 0, 0]).to_bytes();
    let with = |more: &[u8]| [&head[..], more].concat();
    let sheet = with(&[5, 0, 0, 0, 5, 0, 0, 0, 5, 0, 0, 0]);
    [
        held_bytes("header and script of a sheet with a row", head.clone()),
        held_bytes("4: the whole sheet with its row", sheet),
        held_bytes("4: a byte too many", with(&[0])),
        held_bytes("4: a byte too few", head[..13].to_vec()),
    ]
}

fn ordered() -> [Held; 4] {
    let refused = Draft::new(4, &[15])
        .with_parties(8, 1)
        .with_counts([65, 0, 0]);
    let in_field = Draft {
        field: 0,
        ..refused.clone()
    };
    [
        held_bytes("1 before the rest", refused.to_bytes()[..10].to_vec()),
        held("2 before the rest", refused),
        held("3 before the rest", in_field.clone()),
        held("4 before 9", in_field.with_parties(3, 1)),
    ]
}

/// What is refused before the length, with a byte too many.
fn longer() -> [Held; 3] {
    let (no_field, parties) = (Draft::new(4, &[0]), end().with_parties(8, 1));
    let count = Draft::new(0, &[15]).with_counts([65, 0, 0]);
    let longer = |draft: Draft| [draft.to_bytes(), vec![0]].concat();
    [
        held_bytes("2 before 4: a byte too many in field 4", longer(no_field)),
        held_bytes(
            "3 before 4: a byte too many for eight parties",
            longer(parties),
        ),
        held_bytes(
            "4 before 9: 65 inputs, and a byte too many after no command",
            longer(count),
        ),
    ]
}
