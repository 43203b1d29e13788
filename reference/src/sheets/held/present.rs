//! Runs with absent parties, and the sets that 12 refuses, alone and against the other grounds. No value and no count tells who is absent. What
//! does is the record, which has p for an absent share, in every opening and nowhere past the last; the registers have all columns.

use super::{commands, Held};
use crate::cases::generator::Generator;
use crate::dealer::Dealer;
use crate::script::command::Command;
use crate::sheets::draft::Draft;

const SEED: u64 = 0x5EED_000F;

pub fn all() -> Vec<Held> {
    let mut all = printed();
    all.extend(products());
    all.extend(steps());
    all.extend(stops());
    all.extend(refused());
    all.extend(ordered());
    all.extend(absent_shares());
    all
}

/// The paper's printed run with every permitted set. The record has room for an opening more.
fn printed() -> Vec<Held> {
    let with = |says, present| Held {
        says,
        ..commands::printed().with_present(present)
    };
    vec![
        with("the paper's printed run, everyone present", 0b111),
        with("party 3 absent", 0b011),
        with("party 2 absent", 0b101),
        with("party 1 absent", 0b110),
    ]
}

/// A deal drawn for the commands: a field, n and t, inputs of these secrets and masks of these numbers.
fn draft(
    (field, parties): (u32, (u32, u32)),
    commands: &[Command],
    secrets: &[u32],
    masks: &[u32],
) -> Draft {
    let mut generator = Generator::at(SEED, u64::from(8 * field + parties.0));
    let mut dealer = Dealer::new(&mut generator, field, parties);
    Draft::deal(&mut dealer, commands, secrets, masks)
}

/// The product of two inputs, revealed: each threshold, sets of each size, sets without party 1, and sets with a party left out between others.
fn products() -> Vec<Held> {
    let run = |says, setting, present| {
        let commands = [
            Command::Load { d: 0 },
            Command::Load { d: 1 },
            Command::Mul { d: 2, a: 0, b: 1 },
            Command::Reveal { a: 2 },
        ];
        let draft = draft(setting, &commands, &[11, 7], &[]);
        Held::with_room(says, &draft).with_present(present)
    };
    vec![
        run("n = 4, t = 1: parties 2 and 4", (1, (4, 1)), 0b1010),
        run("n = 4, t = 1: all but party 2", (0, (4, 1)), 0b1101),
        run("n = 5, t = 1: parties 4 and 5", (0, (5, 1)), 0b11000),
        run("n = 5, t = 2: parties 1, 3 and 5", (1, (5, 2)), 0b10101),
        run("n = 5, t = 2: parties 3, 4 and 5", (0, (5, 2)), 0b11100),
        run("n = 5, t = 2: all but party 3", (0, (5, 2)), 0b11011),
        run("n = 6, t = 1: all but party 1", (0, (6, 1)), 0b111110),
        run("n = 6, t = 2: parties 1, 4 and 6", (1, (6, 2)), 0b101001),
        run("n = 7, t = 1: parties 6 and 7", (1, (7, 1)), 0b1100000),
        run("n = 7, t = 2: parties 2, 4 and 6", (0, (7, 2)), 0b0101010),
        run("n = 7, t = 3: 2, 3, 5 and 7", (1, (7, 3)), 0b1010110),
        run("n = 7, t = 3: 4, 5, 6 and 7", (0, (7, 3)), 0b1111000),
        run("n = 7, t = 3: all but party 4", (1, (7, 3)), 0b1110111),
    ]
}

/// Steps of more than one product in field 0.
fn steps() -> Vec<Held> {
    use Command::*;
    let run = |says, parties, commands: &[Command], secrets: &[u32], present| {
        let masks: &[u32] = if commands.len() == 3 { &[9] } else { &[] };
        let draft = draft((0, parties), commands, secrets, masks);
        Held::with_room(says, &draft).with_present(present)
    };
    let bits = Bitlt {
        d: 2,
        b: 0,
        w: 2,
        v: 1,
    };
    let below = [Load { d: 0 }, Load { d: 1 }, bits, Reveal { a: 2 }];
    let masked = |command| [Load { d: 0 }, command, Reveal { a: 1 }];
    let remainder = masked(Mod {
        d: 1,
        a: 0,
        k: 3,
        m: 1,
    });
    let sign = masked(Ltz { d: 1, a: 0, k: 2 });
    vec![
        run(
            "BITLT w=2 v=1 of 2: 1, party 2 absent",
            (3, 1),
            &below,
            &[0, 1],
            0b101,
        ),
        run(
            "MOD m=1, 3: 1, party 1 absent",
            (3, 1),
            &remainder,
            &[3],
            0b110,
        ),
        run(
            "LTZ k=2, -1: 1, parties 1 and 3 absent",
            (4, 1),
            &sign,
            &[12],
            0b1010,
        ),
    ]
}

/// Runs that the state stops after a REVEAL, party 1 or 2 being absent. An opening takes n numbers of the record all the same.
fn stops() -> Vec<Held> {
    use Command::*;
    let after_reveal = |says, command, record, revealed, present| {
        let commands = [Load { d: 0 }, Reveal { a: 0 }, command];
        let mut draft = draft((0, (3, 1)), &commands, &[4], &[]);
        draft.triples.clear();
        Held::of(says, &draft, record, revealed).with_present(present)
    };
    let remainder = Mod {
        d: 1,
        a: 0,
        k: 3,
        m: 1,
    };
    let product = Mul { d: 1, a: 0, b: 0 };
    let again = Reveal { a: 0 };
    vec![
        after_reveal("21: a register read is unset", Reveal { a: 1 }, 7, 2, 0b110),
        after_reveal("22: no input row is left", Load { d: 1 }, 7, 2, 0b101),
        after_reveal("23: no mask", remainder, 9, 2, 0b110),
        after_reveal("24: no triple", product, 9, 2, 0b101),
        after_reveal(
            "25: room for the two shares present, not for three",
            again,
            5,
            2,
            0b110,
        ),
        after_reveal("26: room for one value", again, 6, 1, 0b101),
    ]
}

/// LOAD 0, REVEAL 0 and END for three parties, with this row.
fn reveal(says: &'static str, row: &[u32], present: u8) -> Held {
    let header = [0, 3, 1, 1, 0, 0, 0, 0, 0, 5, 0];
    Held::plain(says, &header, &[1, 0, 12, 0, 0], row).with_present(present)
}

/// END alone for n parties and threshold t.
fn end(says: &'static str, (n, t): (u8, u8), present: u8) -> Held {
    Held::plain(says, &[0, n, t, 0, 0, 0, 0, 0, 0, 1, 0], &[0], &[]).with_present(present)
}

/// Sets with too few parties, and bits beyond n.
fn refused() -> Vec<Held> {
    let row = [7, 9, 11];
    vec![
        reveal("12: none is present", &row, 0),
        reveal("12: t are present, the last of three", &row, 0b100),
        end("12: t are present, the last of seven", (7, 3), 0b1110000),
        reveal("12: bit 3 and everyone, n = 3", &row, 0b1111),
        reveal("12: bit 7 and everyone, n = 3", &row, 0b10000111),
        reveal("12: t are present, and a bit beyond n", &row, 0b1001),
        end("12: bit 7 and everyone, n = 7", (7, 3), 0b11111111),
        end("12: bit 7 alone, n = 7", (7, 3), 0b10000000),
    ]
}

/// A ground that is tried before 12 or after it, with a set that 12 refuses.
fn ordered() -> Vec<Held> {
    let plain = |says, header: &[u8], script: &[u8], present| {
        Held::plain(says, header, script, &[]).with_present(present)
    };
    vec![
        plain("1 before 12", &[0, 3, 1, 0, 0, 0, 0, 0, 0, 0], &[], 0),
        plain("2 before 12", &[4, 3, 1, 0, 0, 0, 0, 0, 0, 1, 0], &[0], 0),
        end("3 before 12: eight parties", (8, 3), 0),
        end("3 before 12: the threshold", (3, 2), 0b1111),
        plain(
            "12 before 4: 65 input rows",
            &[0, 3, 1, 65, 0, 0, 0, 0, 0, 1, 0],
            &[0],
            0b100,
        ),
        plain(
            "12 before 4: a byte is missing",
            &[0, 3, 1, 0, 0, 0, 0, 0, 0, 2, 0],
            &[0],
            0b1111,
        ),
        reveal("12 before 5", &[13, 13, 13], 0b010),
        plain(
            "12 before 9",
            &[0, 3, 1, 0, 0, 0, 0, 0, 0, 1, 0],
            &[15],
            0b1011,
        ),
    ]
}

/// The sheet has the shares of absent parties, and they are looked at.
fn absent_shares() -> Vec<Held> {
    vec![
        reveal("4: the absent party's share is missing", &[7, 9], 0b011),
        reveal("5: the absent party's share", &[7, 9, 13], 0b011),
        reveal("6: the absent party's share", &[8, 9, 11], 0b110),
    ]
}

#[cfg(test)]
mod tests {
    use super::*;
    use crate::field::FIELDS;
    use crate::present::{everyone, is_present};

    /// What the same sheet leaves with everyone present, but for the absent columns of what was opened.
    #[test]
    fn absent_parties_change_the_record_alone() {
        for held in [printed(), products(), steps(), stops()].concat() {
            let (n, p) = (held.header[1], FIELDS[usize::from(held.header[0])].modulus);
            let mut expected = held.clone().with_present(everyone(n)).left();
            let openings = expected.answer.openings;
            for opened in expected.record.chunks_mut(n.into()).take(openings) {
                for (party, share) in (1..).zip(opened) {
                    if !is_present(held.present, party) {
                        *share = p;
                    }
                }
            }
            let left = held.left();
            assert!(left.answer == expected.answer, "{}", held.says);
            assert_eq!(left.record, expected.record, "{}", held.says);
            assert_eq!(left.revealed, expected.revealed, "{}", held.says);
            assert!(openings > 0);
        }
    }

    /// 11 times 7 is 12 modulo 13, and 77 in field 1.
    #[test]
    fn products_are_revealed() {
        for held in products() {
            let product = [12, 77][usize::from(held.header[0])];
            assert_eq!(held.left().revealed[0], product, "{}", held.says);
        }
        let revealed: Vec<u32> = steps().iter().map(|held| held.left().revealed[0]).collect();
        assert_eq!(revealed, [1, 1, 1]);
    }

    #[test]
    fn every_threshold_and_every_size_is_there() {
        let runs = [printed(), products()].concat();
        for t in 1..=3 {
            let of_t = || runs.iter().filter(|held| held.header[2] == t);
            assert!(of_t().any(|held| held.present.count_ones() == u32::from(t) + 1));
            assert!(of_t().any(|held| !is_present(held.present, 1)));
        }
        for size in 2..=6 {
            assert!(runs.iter().any(|held| held.present.count_ones() == size));
        }
        for party in 1..=7 {
            let of_party = || runs.iter().filter(|held| party <= held.header[1].into());
            assert!(of_party().any(|held| is_present(held.present, party)));
            assert!(of_party().any(|held| !is_present(held.present, party)));
        }
    }
}
