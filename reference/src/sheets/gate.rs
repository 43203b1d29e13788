//! The sheets that the gate gives to program `table`, beside the examples: one for each number that
//! it answers, one for each end that LTZS can have, those that open and reveal the most, and one for each
//! number of parties that no other has, since the program takes everyone as present.

use super::draft::Draft;
use super::examples;
use super::fault::{with_faults, Fault};
use crate::cases::generator::Generator;
use crate::dealer::Dealer;
use crate::script::command::{script_of, Command};

const SEED: u64 = 0x5EED_0006;

/// What the bits of the comparisons spell.
const SPELLED: u32 = 0x5555_5555;

/// Each sheet with its name.
pub fn all() -> Vec<(String, Vec<u8>)> {
    let ends = faults().into_iter().chain(stops());
    let ends = ends.map(|(number, fault)| (format!("end-{number}"), spoiled(number, fault)));
    let signs = signs().map(|(number, fault)| (format!("ltzs-{number}"), spoiled(number, fault)));
    let others = [
        ("bit-tests", bit_tests()),
        ("most-openings", most_openings()),
        ("most-reveals", most_reveals()),
        ("four-parties", product(41, (4, 1))),
        ("five-parties", product(42, (5, 2))),
        ("six-parties", product(43, (6, 2))),
    ];
    let others = others.map(|(name, draft)| (name.to_owned(), draft.to_bytes()));
    ends.chain(signs).chain(others).collect()
}

/// The bytes of the sheet with this name.
pub fn named(name: &str) -> Option<Vec<u8>> {
    let mut sheets = all().into_iter();
    sheets.find(|sheet| sheet.0 == name).map(|sheet| sheet.1)
}

/// The example of three calls with this fault.
fn spoiled(number: u32, fault: Fault) -> Vec<u8> {
    let mut generator = Generator::at(SEED, number.into());
    with_faults(&mut generator, examples::three_calls(), vec![fault])
}

/// The number that the input is refused with for each fault.
fn faults() -> [(u32, Fault); 11] {
    let (row, party) = (1, 2);
    [
        (1, Fault::Cut(10)),
        (2, Fault::Byte { place: 0, value: 4 }),
        (3, Fault::Byte { place: 1, value: 8 }),
        (4, Fault::Longer(1)),
        (
            5,
            Fault::Share {
                row,
                party,
                value: 65_521,
            },
        ),
        (
            6,
            Fault::Row {
                row,
                party,
                amount: 1,
            },
        ),
        (
            7,
            Fault::MaskBit {
                mask: 2,
                bit: 15,
                secret: 2,
            },
        ),
        (
            8,
            Fault::Triple {
                triple: 77,
                amount: 1,
            },
        ),
        (9, Fault::Script(vec![0x0F])),
        (10, Fault::Script(vec![])),
        (11, Fault::Script(vec![0x01, 64, 0x00])),
    ]
}

/// Scripts that three inputs, three masks and 78 triples do not suffice for, or that read register
/// 63, which is unset. A value is revealed before, so that lines stand before the last one.
fn stops() -> [(u32, Fault); 4] {
    let (d, a, k) = (1, 0, 15);
    [
        (21, after_reveal(&[Command::Reveal { a: 63 }])),
        (22, after_reveal(&[Command::Load { d }; 3])),
        (23, after_reveal(&[Command::Blocks { d, a, k, m: 6 }; 4])),
        (24, after_reveal(&[Command::Ltz { d, a, k }; 2])),
    ]
}

/// LTZS of registers 0 to h - 1, of which 0 to 3 are set, with three masks and 78 triples: three signs of 7
/// bits take all of them, and of 8 bits 84 triples.
fn signs() -> [(u32, Fault); 4] {
    let signs = |d, h, k| {
        let set = (1..4).map(|d| Command::Const { d, v: 65_520 });
        let signs = Command::Ltzs { d, a: 0, h, k };
        let last = Command::Reveal { a: d + 1 };
        after_reveal(&set.chain([signs, last]).collect::<Vec<_>>())
    };
    [
        (0, signs(61, 3, 7)),
        (21, signs(0, 5, 7)),
        (23, signs(0, 4, 2)),
        (24, signs(0, 3, 8)),
    ]
}

/// Another script, in which the first input is revealed before the commands.
fn after_reveal(commands: &[Command]) -> Fault {
    let first = [Command::Load { d: 0 }, Command::Reveal { a: 0 }];
    Fault::Script(script_of(&[&first, commands].concat()))
}

/// 17 comparisons of 31 bits, which take 510 triples, and as many REVEALs as the script holds. The
/// bits are compared with numbers below, equal to and over the one that they spell.
fn bit_tests() -> Draft {
    let (b, w) = (0, 31);
    let mut commands: Vec<Command> = (0..w).map(|d| Command::Load { d }).collect();
    commands.extend((31..48).map(|d| Command::Bitlt {
        d,
        b,
        w,
        v: SPELLED - 39 + u32::from(d),
    }));
    commands.extend((0..48).cycle().take(412).map(|a| Command::Reveal { a }));
    let bits: Vec<u32> = (0..w).map(|i| SPELLED >> i & 1).collect();
    seven_parties(31, &commands, &bits, 0)
}

/// 1,024 + 16 + 501 openings in a script of 1,024 bytes. No sheet opens more: all masks and triples are taken
/// by three LTZS, of which each sets registers for the next, so that three LOADs suffice. Each command and
/// each LOAD less is room for REVEALs, but fewer masks can be taken then.
fn most_openings() -> Draft {
    let a = 0;
    let mut commands: Vec<Command> = (0..3).map(|d| Command::Load { d }).collect();
    for (d, h, k) in [(3, 3, 2), (6, 5, 2), (11, 8, 3)] {
        commands.push(Command::Ltzs { d, a, h, k });
    }
    commands.extend((0..19).cycle().take(501).map(|a| Command::Reveal { a }));
    let secrets = [1_610_612_736, 1, 2_147_483_645];
    seven_parties(32, &commands, &secrets, 16)
}

/// 510 REVEALs: the first command has to set a register, and the last is END.
fn most_reveals() -> Draft {
    let mut commands = vec![Command::Load { d: 63 }];
    commands.extend([Command::Reveal { a: 63 }; 510]);
    seven_parties(33, &commands, &[2_147_483_646], 0)
}

/// 5 times 3, revealed, for these parties.
fn product(index: u64, parties: (u32, u32)) -> Draft {
    let commands = [
        Command::Load { d: 0 },
        Command::Load { d: 1 },
        Command::Mul { d: 2, a: 0, b: 1 },
        Command::Reveal { a: 2 },
    ];
    dealt(index, parties, &commands, &[5, 3], 0)
}

/// A sheet with the most parties, and all triples that the commands take.
fn seven_parties(index: u64, commands: &[Command], secrets: &[u32], masks: usize) -> Draft {
    dealt(index, (7, 3), commands, secrets, masks)
}

/// A sheet of the largest field with all triples that the commands take.
fn dealt(
    index: u64,
    parties: (u32, u32),
    commands: &[Command],
    secrets: &[u32],
    masks: usize,
) -> Draft {
    let mut generator = Generator::at(SEED, index);
    let mut dealer = Dealer::new(&mut generator, 3, parties);
    Draft::deal_drawn(&mut dealer, commands, secrets, masks)
}

#[cfg(test)]
mod tests {
    use super::*;
    use crate::run_case::{Case, Outcome};
    use crate::sheet::header::{LONGEST_SCRIPT, MOST_MASKS, MOST_TRIPLES};

    fn outcome(name: &str) -> Outcome {
        Case::with_room(named(name).expect(name)).outcome()
    }

    #[test]
    fn there_is_a_sheet_for_each_number_that_the_program_answers() {
        for number in (1..=11).chain(21..=24) {
            let answer = outcome(&format!("end-{number}")).answer;
            assert_eq!(answer.number, number);
            assert_eq!(answer.openings > 0, number > 20, "{number}");
        }
        assert_eq!(all().len(), 15 + 4 + 6);
        assert_eq!(named("end-25"), None);
    }

    #[test]
    fn there_is_a_sheet_for_each_number_of_ltzs() {
        for (number, counts) in [
            (0, [1, 3, 78, 161]),
            (21, [1, 0, 0, 1]),
            (23, [1, 0, 0, 1]),
            (24, [1, 0, 0, 1]),
        ] {
            let outcome = outcome(&format!("ltzs-{number}"));
            let answer = outcome.answer;
            assert_eq!(answer.number, number);
            let spent = [answer.inputs, answer.masks, answer.triples, answer.openings];
            assert_eq!(spent, counts, "{number}");
            assert_eq!(answer.place, if number == 0 { 29 } else { 22 });
        }
        // the first input, and whether -1 is below 0
        assert_eq!(outcome("ltzs-0").revealed[..2], [179, 1]);
    }

    #[test]
    fn large_sheets_end_well_with_these_openings() {
        for (name, triples, openings, revealed, script) in [
            ("bit-tests", 510, 1432, 412, 1023),
            ("most-openings", 512, 1541, 501, 1024),
            ("most-reveals", 0, 510, 510, 1023),
        ] {
            let outcome = outcome(name);
            let answer = outcome.answer;
            assert_eq!((answer.number, answer.place), (0, script - 1), "{name}");
            assert_eq!((answer.triples, answer.openings), (triples, openings));
            assert_eq!(answer.revealed, revealed);
            assert_eq!(outcome.record.len(), 7 * openings + 3);
        }
    }

    /// The examples have three parties.
    #[test]
    fn there_is_a_run_for_every_number_of_parties() {
        for (parties, name) in (4..).zip(["four", "five", "six"]) {
            let sheet = named(&format!("{name}-parties")).expect(name);
            assert_eq!(sheet[1], parties);
            let outcome = Case::with_room(sheet).outcome();
            assert_eq!((outcome.answer.number, outcome.revealed[0]), (0, 15));
        }
        assert_eq!(named("most-reveals").unwrap()[1], 7);
    }

    #[test]
    fn bit_tests_have_both_results() {
        let revealed = outcome("bit-tests").revealed;
        let (below, rest) = revealed[31..48].split_at(8);
        assert_eq!((below, rest), (&[1; 8][..], &[0; 9][..]));
    }

    /// What so many LOADs, LTZS, other commands with a mask and BITLTs open at most, with REVEALs in the rest of
    /// the script before END. An LTZS reads registers that are set, and sets at most as many more; it comes last
    /// here, when the others have set theirs. For an opening MUL takes as many bytes as REVEAL.
    fn most([loads, signs, others, bit_tests]: [usize; 4]) -> usize {
        let set = loads + others + bit_tests;
        let taken = set * ((1 << signs) - 1) + others;
        let masks = taken.min(MOST_MASKS);
        let triples = (87 * masks + 30 * bit_tests).min(MOST_TRIPLES);
        let bytes = 2 * loads + 5 * signs + 4 * others + 8 * bit_tests;
        let reveals = (LONGEST_SCRIPT - 1 - bytes) / 2;
        2 * triples + masks + reveals
    }

    #[test]
    fn no_sheet_opens_more() {
        let mut largest = 0;
        for (loads, signs) in (1..=16).flat_map(|loads| (0..=16).map(move |signs| (loads, signs))) {
            for (others, tests) in (0..=16).flat_map(|others| (0..=18).map(move |it| (others, it)))
            {
                largest = largest.max(most([loads, signs, others, tests]));
            }
        }
        assert_eq!(largest, outcome("most-openings").answer.openings);
    }
}
