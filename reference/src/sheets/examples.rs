//! The sheets of examples/sheets. Three parties, threshold 1; each has a deal of its own.

use super::bench;
use super::draft::Draft;
use crate::cases::generator::Generator;
use crate::dealer::Dealer;
use crate::script::command::Command;

const SEED: u64 = 0x5EED_0005;

pub const NAMES: [&str; 8] = [
    "mul",
    "rounding",
    "test-call-170",
    "test-call-171",
    "three-calls",
    "refused",
    "no-mask-left",
    "lift-bank",
];

/// The seconds that three-calls shares.
pub const CALLS: [u32; 3] = [179, 128, 0];

/// The seconds that lift-bank shares: calls of a bank of twelve lifts' telephones. The limit less the last is
/// the lowest number of 15 bits.
const BANK: [u32; 12] = [0, 1, 64, 128, 169, 170, 171, 172, 179, 600, 3_600, 16_554];

/// The limit of a test call in seconds.
const LIMIT: u32 = 170;

/// The bytes of the sheet with this name.
pub fn named(name: &str) -> Option<Vec<u8>> {
    match name {
        "mul" => Some(bench::small()),
        "rounding" => Some(rounding().to_bytes()),
        "test-call-170" => Some(test_call(170).to_bytes()),
        "test-call-171" => Some(test_call(171).to_bytes()),
        "three-calls" => Some(three_calls().to_bytes()),
        "refused" => Some(refused().to_bytes()),
        "no-mask-left" => Some(no_mask_left().to_bytes()),
        "lift-bank" => Some(lift_bank().to_bytes()),
        _ => None,
    }
}

/// -3 by 2 in field 0, with the masks of the paper's figures.
fn rounding() -> Draft {
    let (a, k, m) = (0, 3, 1);
    let commands = [
        Command::Load { d: a },
        Command::Trunc { d: 1, a, k, m },
        Command::Mod { d: 2, a, k, m },
        Command::Reveal { a: 1 },
        Command::Reveal { a: 2 },
    ];
    let mut generator = Generator::at(SEED, 0);
    let mut dealer = Dealer::new(&mut generator, 0, (3, 1));
    Draft::deal(&mut dealer, &commands, &[10], &[5, 12])
}

/// Whether a test call ran over its limit.
fn test_call(seconds: u32) -> Draft {
    let (d, a, k, v) = (1, 0, 15, LIMIT);
    let commands = [
        Command::Load { d: a },
        Command::Over { d, a, k, v },
        Command::Reveal { a: d },
    ];
    dealt(seconds.into(), &commands, &[seconds], 1)
}

/// The begun blocks of three calls and their total.
pub(super) fn three_calls() -> Draft {
    let mut commands: Vec<Command> = (0..3).map(|d| Command::Load { d }).collect();
    commands.extend((0..3).map(|a| blocks(a + 3, a)));
    commands.push(Command::Add { d: 6, a: 3, b: 4 });
    commands.push(Command::Add { d: 6, a: 6, b: 5 });
    commands.extend((3..7).map(|a| Command::Reveal { a }));
    dealt(5, &commands, &CALLS, 3)
}

/// The same sheet with the last two digits of a share exchanged, party 2's of the second call.
fn refused() -> Draft {
    let mut draft = three_calls();
    let share = &mut draft.inputs[1][1];
    *share = *share / 100 * 100 + *share % 10 * 10 + *share / 10 % 10;
    draft
}

/// The begun blocks of three calls, one call after the other, with a mask for two of them.
fn no_mask_left() -> Draft {
    let call = |d| [Command::Load { d }, blocks(d, d), Command::Reveal { a: d }];
    let commands: Vec<Command> = (0..3).flat_map(call).collect();
    dealt(4, &commands, &CALLS, 2)
}

/// Which of twelve calls ran over the limit: the limit less each call, and one LTZS of them all.
fn lift_bank() -> Draft {
    let (limit, d, a, h, k) = (12, 32, 16, 12, 15);
    let mut commands: Vec<Command> = (0..h).map(|d| Command::Load { d }).collect();
    commands.push(Command::Const { d: limit, v: LIMIT });
    commands.extend((0..h).map(|call| Command::Sub {
        d: a + call,
        a: limit,
        b: call,
    }));
    commands.push(Command::Ltzs { d, a, h, k });
    commands.extend((d..d + h).map(|a| Command::Reveal { a }));
    dealt(6, &commands, &BANK, BANK.len())
}

/// Blocks of 64 seconds.
fn blocks(d: u8, a: u8) -> Command {
    let (k, m) = (15, 6);
    Command::Blocks { d, a, k, m }
}

/// A sheet in field 2 with so many masks and all triples that the commands take.
fn dealt(index: u64, commands: &[Command], secrets: &[u32], masks: usize) -> Draft {
    let mut generator = Generator::at(SEED, index);
    let mut dealer = Dealer::new(&mut generator, 2, (3, 1));
    Draft::deal_drawn(&mut dealer, commands, secrets, masks)
}

#[cfg(test)]
mod tests {
    use super::*;
    use crate::run_case::Case;

    /// The number, the place, inputs, masks, triples, openings, and the values revealed.
    type End = (u32, usize, [usize; 4], &'static [u32]);

    const ENDS: [End; 8] = [
        (0, 10, [2, 0, 1, 3], &[2]),
        (0, 16, [1, 2, 8, 20], &[11, 1]),
        (0, 12, [1, 1, 42, 86], &[0]),
        (0, 12, [1, 1, 42, 86], &[1]),
        (0, 37, [3, 3, 78, 163], &[3, 2, 0, 5]),
        (6, 0, [0; 4], &[]),
        (23, 20, [3, 2, 52, 108], &[3, 2]),
        (
            0,
            107,
            [12, 12, 504, 1032],
            &[0, 0, 0, 0, 0, 0, 1, 1, 1, 1, 1, 1],
        ),
    ];

    #[test]
    fn every_name_ends_as_it_should() {
        for (name, (number, place, counts, revealed)) in NAMES.into_iter().zip(ENDS) {
            let sheet = named(name).expect(name);
            let outcome = Case::with_room(sheet).outcome();
            let answer = outcome.answer;
            assert_eq!((answer.number, answer.place), (number, place), "{name}");
            let spent = [answer.inputs, answer.masks, answer.triples, answer.openings];
            assert_eq!(spent, counts, "{name}");
            assert_eq!(&outcome.revealed[..answer.revealed], revealed, "{name}");
        }
        assert_eq!(named("nothing"), None);
    }

    /// No mask and no triple of a sheet that is run is in another one.
    #[test]
    fn no_two_runs_share_a_deal() {
        let drafts = [
            test_call(170),
            test_call(171),
            three_calls(),
            no_mask_left(),
            lift_bank(),
        ];
        for (i, first) in drafts.iter().enumerate() {
            for second in &drafts[i + 1..] {
                assert!(first.masks.iter().all(|x| !second.masks.contains(x)));
                assert!(first.triples.iter().all(|x| !second.triples.contains(x)));
            }
        }
    }

    /// What the run does not spend is not in the header, and the script has these bytes.
    #[test]
    fn the_bank_has_what_its_script_takes() {
        let bank = lift_bank();
        let counts = [bank.inputs.len(), bank.masks.len(), bank.triples.len()];
        assert_eq!(counts, [12, 12, 504]);
        assert_eq!(bank.script.len(), 12 * 2 + 6 + 12 * 4 + 5 + 12 * 2 + 1);
        assert_eq!(bank.script[24..34], [2, 12, 170, 0, 0, 0, 4, 16, 12, 0]);
        assert_eq!(
            bank.script[74..85],
            [4, 27, 12, 11, 14, 32, 16, 12, 15, 12, 32]
        );
    }

    #[test]
    fn the_mistyped_share_is_the_only_difference() {
        let (right, wrong) = (three_calls().to_bytes(), refused().to_bytes());
        let places: Vec<usize> = (0..right.len()).filter(|&i| right[i] != wrong[i]).collect();
        let row = 11 + 38 + 12;
        assert!(!places.is_empty());
        assert!(places
            .iter()
            .all(|place| (row + 4..row + 8).contains(place)));
    }
}
