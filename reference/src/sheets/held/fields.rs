//! Runs in the other fields and with other numbers of parties.

use super::Held;
use crate::cases::generator::Generator;
use crate::dealer::Dealer;
use crate::script::command::Command;
use crate::sheets::draft::Draft;

const SEED: u64 = 0x5EED_0007;

/// A deal drawn for the commands, with buffers that take all they write.
fn held(
    says: &'static str,
    (field, parties): (u32, (u32, u32)),
    commands: &[Command],
    secrets: &[u32],
    masks: &[u32],
) -> Held {
    let mut generator = Generator::at(SEED, u64::from(8 * field + parties.0));
    let mut dealer = Dealer::new(&mut generator, field, parties);
    let draft = Draft::deal(&mut dealer, commands, secrets, masks);
    Held::with_room(says, &draft)
}

/// Sum, difference, multiple and product of two inputs, and the product revealed.
pub fn linear() -> Vec<Held> {
    use Command::*;
    let run = |says, field, secrets: [u32; 2], v| {
        let commands = [
            Load { d: 0 },
            Load { d: 1 },
            Const { d: 2, v },
            Add { d: 3, a: 0, b: 1 },
            Sub { d: 4, a: 0, b: 1 },
            Scale { d: 5, a: 1, v },
            Mul { d: 6, a: 0, b: 1 },
            Reveal { a: 6 },
        ];
        held(says, field, &commands, &secrets, &[])
    };
    let last = 2_147_483_646;
    vec![
        run("field 0, n = 4, t = 1", (0, (4, 1)), [3, 9], 12),
        run("field 1, n = 5, t = 2", (1, (5, 2)), [250, 9], 250),
        run("field 2, n = 6, t = 2", (2, (6, 2)), [65_520, 700], 65_520),
        run("field 3, n = 7, t = 3", (3, (7, 3)), [5, last - 6], last),
        in_bytes(),
    ]
}

/// LOAD 0, END and one row, whose bytes stand behind the script as they are.
fn in_bytes() -> Held {
    let says = "field 3, a row in bytes: 4 3 2 1 is 16909060, the lowest byte first";
    let header = [3, 3, 1, 1, 0, 0, 0, 0, 0, 3, 0];
    let script = [&[1, 0, 0], [4, 3, 2, 1].repeat(3).as_slice()].concat();
    Held {
        record: 1,
        ..Held::plain(says, &header, &script, &[])
    }
}

/// Commands that take a mask in field 1.
pub fn masked() -> Vec<Held> {
    let run = |says, parties, command, secret, r| {
        let commands = [Command::Load { d: 0 }, command, Command::Reveal { a: 1 }];
        held(says, (1, parties), &commands, &[secret], &[r])
    };
    let (d, a, k) = (1, 0, 7);
    let remainder = Command::Mod { d, a, k, m: 2 };
    let floor = Command::Trunc { d, a, k, m: 1 };
    vec![
        run("field 1, MOD k=7 m=2, -41: 3", (3, 1), remainder, 210, 250),
        run(
            "field 1, n = 5, t = 2, TRUNC k=7 m=1, 63: 31",
            (5, 2),
            floor,
            63,
            77,
        ),
    ]
}
