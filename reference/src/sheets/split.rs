//! Sheets in which LTZ commands stand for each LTZS.

use crate::field::FIELDS;
use crate::forecast::head_of;
use crate::script;
use crate::script::command::{script_of, Command};
use crate::sheet::header::{self, LONGEST_SCRIPT};

/// The same sheet with another script: for each LTZS its LTZ commands in rising order. None for a script that is
/// refused, and where the other one is longer than a script may be.
pub fn split(sheet: &[u8]) -> Option<Vec<u8>> {
    let head = head_of(sheet);
    let (field, rows) = (
        FIELDS.get(usize::from(*sheet.first()?))?,
        &sheet[head.len()..],
    );
    let lines = script::read(head.get(header::BYTES..)?, field).ok()?;
    let ended = lines.len() - 1;
    let commands: Vec<Command> = lines[..ended]
        .iter()
        .flat_map(|line| parts(line.command))
        .collect();
    let script = script_of(&commands);
    let length = (script.len() as u16).to_le_bytes();
    let bytes = [&sheet[..header::BYTES - 2], &length, &script, rows].concat();
    (script.len() <= LONGEST_SCRIPT).then_some(bytes)
}

/// What the command stands for: mostly itself.
fn parts(command: Command) -> Vec<Command> {
    match command {
        Command::Ltzs { d, a, h, k } => {
            let ltz = |i| Command::Ltz {
                d: d + i,
                a: a + i,
                k,
            };
            (0..h).map(ltz).collect()
        }
        _ => vec![command],
    }
}

#[cfg(test)]
mod tests {
    use super::*;
    use crate::cases::generator::Generator;
    use crate::cases::PERMITTED;
    use crate::dealer::Dealer;
    use crate::present::{everyone, permitted};
    use crate::run_case::Case;
    use crate::sheet::header::MOST_TRIPLES;
    use crate::sheets::draft::Draft;

    /// LOADs of h drawn values, LTZS of them, and REVEALs of what it leaves.
    fn signs(
        generator: &mut Generator,
        number: u32,
        parties: (u32, u32),
        signs: Command,
    ) -> Vec<u8> {
        let loads = signs.reads().into_iter().map(|d| Command::Load { d });
        let reveals = signs.writes().map(|a| Command::Reveal { a });
        let commands: Vec<Command> = loads.chain([signs]).chain(reveals).collect();
        let mut dealer = Dealer::new(generator, number, parties);
        let h = signs.reads().len();
        let secrets: Vec<u32> = (0..h).map(|_| dealer.random_value()).collect();
        Draft::deal_drawn(&mut dealer, &commands, &secrets, h).to_bytes()
    }

    /// The smallest k, and the largest with which a deal suffices for h signs.
    fn widths(number: u32, h: u8) -> [u8; 2] {
        let field = &FIELDS[number as usize];
        let fits = |&k: &u8| {
            let signs = Command::Ltzs { d: 0, a: 0, h, k };
            signs.cost(field).triples <= MOST_TRIPLES
        };
        let largest = (2..=field.largest_k as u8).filter(fits).last();
        [2, largest.expect("2 always fits")]
    }

    /// The same registers, those just before and just after, and the last ones.
    fn targets(a: u8, h: u8) -> [u8; 4] {
        [a, a - h, a + h, 64 - h]
    }

    fn is_same(signs: Case) -> bool {
        let sheet = split(&signs.sheet).expect("the script is not long");
        let ltz = Case {
            sheet,
            ..signs.clone()
        };
        let (one, mut other) = (signs.outcome(), ltz.outcome());
        assert_eq!(one.answer.number, 0);
        other.answer.place = one.answer.place;
        let answer = one.answer == other.answer;
        answer && one.record == other.record && one.revealed == other.revealed
    }

    #[test]
    fn signs_leave_what_the_ltz_commands_leave() {
        let mut generator = Generator::new(7);
        for (number, h) in (0..4).flat_map(|number| (1..=16).map(move |h| (number, h))) {
            let (n, t) = PERMITTED[usize::from(h) % PERMITTED.len()];
            let present = permitted(n as usize, t as usize);
            for (k, d) in widths(number, h)
                .into_iter()
                .flat_map(|k| targets(20, h).map(|d| (k, d)))
            {
                let command = Command::Ltzs { d, a: 20, h, k };
                let sheet = signs(&mut generator, number, (n, t), command);
                for set in [everyone(n as u8), generator.pick(&present)] {
                    let case = Case::with_room(sheet.clone()).with_present(set);
                    assert!(
                        is_same(case),
                        "{command:?} in field {number}, {set} present"
                    );
                }
            }
        }
    }

    #[test]
    fn ltz_commands_stand_in_rising_order() {
        let script = [1, 5, 14, 3, 5, 2, 4, 12, 3, 0];
        let sheet = [&[1, 3, 1, 1, 0, 0, 0, 0, 0, 10, 0][..], &script, &[9, 8]].concat();
        let expected = [1, 5, 9, 3, 5, 4, 9, 4, 6, 4, 12, 3, 0];
        let expected = [&[1, 3, 1, 1, 0, 0, 0, 0, 0, 13, 0][..], &expected, &[9, 8]].concat();
        assert_eq!(split(&sheet), Some(expected));
        assert_eq!(split(&sheet[..20]), None);
        assert_eq!(split(&[]), None);
    }

    #[test]
    fn a_script_that_would_be_too_long_is_not_split() {
        let (d, a, h, k) = (0, 0, 16, 2);
        let sheet = |count| {
            let commands = vec![Command::Ltzs { d, a, h, k }; count];
            let script = script_of(&commands);
            let [low, high] = (script.len() as u16).to_le_bytes();
            [&[0, 3, 1, 0, 0, 0, 0, 0, 0, low, high][..], &script].concat()
        };
        let length = |count| split(&sheet(count)).map(|sheet| sheet.len());
        assert_eq!((length(15), length(16)), (Some(11 + 15 * 64 + 1), None));
    }
}
