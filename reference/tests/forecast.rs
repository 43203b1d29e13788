//! Forecasts against runs with everyone present and buffers that no run outgrows.

use reference::field::FIELDS;
use reference::forecast::drawn::head_for;
use reference::forecast::printed::lines;
use reference::forecast::{forecast, gate as gate_heads, head_of, stored as heads};
use reference::present::everyone_of;
use reference::run::{run, Answer};
use reference::run_case::Case;
use reference::script;
use reference::script::command::{Cost, NAMES, OPERANDS};
use reference::sheets::{examples, gate, sheet_for, stored};
use reference::table::{RECORD, REVEALED};

fn ran(sheet: &[u8]) -> Answer {
    let (mut record, mut revealed) = ([0; RECORD], [0; REVEALED]);
    run(sheet, everyone_of(sheet), &mut record, &mut revealed)
}

/// The stored sheets, the examples, the gate's sheets and drawn ones, each with its run.
fn runs() -> Vec<(Vec<u8>, Answer)> {
    let of_case = |case: Case| case.sheet;
    let stored = stored::all().into_iter().map(of_case);
    let examples = examples::NAMES.into_iter().filter_map(examples::named);
    let gate = gate::all().into_iter().map(|(_, sheet)| sheet);
    let drawn = (0..10_000).map(|index| of_case(sheet_for(23, index)));
    let sheets = stored.chain(examples).chain(gate).chain(drawn);
    sheets.map(|sheet| (sheet.clone(), ran(&sheet))).collect()
}

/// Input rows, masks, triples and script bytes of a header, by the paper: what is checked here does not rest
/// on the reference's reading.
fn counts(head: &[u8]) -> [usize; 4] {
    [3, 5, 7, 9].map(|place| usize::from(head[place]) + 256 * usize::from(head[place + 1]))
}

fn is_over_a_limit(head: &[u8]) -> bool {
    let limits = [64, 16, 512, 1024];
    counts(head)
        .iter()
        .zip(limits)
        .any(|(&count, limit)| count > limit)
}

/// "for every sheet of the right length that passes 5 to 8": rows decide nothing, nor does the length alone.
fn is_decided_by_its_head(sheet: &[u8], answer: &Answer) -> bool {
    match answer.number {
        5..=8 => false,
        4 => is_over_a_limit(sheet),
        _ => true,
    }
}

#[test]
fn a_head_is_forecast_as_its_sheet_runs() {
    let mut seen = [0; 25];
    for (sheet, answer) in runs() {
        if is_decided_by_its_head(&sheet, &answer) {
            let ended = (answer.number, answer.place);
            assert_eq!(forecast(head_of(&sheet)), ended, "{sheet:?}");
            seen[answer.number as usize] += 1;
        }
    }
    for number in (0..=4).chain(9..=11).chain(21..=24) {
        assert!(seen[number] >= 20, "{number}: {seen:?}");
    }
}

/// The rows of a sheet that 5 to 8 refuse are not looked at, and neither are bytes that are missing or too
/// many.
#[test]
fn a_refused_row_or_length_leaves_the_forecast_of_the_head() {
    let sheet = examples::named("three-calls").unwrap();
    let end = forecast(head_of(&sheet));
    assert_eq!(end, (0, 37));
    for number in 4..=8 {
        let other = gate::named(&format!("end-{number}")).unwrap();
        assert_eq!(ran(&other).number, number);
        assert_eq!(forecast(head_of(&other)), end);
    }
}

#[test]
fn no_other_number_is_forecast() {
    let drawn = (0..10_000).map(|index| head_for(24, index));
    for case in heads::all().into_iter().chain(drawn) {
        let (number, place) = forecast(&case.head);
        let known = [0, 1, 2, 3, 4, 9, 10, 11, 21, 22, 23, 24];
        assert!(known.contains(&number), "{number}");
        assert!(number == 0 || number > 4 || place == 0);
        assert!(place <= case.head.len().saturating_sub(11));
    }
}

/// What the finished commands of an accepted sheet cost together, and which they are: the field's number
/// and the command's byte.
fn cost_of(sheet: &[u8], answer: &Answer) -> (Cost, Vec<(u8, u8)>) {
    let field = &FIELDS[usize::from(sheet[0])];
    let lines = script::read(&head_of(sheet)[11..], field).unwrap();
    let finished = lines.iter().filter(|line| line.place < answer.place);
    let mut sum = Cost::default();
    let mut kinds = Vec::new();
    for line in finished {
        let cost = line.command.cost(field);
        sum.inputs += cost.inputs;
        sum.masks += cost.masks;
        sum.triples += cost.triples;
        sum.revealed += cost.revealed;
        kinds.push((sheet[0], line.command.to_bytes()[0]));
    }
    (sum, kinds)
}

#[test]
fn commands_cost_what_runs_take() {
    let mut seen = Vec::new();
    for (sheet, answer) in runs() {
        if (1..=11).contains(&answer.number) {
            continue;
        }
        let (cost, kinds) = cost_of(&sheet, &answer);
        let expected = (cost.inputs, cost.masks, cost.triples, cost.openings());
        let taken = (answer.inputs, answer.masks, answer.triples, answer.openings);
        assert_eq!(expected, taken, "{sheet:?}");
        assert_eq!(cost.revealed, answer.revealed);
        seen.extend(kinds);
    }
    seen.sort();
    seen.dedup();
    let commands = 1..OPERANDS.len() as u8;
    let all = (0..4).flat_map(|field| commands.clone().map(move |byte| (field, byte)));
    let missing: Vec<_> = all.filter(|kind| !seen.contains(kind)).collect();
    assert!(missing.is_empty(), "not run: {missing:?}");
}

/// A whole sheet is printed like its head, with the counts of its run.
#[test]
fn the_line_of_a_run_that_comes_to_end_has_its_counts() {
    let mut count = 0;
    for (sheet, answer) in runs() {
        if answer.number == 0 {
            let [inputs, masks, triples, _] = counts(&sheet);
            let expected = format!(
                "end 0 at {}\nBy header and script the run comes to END. It takes {} of {inputs} input rows, {} of {masks} \
                 masks and {} of {triples} triples.\n",
                answer.place, answer.inputs, answer.masks, answer.triples
            );
            assert_eq!(lines(&sheet), expected);
            assert_eq!(lines(head_of(&sheet)), expected);
            count += 1;
        }
    }
    assert!(count > 5_000, "{count}");
}

/// The numbers in a line.
fn numbers_in(line: &str) -> Vec<u32> {
    let words = line.split(|c: char| !c.is_ascii_digit());
    words.filter_map(|word| word.parse().ok()).collect()
}

/// The head with other input rows, masks and triples, each of which two bytes can say.
fn with_counts(head: &[u8], counts: &[u32]) -> Vec<u8> {
    let bytes = counts
        .iter()
        .flat_map(|&count| (count as u16).to_le_bytes());
    let start = head[..3].iter().copied().chain(bytes);
    start.chain(head[9..].iter().copied()).collect()
}

/// What the second line says that the run takes, or the last one that the whole script needs.
fn needed(head: &[u8]) -> Option<Vec<u32>> {
    let printed = lines(head);
    let line = printed.lines().last()?;
    if line.starts_with("The whole script needs ") {
        return Some(numbers_in(line));
    }
    let numbers =
        numbers_in(line.strip_prefix("By header and script the run comes to END. It takes ")?);
    Some(numbers.into_iter().step_by(2).collect())
}

/// Of everything that is needed one less is refused with its number, and before END. Where a header cannot
/// count so much, that is said.
#[test]
fn what_is_said_to_be_needed_suffices_and_one_less_does_not() {
    let mut refused = [0; 3];
    let mut over = 0;
    let drawn = (0..10_000).map(|index| head_for(25, index));
    let of_cases = heads::all().into_iter().chain(drawn).map(|case| case.head);
    let gate = gate_heads::all().into_iter().map(|(_, head)| head);
    for input in of_cases.chain(gate) {
        let head = head_of(&input).to_vec();
        let Some(needed) = needed(&head) else {
            continue;
        };
        let limits = [64, 16, 512];
        let is_over = needed.iter().zip(limits).any(|(&it, limit)| it > limit);
        let said = lines(&head).ends_with(", more than a header may count.\n");
        assert_eq!(said, is_over, "{head:?}");
        if is_over {
            over += 1;
            continue;
        }
        let (number, end) = forecast(&with_counts(&head, &needed));
        assert_eq!((number, end), (0, head.len() - 12), "{head:?}");
        for kind in 0..3 {
            let mut less = needed.clone();
            if let Some(one_less) = less[kind].checked_sub(1) {
                less[kind] = one_less;
                let (number, place) = forecast(&with_counts(&head, &less));
                assert_eq!(number, 22 + kind as u32, "{head:?}");
                assert!(place < end);
                refused[kind] += 1;
            }
        }
    }
    assert!(refused.iter().all(|&count| count > 2_000), "{refused:?}");
    assert!(over >= 4, "{over}");
}

/// Every number of 21 to 24 of every command that it can refuse is told with the command's name.
#[test]
fn stored_heads_refuse_every_command_with_every_number_that_it_can_have() {
    let mut seen = Vec::new();
    for case in heads::all() {
        let (number, place) = forecast(&case.head);
        if number > 20 {
            let name = NAMES[usize::from(case.head[11 + place])];
            let printed = lines(&case.head);
            let said = printed.lines().nth(1).unwrap();
            assert!(said.starts_with(&format!("{name} at {place} ")), "{said}");
            seen.push((number, name));
        }
    }
    let masked = ["MOD", "TRUNC", "LTZ", "OVER", "BLOCKS", "LTZS"];
    let reading = ["ADD", "SUB", "SCALE", "MUL", "REVEAL", "BITLT"];
    let unset = masked.iter().chain(&reading).map(|&name| (21, name));
    let few = masked.iter().flat_map(|&name| [(23, name), (24, name)]);
    let others = [(22, "LOAD"), (24, "MUL"), (24, "BITLT")];
    let all: Vec<_> = unset.chain(few).chain(others).collect();
    for kind in &all {
        assert!(seen.contains(kind), "{kind:?}");
    }
    assert!(seen.iter().all(|kind| all.contains(kind)));
}
