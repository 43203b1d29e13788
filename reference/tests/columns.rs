//! What turning a sheet into its column form and back leaves, of the stored inputs and of drawn ones.

use reference::columns::case::{filling, Case};
use reference::columns::drawn::turn_for;
use reference::columns::{held, stored, to_columns, to_sheet, Way};

/// The stored cases and some drawn ones.
fn cases() -> Vec<Case> {
    let drawn = (0..5_000).map(|index| turn_for(21, index));
    stored::all().into_iter().chain(drawn).collect()
}

/// Those that are not refused, with the output up to the input's length.
fn turned() -> Vec<(Case, Vec<u8>)> {
    let turned = |case: Case| {
        let outcome = case.outcome();
        let written = || outcome.output[..case.input.len()].to_vec();
        (outcome.number == 0).then(|| (case.clone(), written()))
    };
    let all: Vec<_> = cases().into_iter().filter_map(turned).collect();
    assert!(all.len() > 2_000, "{}", all.len());
    all
}

/// The rows of a mask in each field, by the paper: what is checked here does not rest on the
/// reference's table of fields.
const BITS: [usize; 4] = [4, 8, 16, 31];

/// The parties, where the shares begin, and how many rows there are, by the paper.
fn layout(input: &[u8]) -> (usize, usize, usize) {
    let count = |place: usize| usize::from(input[place]) + 256 * usize::from(input[place + 1]);
    let rows = count(3) + BITS[usize::from(input[0])] * count(5) + 3 * count(7);
    (usize::from(input[1]), 11 + count(9), rows)
}

#[test]
fn over_and_back_is_the_same_either_way_round() {
    for (case, written) in turned() {
        let mut back = vec![0; written.len()];
        let number = match case.way {
            Way::ToColumns => to_sheet(&written, &mut back),
            Way::ToSheet => to_columns(&written, &mut back),
        };
        assert_eq!((number, back), (0, case.input));
    }
}

/// From 11 + script length + (j - 1) times the part's length on.
#[test]
fn a_party_s_part_is_its_share_of_every_row() {
    for (case, written) in turned() {
        let (sheet, columns) = match case.way {
            Way::ToColumns => (case.input, written),
            Way::ToSheet => (written, case.input),
        };
        let (parties, front, rows) = layout(&sheet);
        assert_eq!(sheet.len(), front + 4 * rows * parties);
        assert_eq!(sheet[..front], columns[..front]);
        for party in 1..=parties {
            let part = &columns[front + (party - 1) * 4 * rows..][..4 * rows];
            for row in 0..rows {
                let share = &sheet[front + 4 * (row * parties + party - 1)..][..4];
                assert_eq!(part[4 * row..][..4], *share, "party {party} row {row}");
            }
        }
    }
}

#[test]
fn the_tail_is_kept_and_a_refusal_writes_nothing() {
    for case in cases() {
        for filling in [filling, |place| !filling(place)] {
            let outcome = case.outcome_on(filling);
            let is_turned = outcome.number == 0;
            let written = if is_turned { case.input.len() } else { 0 };
            let before = (written..case.lent).map(filling);
            assert_eq!(outcome.output.len(), case.lent);
            assert!(
                outcome.output[written..].iter().copied().eq(before),
                "{}",
                outcome.number
            );
        }
    }
}

/// An output before, and what is left of it after so many places were written.
struct Ended {
    way: Way,
    before: Vec<u16>,
    written: usize,
    tail: Vec<u16>,
}

impl Ended {
    fn new(case: &Case, number: u32, before: Vec<u16>, after: &[u16]) -> Ended {
        let written = if number == 0 { case.input.len() } else { 0 };
        let tail = after[written..].to_vec();
        let way = case.way;
        Ended {
            way,
            before,
            written,
            tail,
        }
    }
}

/// A tail that is wrong, and what it would be.
type WrongTail = (&'static str, fn(&Ended) -> Vec<u16>);

const WRONG: [WrongTail; 4] = [
    ("from the output's start", |it| {
        it.before[..it.tail.len()].to_vec()
    }),
    ("reversed", |it| {
        it.before[it.written..].iter().rev().copied().collect()
    }),
    ("from one place before", |it| {
        it.before[it.written - 1..][..it.tail.len()].to_vec()
    }),
    ("cleared", |it| vec![0; it.tail.len()]),
];

/// Whether the cases show every wrong tail, either way, and a refused output that is reversed or cleared.
fn show_wrong_tails(ended: &[Ended]) {
    for way in Way::BOTH {
        for (name, wrong) in WRONG {
            let turned = |it: &&Ended| it.way == way && it.written > 0;
            let is_shown = |it: &Ended| wrong(it) != it.tail;
            let shown = ended.iter().filter(turned).any(is_shown);
            assert!(shown, "{way:?}: the tail {name}");
        }
        for (name, wrong) in [WRONG[1], WRONG[3]] {
            let refused = |it: &&Ended| it.way == way && it.written == 0;
            let is_shown = |it: &Ended| wrong(it) != it.tail;
            let shown = ended.iter().filter(refused).any(is_shown);
            assert!(shown, "{way:?}: a refused output {name}");
        }
    }
}

#[test]
fn stored_cases_show_a_tail_from_another_place() {
    let ended = |case: Case| {
        let before = (0..case.lent).map(|place| filling(place).into());
        let outcome = case.outcome();
        let after: Vec<u16> = outcome.output.into_iter().map(u16::from).collect();
        Ended::new(&case, outcome.number, before.collect(), &after)
    };
    let all: Vec<_> = stored::all().into_iter().map(ended).collect();
    show_wrong_tails(&all);
}

#[test]
fn the_model_s_table_shows_a_tail_from_another_place() {
    let ended = |held: held::Held| {
        let before = (held::BEFORE..).take(held.case.lent);
        let left = held.left();
        Ended::new(&held.case, left.number, before.collect(), &left.output)
    };
    let all: Vec<_> = held::all().into_iter().map(ended).collect();
    show_wrong_tails(&all);
}

/// The shares in order of their bytes, each as often as it stands there.
fn sorted(shares: &[u8]) -> Vec<&[u8]> {
    let mut sorted: Vec<_> = shares.chunks_exact(4).collect();
    sorted.sort();
    sorted
}

/// The same input turned either way: number, header and script are the same, and the shares are the
/// input's.
#[test]
fn both_ways_leave_header_and_script_and_the_same_shares() {
    for case in cases() {
        let [there, back] = Way::BOTH.map(|way| {
            let case = Case {
                way,
                ..case.clone()
            };
            case.outcome()
        });
        assert_eq!(there.number, back.number);
        if there.number == 0 {
            let (_, front, _) = layout(&case.input);
            for outcome in [there, back] {
                let written = &outcome.output[..case.input.len()];
                assert_eq!(written[..front], case.input[..front]);
                assert_eq!(sorted(&written[front..]), sorted(&case.input[front..]));
            }
        }
    }
}
