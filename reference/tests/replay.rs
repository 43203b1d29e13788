//! Replays against the columns of the runs that they replay, and against the request.

use reference::cases::generator::Generator;
use reference::cases::PERMITTED;
use reference::present::{everyone_of, permitted};
use reference::replay::case::Case;
use reference::replay::drawn::{recorded, replay_for};
use reference::replay::recorded::Recorded;
use reference::replay::{held, replay, stored as replays, Answer, Counts};
use reference::run_case;
use reference::sheets::{examples, gate, sheet_for, stored};

/// The stored sheets, the examples, the gate's sheets and drawn ones.
fn sheets() -> Vec<Vec<u8>> {
    let of_case = |case: run_case::Case| case.sheet;
    let stored = stored::all().into_iter().map(of_case);
    let examples = examples::NAMES.into_iter().filter_map(examples::named);
    let gate = gate::all().into_iter().map(|(_, sheet)| sheet);
    let drawn = (0..5_000).map(|index| of_case(sheet_for(31, index)));
    stored.chain(examples).chain(gate).chain(drawn).collect()
}

/// Every party has its column and the same counts, number and place. It is owed for runs that come to END; a run
/// that 21 to 24 stop has recorded all that its finished commands opened, so it is replayed up to there.
fn is_replayed(recorded: &Recorded) {
    for party in 1..=recorded.parts.len() {
        let case = recorded.case(party);
        assert_eq!(case.answer(), recorded.column(party), "{case:?}");
    }
}

#[test]
fn every_party_replays_its_column_of_every_run() {
    let mut ended = 0;
    let mut stopped = [0; 25];
    let mut generator = Generator::new(31);
    for sheet in sheets() {
        let everyone = Recorded::of(&sheet, everyone_of(&sheet));
        let with_set = recorded(&mut generator, &sheet);
        for recorded in everyone.iter().chain(&with_set) {
            is_replayed(recorded);
            match recorded.answer.number {
                0 => ended += 1,
                number => stopped[number as usize] += 1,
            }
        }
    }
    assert!(ended > 5_000, "{ended}");
    assert!(stopped[21..].iter().all(|&count| count > 20), "{stopped:?}");
}

#[test]
fn every_party_replays_its_column_for_every_permitted_set() {
    let mut counts = [0; PERMITTED.len()];
    let is_small = |sheet: &Vec<u8>| sheet.len() < 700;
    for sheet in sheets().into_iter().filter(is_small) {
        let &[_, n, t, ..] = &sheet[..] else {
            continue;
        };
        let parties = (u32::from(n), u32::from(t));
        let Some(place) = PERMITTED.iter().position(|&it| it == parties) else {
            continue;
        };
        if counts[place] > 40 {
            continue;
        }
        for set in permitted(n.into(), t.into()) {
            if let Some(recorded) = Recorded::of(&sheet, set) {
                is_replayed(&recorded);
                counts[place] += usize::from(set == everyone_of(&sheet));
            }
        }
    }
    assert!(counts.iter().all(|&count| count > 40), "{counts:?}");
}

/// Lengths of record and revealed list, one of which this run outgrows if it opens, or reveals, anything.
fn short_buffers(recorded: &Recorded) -> [(usize, usize); 5] {
    let (record, revealed) = (recorded.record.len(), recorded.answer.revealed);
    [
        (0, revealed),
        (record / 2, revealed),
        (record.saturating_sub(1), revealed),
        (record, 0),
        (record, revealed.saturating_sub(1)),
    ]
}

/// A run that 25 or 26 stopped wrote nothing of that command: its replay from what was written is 43 there.
#[test]
fn a_run_that_outgrew_its_buffers_is_replayed_up_to_there() {
    let mut stopped = [0; 27];
    for sheet in sheets() {
        let everyone = everyone_of(&sheet);
        let Some(whole) = Recorded::of(&sheet, everyone) else {
            continue;
        };
        for lengths in short_buffers(&whole) {
            let recorded = Recorded::with_buffers(&sheet, everyone, lengths).unwrap();
            if recorded.answer.number < 25 {
                continue;
            }
            for party in 1..=recorded.parts.len() {
                let column = recorded.column(party);
                let short = Answer {
                    number: 43,
                    ..column
                };
                assert_eq!(recorded.case(party).answer(), short);
            }
            stopped[recorded.answer.number as usize] += 1;
        }
    }
    assert!(
        stopped[25..].iter().all(|&count| count > 100),
        "{stopped:?}"
    );
}

/// Stored replays, those of the model's table too, and drawn ones.
fn cases() -> Vec<Case> {
    let drawn = (0..10_000).map(|index| replay_for(32, index));
    replays::all().into_iter().chain(drawn).collect()
}

#[test]
fn no_other_number_is_answered_and_a_refused_input_leaves_nothing() {
    let known = [0, 1, 2, 3, 4, 5, 9, 10, 11, 21, 22, 23, 24, 41, 42, 43];
    for case in cases() {
        let answer = case.answer();
        assert!(known.contains(&answer.number), "{}", answer.number);
        assert!(answer.place <= case.head.len().saturating_sub(11));
        if (1..=5).contains(&answer.number) {
            assert_eq!(answer.place, 0);
        }
        if (1..=11).contains(&answer.number) {
            assert_eq!(answer.cells, [0; 64]);
            assert_eq!(answer.counts, Counts::default());
        }
    }
}

/// The head with the script cut before this place, and END there.
fn ended_at(head: &[u8], place: usize) -> Vec<u8> {
    let script = [&head[11..11 + place], &[0]].concat();
    let length = (script.len() as u16).to_le_bytes();
    [&head[..9], &length, &script].concat()
}

/// "A refusal during the run ... leaves column and counts after the last finished command": those of the script
/// that ends there.
#[test]
fn a_refused_replay_leaves_what_the_commands_before_leave() {
    let mut seen = [0; 44];
    for case in cases() {
        let answer = case.answer();
        if answer.number < 21 {
            continue;
        }
        let head = ended_at(&case.head, answer.place);
        let before = replay(case.party, &head, &case.part, &case.record);
        assert_eq!((before.number, before.place), (0, answer.place));
        assert_eq!((before.cells, before.counts), (answer.cells, answer.counts));
        seen[answer.number as usize] += 1;
    }
    let often = |number: usize| seen[number] > 100;
    assert!((21..=24).chain(41..=43).all(often), "{seen:?}");
}

/// What stands after the numbers that were read decides nothing, and all that were read are needed.
#[test]
fn a_replay_reads_the_numbers_of_its_openings_and_no_more() {
    let mut finished = 0;
    for case in cases() {
        let answer = case.answer();
        if answer.number != 0 || answer.counts.openings == 0 {
            continue;
        }
        let read = answer.counts.openings * case.parties();
        assert_eq!(case.clone().cut(read).answer(), answer);
        let longer = case.clone().cut(read).followed_by(&[u32::MAX; 3]);
        assert_eq!(longer.answer(), answer);
        assert_eq!(case.cut(read - 1).answer().number, 43);
        finished += 1;
    }
    assert!(finished > 2_000, "{finished}");
}

/// CONST 0 v, REVEAL 0 and END: the own share of what is opened is v.
fn revealing(field: u8, (n, t): (u8, u8), v: u8) -> Vec<u8> {
    let script = [2, 0, v, 0, 0, 0, 12, 0, 0];
    let header = [field, n, t, 0, 0, 0, 0, 0, 0, 9, 0];
    [&header[..], &script].concat()
}

/// Whether one polynomial of degree at most t takes all these values, of all that there are in field 0.
fn is_on_a_polynomial(points: &[(u32, u32)], t: u32) -> bool {
    let count = 13u32.pow(t + 1);
    (0..count).any(|polynomial| {
        points.iter().all(|&(x, y)| {
            let mut rest = polynomial;
            let mut value = 0;
            for _ in 0..=t {
                value = (value * x + rest % 13) % 13;
                rest /= 13;
            }
            value == y
        })
    })
}

/// The number by the request's words.
fn expected(row: &[u32], t: u32, party: usize, own: u32) -> u32 {
    let present: Vec<(u32, u32)> = (1..)
        .zip(row)
        .filter(|(_, &number)| number != 13)
        .map(|(x, &y)| (x, y))
        .collect();
    let is_above = row.iter().any(|&number| number > 13);
    if is_above || present.len() <= t as usize || !is_on_a_polynomial(&present, t) {
        return 42;
    }
    let recorded = row[party - 1];
    match recorded != 13 && recorded != own {
        true => 41,
        false => 0,
    }
}

/// Every row of three numbers up to 14 in field 0.
#[test]
fn every_row_of_three_is_opened_as_the_request_says() {
    let head = revealing(0, (3, 1), 6);
    for number in 0..15u32.pow(3) {
        let row = [number / 225, number / 15 % 15, number % 15];
        for party in 1..=3 {
            let answer = replay(party, &head, &[], &row);
            let number = expected(&row, 1, party as usize, 6);
            assert_eq!(answer.number, number, "{row:?} {party}");
        }
    }
}

/// Drawn rows of more parties: sharings with shares absent and changed.
#[test]
fn rows_of_more_parties_are_opened_as_the_request_says() {
    let mut generator = Generator::new(33);
    let mut seen = [0; 44];
    for (n, t) in [(4, 1), (5, 2), (6, 2), (7, 2)] {
        let head = revealing(0, (n as u8, t as u8), 6);
        for _ in 0..1_500 {
            let [c0, c1, c2] = [(); 3].map(|()| generator.below(13));
            let c2 = if t == 2 { c2 } else { 0 };
            let share = |x: u32| (c0 + c1 * x + c2 * x * x) % 13;
            let mut row: Vec<u32> = (1..=n).map(share).collect();
            let absent = generator.below(n);
            for _ in 0..absent {
                row[generator.below(n) as usize] = 13;
            }
            if generator.below(2) == 0 {
                row[generator.below(n) as usize] = generator.below(15);
            }
            let party = 1 + generator.below(n);
            if generator.below(4) > 0 && row[party as usize - 1] < 13 {
                // through the own share, 6
                let moved = 6 + 13 - row[party as usize - 1];
                let present = row.iter_mut().filter(|number| **number < 13);
                present.for_each(|number| *number = (*number + moved) % 13);
            }
            let number = expected(&row, t, party as usize, 6);
            let answer = replay(party, &head, &[], &row);
            assert_eq!(answer.number, number, "{row:?} {party}");
            seen[number as usize] += 1;
        }
    }
    assert!([0, 41, 42].iter().all(|&it| seen[it] > 500), "{seen:?}");
}

/// The paper's figure "MOD m=1, -3, r = 12: C 0, f 1, u 0, result 1". Every share is its secret and the triples
/// are 0, so an opening is what MUL works on. Each opening is what the steps say, by hand.
#[test]
fn mod_opens_in_the_order_of_the_steps() {
    // LOAD 0, MOD 1 0 k=3 m=1, END, with an input, a mask and four triples
    let head = [
        0, 3, 1, 1, 0, 1, 0, 4, 0, 8, 0, //
        1, 0, 7, 1, 0, 3, 1, 0,
    ];
    let mut shares = vec![10, 0, 0, 1, 1];
    shares.extend([0; 12]);
    let part: Vec<u8> = shares
        .iter()
        .flat_map(|share: &u32| share.to_le_bytes())
        .collect();
    // C; bits 1 to 3 of r with what is below so far; f with u1 - u0
    let opened = [0, 0, 0, 1, 0, 1, 1, 1, 0];
    let record: Vec<u32> = opened.iter().flat_map(|&value| [value; 3]).collect();
    for party in 1..=3 {
        let answer = replay(party, &head, &part, &record);
        assert_eq!((answer.number, answer.place, answer.cells[1]), (0, 7, 1));
        for opening in 0..9 {
            let mut record = record.clone();
            for share in &mut record[3 * opening..][..3] {
                *share = (*share + 1) % 13;
            }
            let answer = replay(party, &head, &part, &record);
            assert_eq!((answer.number, answer.place), (41, 2), "{opening}");
            assert_eq!(answer.cells[..2], [10, 0]);
        }
    }
}

/// END stands in the script's last byte.
#[test]
fn rows_of_the_model_that_name_no_number_come_to_end() {
    for held in held::all() {
        let answer = held.case.answer();
        if answer.number == 0 {
            let end = held.case.head.len() - 12;
            assert_eq!(answer.place, end, "{}", held.says);
        }
    }
}
