//! Runs with absent parties against the same run with everyone present.

use reference::cases::PERMITTED;
use reference::field::FIELDS;
use reference::present::{everyone_of, is_present, permitted};
use reference::run_case::{Case, Outcome};
use reference::sheets::{sheet_for, stored};

/// The run with everyone present, but that the record has p in the columns of absent parties.
fn expected(case: &Case) -> Outcome {
    let everyone = everyone_of(&case.sheet);
    let mut outcome = case.clone().with_present(everyone).outcome();
    let parties = usize::from(case.sheet[1]);
    let opened = outcome.record.chunks_mut(parties);
    for row in opened.take(outcome.answer.openings) {
        for (party, share) in (1..).zip(row) {
            if !is_present(case.present, party) {
                *share = FIELDS[usize::from(case.sheet[0])].modulus;
            }
        }
    }
    outcome
}

fn is_as_expected(case: &Case) -> bool {
    let (left, expected) = (case.outcome(), expected(case));
    left.answer == expected.answer
        && left.record == expected.record
        && left.revealed == expected.revealed
}

/// Field, n and t are in use, so that 12 can be answered.
fn has_parties(sheet: &[u8]) -> bool {
    let parties = |sheet: &[u8]| (u32::from(sheet[1]), u32::from(sheet[2]));
    sheet.len() >= 11 && sheet[0] < 4 && PERMITTED.contains(&parties(sheet))
}

/// The permitted sets of the sheet's parties.
fn sets_of(sheet: &[u8]) -> Vec<u8> {
    permitted(sheet[1].into(), sheet[2].into())
}

/// Sheets that are refused too: every permitted set is refused as everyone is.
#[test]
fn a_permitted_set_changes_the_absent_columns_of_the_record_alone() {
    let drawn = (0..3_000).map(|index| sheet_for(13, index));
    let cases = drawn.filter(|case| has_parties(&case.sheet));
    let mut opened = 0;
    for case in cases.filter(|case| case.sheet.len() < 3_000) {
        for set in sets_of(&case.sheet) {
            let case = case.clone().with_present(set);
            assert!(is_as_expected(&case), "{case:?}");
            opened += usize::from(case.outcome().answer.openings > 0);
        }
    }
    assert!(opened > 20_000, "{opened}");
}

#[test]
fn stored_cases_with_a_permitted_set_are_the_run_with_everyone_otherwise() {
    let with_parties = |case: &Case| has_parties(&case.sheet);
    let cases = stored::all().into_iter().filter(with_parties);
    let permitted = |case: &Case| sets_of(&case.sheet).contains(&case.present);
    for case in cases.filter(permitted) {
        assert!(is_as_expected(&case), "{case:?}");
    }
}

/// Every byte that is not permitted, for sheets that nothing refuses before 12. Nothing is run.
#[test]
fn every_other_byte_is_refused_with_12() {
    for (field, (n, t)) in (0..4).flat_map(|field| PERMITTED.map(|parties| (field, parties))) {
        // CONST 0 1, REVEAL 0, END
        let mut sheet = vec![field, n as u8, t as u8, 0, 0, 0, 0, 0, 0, 9, 0];
        sheet.extend([2, 0, 1, 0, 0, 0, 12, 0, 0]);
        for present in 0..=u8::MAX {
            let is_permitted = u32::from(present) < 1 << n && present.count_ones() > t;
            // a byte more is refused with 4, which comes after 12
            for longer in [false, true] {
                let mut sheet = sheet.clone();
                sheet.extend(longer.then_some(0));
                let case = Case::with_room(sheet).with_present(present);
                let answer = case.outcome().answer;
                let accepted = if longer { 4 } else { 0 };
                let number = if is_permitted { accepted } else { 12 };
                assert_eq!(answer.number, number, "{field} {n} {t} {present}");
                assert!(number == 0 || (answer.place, answer.openings) == (0, 0));
            }
        }
    }
}
