//! docs/EXAMPLES.md, "The sums" and "An absent firm": each hand sheet there is worked rightly, and is what
//! the reference sums, or the value that it opens.

mod files;

use std::str::Lines;

use files::text;
use reference::field::FIELDS;
use reference::opening::Opening;
use reference::present::is_present;
use reference::sheets::examples::named;
use reference::summing::sum;
use reference::table;
use reference::weights::weights_at;

/// A hand sheet as the page has it: `row ..`, a line for each party that is summed, and `sum ..`.
struct Sheet {
    row: Vec<u32>,
    field: u32,
    threshold: u32,
    /// Share, weight and product.
    parties: Vec<[u64; 3]>,
    sum: u64,
    remainder: u64,
}

/// An opening as the page has it: `present ..`, a line for each party that it is worked from, and `sum ..`.
struct Opened {
    present: u8,
    field: usize,
    threshold: usize,
    /// The numbers of the record.
    row: Vec<u64>,
    /// Party, share, weight and product.
    parties: Vec<[u64; 4]>,
    sum: u64,
    value: u64,
}

/// The number after a word of the line.
fn after(line: &str, word: &str) -> u64 {
    let mut words = line.split_whitespace();
    words.find(|&other| other == word).expect(word);
    words.next().unwrap().parse().unwrap()
}

fn sheet(first: &str, lines: &mut Lines) -> Sheet {
    let numbers = first.split_whitespace().skip(1);
    let row = numbers.map_while(|word| word.parse().ok()).collect();
    let threshold = after(first, "threshold") as u32;
    let parties = (1..=u64::from(threshold) + 1).map(|party| {
        let line = lines.next().unwrap();
        assert_eq!(after(line, "party"), party);
        ["share", "weight", "product"].map(|word| after(line, word))
    });
    let parties = parties.collect();
    let last = lines.next().unwrap();
    Sheet {
        row,
        field: after(first, "field") as u32,
        threshold,
        parties,
        sum: after(last, "sum"),
        remainder: after(last, "remainder"),
    }
}

fn opened(first: &str, lines: &mut Lines) -> Opened {
    let (_, row) = first.split_once("opened ").unwrap();
    let threshold = after(first, "threshold") as usize;
    let words = ["party", "share", "weight", "product"];
    let party = |line: &str| words.map(|word| after(line, word));
    let parties = lines.take(threshold + 1).map(party).collect();
    let last = lines.next().unwrap();
    Opened {
        present: after(first, "present") as u8,
        field: after(first, "field") as usize,
        threshold,
        row: row.split(' ').map(|word| word.parse().unwrap()).collect(),
        parties,
        sum: after(last, "sum"),
        value: after(last, "value"),
    }
}

/// What is read from each line of the page that starts with the word, and from those after it.
fn found<T>(word: &str, read: fn(&str, &mut Lines) -> T) -> Vec<T> {
    let page = text("docs/EXAMPLES.md");
    let mut lines = page.lines();
    let mut found = Vec::new();
    while let Some(line) = lines.next() {
        if line.starts_with(&format!("    {word} ")) {
            found.push(read(line, &mut lines));
        }
    }
    found
}

fn hand_sheets() -> Vec<Sheet> {
    found("row", sheet)
}

fn openings() -> Vec<Opened> {
    found("present", opened)
}

/// The table of weights on the page.
fn weights(p: u64, threshold: u32) -> Vec<u64> {
    match threshold {
        1 => vec![2, p - 1],
        2 => vec![3, p - 3, 1],
        _ => vec![4, p - 6, 4, p - 1],
    }
}

#[test]
fn each_hand_sheet_is_worked_rightly_and_is_what_the_reference_sums() {
    let sheets = hand_sheets();
    assert_eq!(sheets.len(), 3);
    for sheet in sheets {
        let p = u64::from(FIELDS[sheet.field as usize].modulus);
        let weights = weights(p, sheet.threshold);
        assert_eq!(sheet.parties.len(), weights.len());
        for (i, [share, weight, product]) in sheet.parties.iter().enumerate() {
            assert_eq!((*share, *weight), (u64::from(sheet.row[i]), weights[i]));
            assert_eq!(share * weight, *product);
        }
        let products = sheet.parties.iter().map(|[_, _, product]| product);
        assert_eq!(products.sum::<u64>(), sheet.sum);
        assert_eq!(sheet.sum % p, sheet.remainder);
        let parties = sheet.row.len() as u32;
        let summed = sum(sheet.field, parties, sheet.threshold, &sheet.row);
        assert_eq!(summed, (0, sheet.sum));
    }
}

#[test]
fn each_opening_is_worked_rightly_from_the_lowest_present_parties() {
    for opened in openings() {
        let field = &FIELDS[opened.field];
        let p = u64::from(field.modulus);
        let present = (1..=opened.row.len()).filter(|&party| is_present(opened.present, party));
        let lowest: Vec<u64> = present
            .map(|party| party as u64)
            .take(opened.threshold + 1)
            .collect();
        let weights = weights_at(field, 0, &lowest);
        assert_eq!(opened.parties.len(), weights.len());
        for (i, [party, share, weight, product]) in opened.parties.iter().enumerate() {
            assert_eq!((*party, *weight), (lowest[i], weights[i]));
            assert_eq!(
                (*share, share * weight),
                (opened.row[lowest[i] as usize - 1], *product)
            );
        }
        let products = opened.parties.iter().map(|[_, _, _, product]| product);
        assert_eq!(products.sum::<u64>(), opened.sum);
        assert_eq!(opened.sum % p, opened.value);
        let opening = Opening::new(field, opened.present, opened.threshold);
        assert_eq!(
            opening.value(&opened.row.iter().copied().collect()),
            opened.value
        );
    }
}

/// The first opened line of two examples, and a row that is summed before.
#[test]
fn the_openings_are_those_of_the_examples_and_of_a_hand_sheet() {
    let openings = openings();
    assert_eq!(openings.len(), 3);
    for (name, opened) in ["mul", "three-calls"].into_iter().zip(&openings) {
        let lines = table::lines_with(&named(name).unwrap(), opened.present);
        let row: Vec<String> = opened.row.iter().map(u64::to_string).collect();
        let first = format!("opened {}", row.join(" "));
        assert_eq!(lines.lines().nth(1), Some(&first[..]));
    }
    let (summed, last) = (&hand_sheets()[1], &openings[2]);
    assert_eq!(
        (last.field as u32, last.value),
        (summed.field, summed.remainder)
    );
    for (party, (&share, &recorded)) in (1..).zip(summed.row.iter().zip(&last.row)) {
        let absent = u64::from(FIELDS[last.field].modulus);
        let expected = if is_present(last.present, party) {
            share.into()
        } else {
            absent
        };
        assert_eq!(recorded, expected);
    }
}

#[test]
fn the_first_hand_sheet_has_the_first_input_row_of_three_calls() {
    let sheet = named("three-calls").unwrap();
    let row = 11 + usize::from(u16::from_le_bytes([sheet[9], sheet[10]]));
    let shares = sheet[row..row + 12].chunks(4);
    let shares = shares.map(|share| u32::from_le_bytes(share.try_into().unwrap()));
    assert!(shares.eq(hand_sheets()[0].row.iter().copied()));
}

#[test]
fn the_page_quotes_the_sum_that_the_examples_print() {
    let line = "sum 122 remainder 5";
    let page = text("docs/EXAMPLES.md");
    assert!(page
        .lines()
        .any(|quoted| quoted.strip_prefix("    ") == Some(line)));
    assert!(text("examples/expected")
        .lines()
        .any(|printed| printed == line));
}
