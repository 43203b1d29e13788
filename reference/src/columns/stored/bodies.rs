//! What follows the header and is not looked at: shares, rows and scripts of every kind.

use super::Told;
use crate::columns::case::Case;
use crate::columns::draft::Draft;
use crate::columns::{to_columns, Way};
use crate::field::FIELDS;
use crate::refusal::NONE;
use crate::sheets::examples;

pub fn all() -> Vec<Told> {
    let rows = Draft::plain().with_rows(1, 0, 1);
    let mut inputs = vec![rows.with_shares([0; 12]), rows.with_shares([u32::MAX; 12])];
    inputs.extend(FIELDS.iter().zip(0..).map(|(field, number)| {
        let p = field.modulus;
        let shares = [p - 1, p, p + 1, u32::MAX, 0, 1, p << 1, p ^ 0x8000_0000];
        Draft::new(number, 4, 1)
            .with_rows(2, 0, 0)
            .with_shares(shares)
    }));
    inputs.extend(scripts());
    let exact = |input: Vec<u8>| {
        let length = input.len();
        (input, length, NONE)
    };
    inputs.into_iter().map(exact).collect()
}

/// Scripts that 9, 10 and 11 would refuse in a run, and every byte once.
fn scripts() -> Vec<Vec<u8>> {
    let every: Vec<u8> = (0..=255).collect();
    let scripts: [&[u8]; 7] = [
        &[0x0F, 0x00],
        &[0xFF, 0xFF, 0xFF],
        &[0x01],
        &[0x00, 0x00],
        &[0x06, 0, 1],
        &[0x01, 64, 0x00],
        &every,
    ];
    let input = |script: &[u8]| {
        let draft = Draft::plain()
            .with_rows(1, 0, 0)
            .with_script(script.len() as u16);
        let mut input = draft.counting();
        input[11..11 + script.len()].copy_from_slice(script);
        input
    };
    scripts.into_iter().map(input).collect()
}

/// Sheets that run, and sheets that 6, 7 and 8 would refuse in a run; then their column forms back.
pub fn there_and_back() -> Vec<Case> {
    let examples = ["mul", "rounding"].map(|name| {
        let sheet = examples::named(name);
        sheet.expect("the example is there")
    });
    let exact = |sheet: Vec<u8>| over(&sheet, sheet.len());
    let sheets = examples.into_iter().chain(refused_in_a_run());
    sheets.flat_map(exact).collect()
}

/// Rows that are no sharings; a mask whose first secret is no bit; a triple whose c is not a times b.
fn refused_in_a_run() -> [Vec<u8>; 3] {
    let plain = Draft::plain();
    let inputs = plain.with_rows(2, 0, 0);
    let mask = plain.with_rows(0, 1, 0);
    let triple = plain.with_rows(0, 0, 1);
    [
        inputs.with_shares([1, 2, 4, 12, 0, 12]),
        mask.with_shares([2, 2, 2, 1, 1, 1, 0, 0, 0, 1, 0, 12]),
        triple.with_shares([2, 2, 2, 3, 4, 5, 7, 7, 7]),
    ]
}

/// The sheet to its column form, and that to the sheet, with outputs of this length.
pub fn over(sheet: &[u8], lent: usize) -> [Case; 2] {
    let mut columns = vec![0; sheet.len()];
    to_columns(sheet, &mut columns);
    let case = |way, input| Case { way, input, lent };
    [
        case(Way::ToColumns, sheet.to_vec()),
        case(Way::ToSheet, columns),
    ]
}
