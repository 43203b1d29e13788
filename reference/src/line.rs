//! The line that tells a case and its answer.

use crate::case::{Case, RecoverCase, ShareCase, SumCase};
use crate::sharing::{recover, share};
use crate::signed::{decode, encode};
use crate::summing::sum;

pub fn answer(case: &Case) -> String {
    match case {
        Case::Share(case) => share_answer(case),
        Case::Recover(case) => recover_answer(case),
        Case::Encode { field, k, a } => {
            let (number, value) = encode(*field, *k, *a);
            format!("encode field {field} k {k} signed {a} : number {number} value {value}\n")
        }
        Case::Decode { field, v } => {
            let (number, signed) = decode(*field, *v);
            format!("decode field {field} value {v} : number {number} signed {signed}\n")
        }
        Case::Sum(case) => sum_answer(case),
    }
}

fn share_answer(case: &ShareCase) -> String {
    let ShareCase {
        field,
        parties,
        threshold,
        secret,
        coefficients,
        lent,
    } = case;
    let mut left = lent.clone();
    let number = share(
        *field,
        *parties,
        *threshold,
        *secret,
        coefficients,
        &mut left,
    );
    let (coefficients, lent, left) = (list(coefficients), list(lent), list(&left));
    format!(
        "share field {field} parties {parties} threshold {threshold} secret {secret} \
         coefficients{coefficients} lent{lent} : number {number} left{left}\n"
    )
}

fn recover_answer(case: &RecoverCase) -> String {
    let RecoverCase {
        field,
        parties,
        threshold,
        row,
        lent,
    } = case;
    let mut left = lent.clone();
    let (number, value) = recover(*field, *parties, *threshold, row, &mut left);
    let (row, lent, left) = (list(row), list(lent), list(&left));
    format!(
        "recover field {field} parties {parties} threshold {threshold} row{row} \
         lent{lent} : number {number} value {value} left{left}\n"
    )
}

fn sum_answer(case: &SumCase) -> String {
    let SumCase {
        field,
        parties,
        threshold,
        row,
    } = case;
    let (number, sum) = sum(*field, *parties, *threshold, row);
    let row = list(row);
    format!(
        "sum field {field} parties {parties} threshold {threshold} row{row} \
         : number {number} sum {sum}\n"
    )
}

/// Each number with a space before it, so that an empty list adds nothing to the line.
fn list(numbers: &[u32]) -> String {
    numbers.iter().map(|number| format!(" {number}")).collect()
}

#[cfg(test)]
mod tests {
    use super::*;

    #[test]
    fn share_line_shows_both_lists() {
        let mut case = ShareCase {
            field: 0,
            parties: 3,
            threshold: 1,
            secret: 5,
            coefficients: vec![2],
            lent: vec![90, 91, 92],
        };
        assert_eq!(
            answer(&Case::Share(case.clone())),
            "share field 0 parties 3 threshold 1 secret 5 coefficients 2 lent 90 91 92 \
             : number 0 left 7 9 11\n"
        );
        case.coefficients.clear();
        case.lent.clear();
        assert_eq!(
            answer(&Case::Share(case)),
            "share field 0 parties 3 threshold 1 secret 5 coefficients lent \
             : number 4 left\n"
        );
    }

    #[test]
    fn recover_line_shows_the_secret() {
        let mut case = RecoverCase {
            field: 0,
            parties: 3,
            threshold: 1,
            row: vec![7, 9, 11],
            lent: vec![90],
        };
        assert_eq!(
            answer(&Case::Recover(case.clone())),
            "recover field 0 parties 3 threshold 1 row 7 9 11 lent 90 \
             : number 0 value 5 left 2\n"
        );
        case.row[2] = 12;
        assert_eq!(
            answer(&Case::Recover(case)),
            "recover field 0 parties 3 threshold 1 row 7 9 12 lent 90 \
             : number 6 value 0 left 90\n"
        );
    }

    #[test]
    fn sum_line_shows_the_sum() {
        let mut case = SumCase {
            field: 0,
            parties: 3,
            threshold: 1,
            row: vec![7, 9, 11],
        };
        assert_eq!(
            answer(&Case::Sum(case.clone())),
            "sum field 0 parties 3 threshold 1 row 7 9 11 : number 0 sum 122\n"
        );
        case.row.clear();
        assert_eq!(
            answer(&Case::Sum(case)),
            "sum field 0 parties 3 threshold 1 row : number 4 sum 0\n"
        );
    }

    #[test]
    fn signed_lines_show_the_sign() {
        let encode = Case::Encode {
            field: 0,
            k: 3,
            a: -4,
        };
        let decode = Case::Decode { field: 0, v: 7 };
        assert_eq!(
            answer(&encode),
            "encode field 0 k 3 signed -4 : number 0 value 9\n"
        );
        assert_eq!(
            answer(&decode),
            "decode field 0 value 7 : number 0 signed -6\n"
        );
    }
}
