//! The sum of which a row's secret is the remainder.

use crate::field::Field;
use crate::refusal;
use crate::sharing::{check_length, check_parties, check_values};
use crate::weights::Weights;

/// Each of shares 1 to t + 1 times its weight below p, added and not reduced.
/// Answers with 0 and the sum, or with the refusal's number and 0.
pub fn sum(field: u32, parties: u32, threshold: u32, row: &[u32]) -> (u32, u64) {
    match sum_of(field, parties, threshold, row) {
        Ok(sum) => (refusal::NONE, sum),
        Err(number) => (number, 0),
    }
}

fn sum_of(field: u32, parties: u32, threshold: u32, row: &[u32]) -> Result<u64, u32> {
    let field = Field::numbered(field)?;
    check_parties(parties, threshold)?;
    check_length(row.len(), parties)?;
    check_values(field, row)?;
    let weights = Weights::new(field, row.len(), threshold as usize);
    let row: Vec<u64> = row.iter().map(|&share| u64::from(share)).collect();
    if !weights.is_sharing(&row) {
        return Err(refusal::ROW);
    }
    Ok(weights.sum(&row))
}

#[cfg(test)]
mod tests {
    use super::*;
    use crate::cases::generator::Generator;
    use crate::cases::{row_of, PERMITTED};
    use crate::field::FIELDS;
    use crate::sharing::recover;

    /// For each threshold the weights at 0 as whole numbers, party 1's first: (-1)^(j - 1) times
    /// t + 1 over j.
    const WEIGHTS: [&[i64]; 3] = [&[2, -1], &[3, -3, 1], &[4, -6, 4, -1]];

    /// For each threshold t and each of parties 1 to t + 1 the polynomial of degree t that is 1 at
    /// that party and 0 at the others of them, by its values at 1 to 7.
    const LONE: [&[[i64; 7]]; 3] = [
        &[[1, 0, -1, -2, -3, -4, -5], [0, 1, 2, 3, 4, 5, 6]],
        &[
            [1, 0, 0, 1, 3, 6, 10],
            [0, 1, 0, -3, -8, -15, -24],
            [0, 0, 1, 3, 6, 10, 15],
        ],
        &[
            [1, 0, 0, 0, -1, -4, -10],
            [0, 1, 0, 0, 4, 15, 36],
            [0, 0, 1, 0, -6, -20, -45],
            [0, 0, 0, 1, 4, 10, 20],
        ],
    ];

    fn below(field: &Field, number: i64) -> u64 {
        number.rem_euclid(i64::from(field.modulus)) as u64
    }

    /// The sum by the weights above, in numbers of which none can overflow.
    fn by_hand(field: &Field, threshold: u32, row: &[u32]) -> u128 {
        let weights = WEIGHTS[threshold as usize - 1].iter();
        let products = weights.zip(row).map(|(&weight, &share)| {
            let weight = u128::from(below(field, weight));
            weight * u128::from(share)
        });
        products.sum()
    }

    /// Number and secret of the recovery of the row, with a list of the right length for it.
    fn recovered(field: u32, parties: u32, threshold: u32, row: &[u32]) -> (u32, u32) {
        let mut lent = vec![99; threshold.min(9) as usize];
        recover(field, parties, threshold, row, &mut lent)
    }

    #[test]
    fn each_share_has_its_own_weight() {
        for (number, field) in (0..).zip(&FIELDS) {
            for (n, t) in PERMITTED {
                let places = WEIGHTS[t as usize - 1].iter().zip(LONE[t as usize - 1]);
                for (&weight, row) in places {
                    let row = row[..n as usize].iter();
                    let row: Vec<u32> = row.map(|&share| below(field, share) as u32).collect();
                    assert_eq!(sum(number, n, t, &row), (0, below(field, weight)));
                }
            }
        }
    }

    #[test]
    fn the_remainder_is_the_secret() {
        let mut generator = Generator::new(11);
        for (number, field) in (0..).zip(&FIELDS) {
            for (n, t) in PERMITTED {
                for _ in 0..50 {
                    let secret = generator.below(field.modulus);
                    let coefficients = generator.list(t as usize, field.modulus);
                    let row = row_of(field, secret, &coefficients, n);
                    let (answer, sum) = sum(number, n, t, &row);
                    assert_eq!((answer, secret), recovered(number, n, t, &row));
                    assert_eq!(sum % u64::from(field.modulus), u64::from(secret));
                    assert_eq!(u128::from(sum), by_hand(field, t, &row));
                }
            }
        }
    }

    /// The weights are p + 1 together where t is 1 or 2, and 2p + 1 where it is 3.
    #[test]
    fn nothing_is_reduced_and_no_share_past_the_weights_is_added() {
        for (number, field) in (0..).zip(&FIELDS) {
            let p = u64::from(field.modulus);
            for (n, t) in PERMITTED {
                let together = if t == 3 { 2 * p + 1 } else { p + 1 };
                for share in [0, 1, field.modulus - 1] {
                    let row = vec![share; n as usize];
                    let expected = together * u64::from(share);
                    assert_eq!(sum(number, n, t, &row), (0, expected));
                }
            }
        }
    }

    #[test]
    fn the_largest_sum_fits() {
        let largest = 9_223_372_026_117_357_570;
        assert_eq!(largest, ((1 << 32) - 1) * ((1 << 31) - 2));
        assert_eq!(sum(3, 7, 3, &[2_147_483_646; 7]), (0, largest));
    }

    /// Every row of field 0 for 3 parties, by the weights 2 and 12.
    #[test]
    fn refuses_exactly_the_rows_that_recovery_refuses() {
        for code in 0..13 * 13 * 13 {
            let row = [code % 13, code / 13 % 13, code / 169];
            let (number, _) = recovered(0, 3, 1, &row);
            let expected = if number == 0 {
                2 * row[0] + 12 * row[1]
            } else {
                0
            };
            assert_eq!(sum(0, 3, 1, &row), (number, expected.into()));
        }
    }

    /// 5 + 2x for 4 parties in field 0 with every choice of faults: the first one decides.
    #[test]
    fn refuses_in_order() {
        for choice in 0..1 << 5 {
            let has = |fault: u32| choice >> fault & 1 == 1;
            let field = if has(0) { 4 } else { 0 };
            let threshold = if has(1) { 2 } else { 1 };
            let mut row = vec![7, 9, 11, 0];
            if has(4) {
                row[1] = 10;
            }
            if has(3) {
                row[2] = 13;
            }
            if has(2) {
                row.pop();
            }
            let first = (0..5).find(|&fault| has(fault));
            let expected = first.map_or((0, 122), |fault| (fault + 2, 0));
            assert_eq!(sum(field, 4, threshold, &row), expected, "{choice:05b}");
        }
    }

    #[test]
    fn refuses_at_every_edge() {
        let row = [7, 9, 11, 0, 2, 4, 6, 8, 10];
        let with = |field, (n, t), length: usize| sum(field, n, t, &row[..length]);
        assert_eq!(with(u32::MAX, (3, 1), 3), (2, 0));
        for (n, t) in [(2, 1), (8, 1), (3, 0), (3, 2), (7, 4), (7, u32::MAX)] {
            assert_eq!(with(0, (n, t), n as usize), (3, 0), "{n} {t}");
        }
        for length in [0, 2, 4, 9] {
            assert_eq!(with(0, (3, 1), length), (4, 0), "{length}");
        }
        assert_eq!(sum(0, 3, 1, &[7, 9, 24]), (5, 0));
        assert_eq!(sum(3, 3, 1, &[1, 1, u32::MAX]), (5, 0));
        assert_eq!(sum(0, 3, 1, &[7, 9, 12]), (6, 0));
        assert_eq!(with(0, (3, 1), 3), (0, 122));
        assert_eq!(with(0, (7, 1), 7), (0, 122));
    }
}
