//! Sharing a secret and recovering it by Lagrange interpolation.

use crate::field::Field;
use crate::refusal;

/// Writes the value at j of the polynomial with constant term `secret` to `lent[j - 1]`.
/// Answers with the refusal's number, or 0.
pub fn share(
    field: u32,
    parties: u32,
    threshold: u32,
    secret: u32,
    coefficients: &[u32],
    lent: &mut [u32],
) -> u32 {
    match shares_of(field, parties, threshold, secret, coefficients, lent.len()) {
        Ok(shares) => {
            lent.copy_from_slice(&shares);
            refusal::NONE
        }
        Err(number) => number,
    }
}

/// Writes the coefficients of the row's polynomial to `lent`, the first power's first.
/// Answers with 0 and the secret, or with the refusal's number and 0.
pub fn recover(
    field: u32,
    parties: u32,
    threshold: u32,
    row: &[u32],
    lent: &mut [u32],
) -> (u32, u32) {
    match polynomial_of(field, parties, threshold, row, lent.len()) {
        Ok((secret, coefficients)) => {
            lent.copy_from_slice(&coefficients);
            (refusal::NONE, secret)
        }
        Err(number) => (number, 0),
    }
}

fn shares_of(
    field: u32,
    parties: u32,
    threshold: u32,
    secret: u32,
    coefficients: &[u32],
    lent_length: usize,
) -> Result<Vec<u32>, u32> {
    let field = Field::numbered(field)?;
    check_parties(parties, threshold)?;
    check_length(coefficients.len(), threshold)?;
    check_length(lent_length, parties)?;
    check_values(field, &[secret])?;
    check_values(field, coefficients)?;
    let mut polynomial = vec![u64::from(secret)];
    polynomial.extend(coefficients.iter().map(|&c| u64::from(c)));
    Ok((1..=u64::from(parties))
        .map(|party| narrow(field.evaluate(&polynomial, party)))
        .collect())
}

/// The secret and the coefficients of the polynomial that the row lies on.
fn polynomial_of(
    field: u32,
    parties: u32,
    threshold: u32,
    row: &[u32],
    lent_length: usize,
) -> Result<(u32, Vec<u32>), u32> {
    let field = Field::numbered(field)?;
    check_parties(parties, threshold)?;
    check_length(row.len(), parties)?;
    check_length(lent_length, threshold)?;
    check_values(field, row)?;
    let row: Vec<u64> = row.iter().map(|&share| u64::from(share)).collect();
    // t + 1 shares fix the only polynomial of degree at most t that can fit the row.
    let fixing = 1 + threshold as usize;
    let polynomial = interpolate(field, &row[..fixing]);
    let fits = (1..)
        .zip(&row)
        .all(|(party, &share)| field.evaluate(&polynomial, party) == share);
    if !fits {
        return Err(refusal::ROW);
    }
    let coefficients = polynomial[1..].iter().map(|&c| narrow(c)).collect();
    Ok((narrow(polynomial[0]), coefficients))
}

/// The polynomial of lowest degree that takes `shares[j - 1]` at j, the constant term first.
fn interpolate(field: &Field, shares: &[u64]) -> Vec<u64> {
    let mut polynomial = vec![0; shares.len()];
    for (party, &share) in (1..).zip(shares) {
        let basis = basis_polynomial(field, party, shares.len() as u64);
        for (sum, &term) in polynomial.iter_mut().zip(&basis) {
            *sum = field.add(*sum, field.multiply(share, term));
        }
    }
    polynomial
}

/// The polynomial that is 1 at `party` and 0 at every other point from 1 to `points`:
/// the product of (x - other) / (party - other).
fn basis_polynomial(field: &Field, party: u64, points: u64) -> Vec<u64> {
    let mut basis = vec![1];
    for other in (1..=points).filter(|&other| other != party) {
        let scale = field.inverse(field.subtract(party, other));
        basis = times_linear(field, &basis, other)
            .iter()
            .map(|&term| field.multiply(term, scale))
            .collect();
    }
    basis
}

/// The polynomial times (x - root).
fn times_linear(field: &Field, polynomial: &[u64], root: u64) -> Vec<u64> {
    let mut product = vec![0; polynomial.len() + 1];
    for (degree, &term) in polynomial.iter().enumerate() {
        product[degree + 1] = field.add(product[degree + 1], term);
        product[degree] = field.subtract(product[degree], field.multiply(term, root));
    }
    product
}

/// The comparison is in u64, because 2t + 1 can exceed a u32.
pub fn check_parties(parties: u32, threshold: u32) -> Result<(), u32> {
    let permitted = (3..=7).contains(&parties)
        && threshold >= 1
        && 2 * u64::from(threshold) < u64::from(parties);
    permitted.then_some(()).ok_or(refusal::PARTIES)
}

pub fn check_length(length: usize, expected: u32) -> Result<(), u32> {
    let right = u32::try_from(length) == Ok(expected);
    right.then_some(()).ok_or(refusal::LENGTH)
}

pub fn check_values(field: &Field, values: &[u32]) -> Result<(), u32> {
    let below = values.iter().all(|&value| field.contains(value));
    below.then_some(()).ok_or(refusal::VALUE)
}

/// Every element is below a modulus that fits in a u32.
fn narrow(element: u64) -> u32 {
    element as u32
}

#[cfg(test)]
mod tests {
    use super::*;
    use crate::cases::generator::Generator;
    use crate::cases::PERMITTED;
    use crate::field::FIELDS;

    /// Secret, coefficient and row of lines in field 0 for 3 parties.
    const LINES: [(u32, u32, [u32; 3]); 6] = [
        (5, 2, [7, 9, 11]),
        (3, 4, [7, 11, 2]),
        (1, 1, [2, 3, 4]),
        (2, 3, [5, 8, 11]),
        (2, 5, [7, 12, 4]),
        (4, 1, [5, 6, 7]),
    ];

    #[test]
    fn shares_known_lines() {
        for (secret, coefficient, row) in LINES {
            let mut lent = [99; 3];
            assert_eq!(share(0, 3, 1, secret, &[coefficient], &mut lent), 0);
            assert_eq!(lent, row);
        }
    }

    #[test]
    fn recovers_known_lines() {
        for (secret, coefficient, row) in LINES {
            let mut lent = [99];
            assert_eq!(recover(0, 3, 1, &row, &mut lent), (0, secret));
            assert_eq!(lent, [coefficient]);
        }
    }

    #[test]
    fn recovery_undoes_sharing() {
        let mut generator = Generator::new(7);
        for (number, field) in (0..).zip(&FIELDS) {
            for (parties, threshold) in PERMITTED {
                for _ in 0..50 {
                    let secret = generator.below(field.modulus);
                    let coefficients = generator.list(threshold as usize, field.modulus);
                    let mut row = vec![99; parties as usize];
                    let answer = share(number, parties, threshold, secret, &coefficients, &mut row);
                    assert_eq!(answer, 0);
                    let mut lent = vec![99; threshold as usize];
                    let answer = recover(number, parties, threshold, &row, &mut lent);
                    assert_eq!(answer, (0, secret));
                    assert_eq!(lent, coefficients);
                }
            }
        }
    }

    /// Every row of field 0 for 3 parties is compared with all 169 lines.
    #[test]
    fn refuses_exactly_the_rows_that_no_line_fits() {
        let mut refused = 0;
        for code in 0..13 * 13 * 13 {
            let row = [code % 13, code / 13 % 13, code / 169];
            let line = (0..169).map(|line| (line % 13, line / 13)).find(|(c, a)| {
                (1..)
                    .zip(row)
                    .all(|(party, share)| (c + a * party) % 13 == share)
            });
            let mut lent = [99];
            let answer = recover(0, 3, 1, &row, &mut lent);
            match line {
                Some((secret, coefficient)) => {
                    assert_eq!((answer, lent), ((0, secret), [coefficient]));
                }
                None => {
                    assert_eq!((answer, lent), ((6, 0), [99]));
                    refused += 1;
                }
            }
        }
        assert_eq!(refused, 13 * 13 * 13 - 13 * 13);
    }

    #[test]
    fn permits_nine_pairs_of_parties_and_threshold() {
        let all = (0..=20).flat_map(|n| (0..=20).map(move |t| (n, t)));
        let permitted: Vec<_> = all.filter(|&(n, t)| check_parties(n, t).is_ok()).collect();
        assert_eq!(permitted, PERMITTED);
        for threshold in [1 << 31, (1 << 31) + 1, u32::MAX] {
            assert_eq!(check_parties(7, threshold), Err(3));
            assert_eq!(check_parties(u32::MAX, threshold), Err(3));
        }
    }

    #[test]
    fn share_refuses_in_order() {
        let mut lent = [99; 4];
        assert_eq!(share(4, 2, 1, 13, &[13, 13], &mut lent), 2);
        assert_eq!(share(0, 2, 1, 13, &[13, 13], &mut lent), 3);
        assert_eq!(share(0, 3, 1, 13, &[13], &mut lent), 4);
        assert_eq!(share(0, 4, 1, 13, &[13, 13], &mut lent), 4);
        assert_eq!(share(0, 4, 1, 13, &[12], &mut lent), 5);
        assert_eq!(share(0, 4, 1, 12, &[13], &mut lent), 5);
        assert_eq!(lent, [99; 4]);
        assert_eq!(share(0, 4, 1, 12, &[12], &mut lent), 0);
        assert_eq!(lent, [11, 10, 9, 8]);
    }

    #[test]
    fn recover_refuses_in_order() {
        let mut lent = [99];
        assert_eq!(recover(4, 2, 1, &[13, 1], &mut lent), (2, 0));
        assert_eq!(recover(0, 2, 1, &[13, 1], &mut lent), (3, 0));
        assert_eq!(recover(0, 3, 1, &[13, 1], &mut lent), (4, 0));
        assert_eq!(recover(0, 5, 2, &[0, 1, 2, 3, 13], &mut lent), (4, 0));
        assert_eq!(recover(0, 3, 1, &[13, 1, 3], &mut lent), (5, 0));
        assert_eq!(recover(0, 3, 1, &[0, 1, 3], &mut lent), (6, 0));
        assert_eq!(lent, [99]);
    }
}
