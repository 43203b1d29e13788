//! A sum before it is reduced beside the secret that is recovered from the same row.

use super::Entered;
use crate::case::{Case, RecoverCase, SumCase, LONGEST};
use crate::field::Field;

/// The recovery on the sum's arguments. The lent list has the length that recovery asks for, or the
/// longest of a case where the threshold is so large that it is refused.
pub fn recovery(call: &SumCase) -> Case {
    let length = LONGEST.min(call.threshold as usize);
    Case::Recover(RecoverCase {
        field: call.field,
        parties: call.parties,
        threshold: call.threshold,
        row: call.row.clone(),
        lent: vec![u32::MAX; length],
    })
}

/// Where the sum's number, or the sum's remainder by p, is not that of the recovery.
pub fn recovery_difference(call: &SumCase, sum: &Entered, recovered: &Entered) -> Option<String> {
    // A refused sum is 0, which is its own remainder: an unknown field needs no p.
    let p = Field::numbered(call.field).map_or(i128::MAX, |field| field.modulus.into());
    let by_sum = (sum.number, sum.value % p);
    let by_recovery = (recovered.number, recovered.value);
    let differ = by_sum != by_recovery;
    differ.then(|| {
        format!("number and remainder of the sum {by_sum:?}, number and secret {by_recovery:?}")
    })
}

#[cfg(test)]
mod tests {
    use super::*;
    use crate::cases::{self, sum_for};

    fn sums() -> Vec<SumCase> {
        let drawn = (0..5_000).map(|index| sum_for(3, index));
        let all = cases::all().into_iter().chain(drawn);
        let sum = |case| match case {
            Case::Sum(call) => Some(call),
            _ => None,
        };
        all.filter_map(sum).collect()
    }

    #[test]
    fn every_sum_has_the_number_and_the_secret_of_its_recovery() {
        let sums = sums();
        assert!(sums.len() > 5_000);
        for call in sums {
            let sum = Entered::by_reference(&Case::Sum(call.clone()));
            let recovered = Entered::by_reference(&recovery(&call));
            assert_eq!(recovery_difference(&call, &sum, &recovered), None);
        }
    }

    #[test]
    fn every_other_number_or_remainder_is_a_difference() {
        for call in sums().into_iter().take(500) {
            let sum = Entered::by_reference(&Case::Sum(call.clone()));
            let recovered = Entered::by_reference(&recovery(&call));
            let mut other = sum.clone();
            other.number += 1;
            assert!(recovery_difference(&call, &other, &recovered).is_some());
            let mut other = sum;
            other.value += 1;
            assert!(recovery_difference(&call, &other, &recovered).is_some());
        }
    }

    #[test]
    fn a_difference_tells_both() {
        let call = SumCase {
            field: 0,
            parties: 3,
            threshold: 1,
            row: vec![7, 9, 11],
        };
        let mut sum = Entered::by_reference(&Case::Sum(call.clone()));
        let recovered = Entered::by_reference(&recovery(&call));
        sum.value = 123;
        assert_eq!(
            recovery_difference(&call, &sum, &recovered).as_deref(),
            Some("number and remainder of the sum (0, 6), number and secret (0, 5)")
        );
    }
}
