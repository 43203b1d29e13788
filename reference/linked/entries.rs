//! Calls of the proved library's small entries, told like those of the reference. What an entry is
//! to write a number to holds another one before.

use reference::case::{Case, RecoverCase, ShareCase, SumCase};
use reference::compare::Entered;

use crate::library::c;

pub fn enter(case: &Case) -> Entered {
    match case {
        Case::Share(call) => share(call),
        Case::Recover(call) => recover(call),
        Case::Encode { field, k, a } => {
            let mut value = u32::MAX;
            let number = unsafe { c::jundrethol_encode(*field, *k, *a, &mut value) };
            without_list(number, value.into())
        }
        Case::Decode { field, v } => {
            let mut value = i64::MAX;
            let number = unsafe { c::jundrethol_decode(*field, *v, &mut value) };
            without_list(number, value.into())
        }
        Case::Sum(call) => sum(call),
    }
}

fn share(call: &ShareCase) -> Entered {
    let mut lent = call.lent.clone();
    let number = unsafe {
        c::jundrethol_share(
            call.field,
            call.parties,
            call.threshold,
            call.secret,
            call.coefficients.as_ptr(),
            call.coefficients.len(),
            lent.as_mut_ptr(),
            lent.len(),
        )
    };
    Entered {
        number,
        value: 0,
        lent,
    }
}

fn recover(call: &RecoverCase) -> Entered {
    let mut lent = call.lent.clone();
    let mut secret = u32::MAX;
    let number = unsafe {
        c::jundrethol_recover(
            call.field,
            call.parties,
            call.threshold,
            &mut secret,
            call.row.as_ptr(),
            call.row.len(),
            lent.as_mut_ptr(),
            lent.len(),
        )
    };
    Entered {
        number,
        value: secret.into(),
        lent,
    }
}

fn sum(call: &SumCase) -> Entered {
    let mut sum = u64::MAX;
    let number = unsafe {
        c::jundrethol_sum(
            call.field,
            call.parties,
            call.threshold,
            &mut sum,
            call.row.as_ptr(),
            call.row.len(),
        )
    };
    without_list(number, sum.into())
}

fn without_list(number: u32, value: i128) -> Entered {
    Entered {
        number,
        value,
        lent: Vec::new(),
    }
}
