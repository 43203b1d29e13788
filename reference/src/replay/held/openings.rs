//! 43, 42 and 41: at each opening, which of them comes first, and of which opening.

use super::{held, printed, Held};
use crate::replay::case::Case;
use crate::replay::dealt::{product, Work, SMALL};
use crate::script::command::Command::*;

pub fn all() -> Vec<Held> {
    let mut all = short();
    all.extend(no_polynomial());
    all.extend(own_share());
    all.extend(orders());
    all.extend(more_parties());
    all.extend(in_masked());
    all
}

/// Party 1 of the paper's run.
fn first() -> Case {
    printed().case(1)
}

fn short() -> Vec<Held> {
    vec![
        held("43: no number", first().cut(0)),
        held("43: one opening of the product's two", first().cut(3)),
        held(
            "43: the second opening without its last number",
            first().cut(5),
        ),
        held("43: the opening of REVEAL is missing", first().cut(6)),
    ]
}

fn no_polynomial() -> Vec<Held> {
    vec![
        held(
            "42: another's share of the first opening",
            first().with_damaged(0, 2),
        ),
        held(
            "42: another's share of the second opening",
            first().with_damaged(1, 3),
        ),
        held(
            "42: another's share of REVEAL's opening",
            first().with_damaged(2, 2),
        ),
        held(
            "42: the own share is on no polynomial",
            first().with_damaged(0, 1),
        ),
        held("42: p and 1", first().with_number(1, 14)),
        held(
            "42: p more than the share, which is the same modulo p",
            first().with_number(1, 13 + 6),
        ),
        held("42: 2^32 less 1", first().with_number(5, u32::MAX)),
        held("42: one share present", first().with_present(1, 0b001)),
    ]
}

/// All shares of an opening moved by as much, or turned about the own share.
fn own_share() -> Vec<Held> {
    let other = |opening| first().with_added(opening, (1, 0));
    let kept = |opening| first().with_added(opening, (12, 1));
    vec![
        held("41: another polynomial in the first opening", other(0)),
        held("41: another polynomial in the second opening", other(1)),
        held("41: another polynomial in REVEAL's opening", other(2)),
        held("41: party 2's part", first().with_part(&printed().parts[1])),
        held("41: the own number is party 2's", first().with_party(2)),
        held(
            "another polynomial through the own share in REVEAL's opening",
            kept(2),
        ),
        held(
            "41: another polynomial through the own share, seen at REVEAL",
            kept(0),
        ),
        held(
            "another polynomial where the own share is absent",
            first().with_sets(&[0b110]).with_added(0, (9, 0)),
        ),
    ]
}

fn orders() -> Vec<Held> {
    vec![
        held(
            "43 before 42: a number above p in a cut opening",
            first().cut(2).with_number(0, 14),
        ),
        held(
            "42 before 43: the first opening before the second",
            first().cut(4).with_number(0, 14),
        ),
        held(
            "41 before 43: the first opening before the second",
            first().cut(5).with_added(0, (1, 0)),
        ),
        held(
            "42 before 41: above p, and the own share differs",
            first().with_added(0, (1, 0)).with_number(2, 14),
        ),
        held(
            "41 before 42: the first opening before the second",
            first().with_added(0, (1, 0)).with_damaged(1, 2),
        ),
    ]
}

/// Shares beyond the lowest t + 1 that are present are looked at too.
fn more_parties() -> Vec<Held> {
    let five = |party| product().recorded(2, (0, (5, 2))).case(party);
    let seven = |party| product().recorded(3, (0, (7, 3))).case(party);
    vec![
        held(
            "42: n = 5, t = 2, share 5 of 1, 2, 4 and 5",
            five(3).with_sets(&[0b11011]).with_damaged(1, 5),
        ),
        held("42: n = 7, t = 3, share 7", seven(4).with_damaged(2, 7)),
    ]
}

/// LTZ k=2 of three parties opens C, then eight for four products; LTZS does it twice.
fn in_masked() -> Vec<Held> {
    let (d, a, h, k) = (5, 0, 2, 2);
    let load = Load { d: 0 };
    let sign = Work::new(&[load, Ltz { d, a, k }], &[12], &[5]).recorded(60, SMALL);
    let commands = [load, Load { d: 1 }, Ltzs { d, a, h, k }];
    let signs = Work::new(&commands, &[12, 1], &[5, 9]).recorded(61, SMALL);
    vec![
        held("41: C of LTZ", sign.case(1).with_added(0, (1, 0))),
        held(
            "42: in the comparisons of LTZ",
            sign.case(2).with_damaged(4, 3),
        ),
        held("43: the last opening of LTZ", sign.case(3).cut(26)),
        held("43: in the second sign of LTZS", signs.case(1).cut(27 + 4)),
        held(
            "41: C of the second sign of LTZS",
            signs.case(2).with_added(9, (1, 0)),
        ),
    ]
}
