//! The stored sheets and the drawn ones run BLOCKS at both ends of what it charges exactly.

mod plain;
mod walk;

use plain::{is_in_range, read_back, Plain};
use reference::field::{Field, FIELDS};
use reference::script::command::Command;
use reference::sheets::sheet_for;
use walk::{found, found_in_stored};

/// BLOCKS of a signed number.
#[derive(Clone, Copy, Debug)]
struct Charge {
    p: i64,
    k: u8,
    m: u8,
    a: i64,
}

fn charge(field: &Field, plain: &Plain, command: &Command) -> Option<Charge> {
    let Command::Blocks { a, k, m, .. } = *command else {
        return None;
    };
    Some(Charge {
        p: field.modulus.into(),
        k,
        m,
        a: read_back(field, plain.at(a)),
    })
}

impl Charge {
    /// The sum that BLOCKS takes the floor of, not reduced by p.
    fn sum(&self) -> i64 {
        self.a + (1 << self.m) - 1
    }

    fn is_exact(&self) -> bool {
        is_in_range(self.sum(), self.k)
    }

    /// Whether the sum is out of the range, and in it once p is taken off.
    fn wraps_into_range(&self) -> bool {
        !self.is_exact() && is_in_range(self.sum() - self.p, self.k)
    }

    /// Whether the number so far above is exact.
    fn is_exact_at(&self, distance: i64) -> bool {
        let a = self.a + distance;
        Charge { a, ..*self }.is_exact()
    }

    /// The highest number of the field; the lowest is minus this.
    fn of_field(&self) -> i64 {
        (self.p - 1) / 2
    }
}

/// A kind of number, and whether the one charged is of it.
type Kind = (&'static str, fn(&Charge) -> bool);

const ENDS: [Kind; 4] = [
    ("the highest exact number", |it| {
        it.is_exact() && !it.is_exact_at(1)
    }),
    ("the one above it", |it| {
        !it.is_exact() && it.is_exact_at(-1)
    }),
    ("the lowest exact number of the field", |it| {
        it.is_exact() && (it.a == -it.of_field() || !it.is_exact_at(-1))
    }),
    ("the one below it, if the field has one", |it| {
        it.is_exact() && it.a == -it.of_field() || !it.is_exact() && it.is_exact_at(1)
    }),
];

const OTHERS: [Kind; 5] = [
    ("a block below 0", |it| it.a == -(1 << it.m)),
    ("-1", |it| it.a == -1),
    ("0", |it| it.a == 0),
    ("1", |it| it.a == 1),
    ("the highest number of the field", |it| {
        it.a == it.of_field()
    }),
];

/// The modulus, k and m: at the ends of k and m in every field, and of a tariff with blocks of 64
/// seconds.
fn widths() -> Vec<(i64, u8, u8)> {
    let ends = FIELDS.iter().flat_map(|field| {
        let (p, largest) = (field.modulus.into(), field.largest_k as u8);
        [(p, 2, 1), (p, largest, 1), (p, largest, largest - 1)]
    });
    ends.chain([(65521, 15, 6)]).collect()
}

#[test]
fn stored_sheets_charge_each_kind_of_number() {
    let charges = found_in_stored(charge);
    for width in widths() {
        let with_width = charges.iter().filter(|it| (it.p, it.k, it.m) == width);
        for (name, is_of) in ENDS.into_iter().chain(OTHERS) {
            assert!(with_width.clone().any(is_of), "{width:?}: {name}");
        }
    }
}

/// With the largest k and m in every field but the last, whose highest sum, once p is taken off, is one
/// below the range.
#[test]
fn stored_sheets_charge_numbers_whose_sum_wraps_into_the_range() {
    let charges = found_in_stored(charge);
    let wrapping: Vec<_> = widths()
        .into_iter()
        .filter(|&width| {
            let mut with_width = charges.iter().filter(|it| (it.p, it.k, it.m) == width);
            with_width.any(Charge::wraps_into_range)
        })
        .collect();
    assert_eq!(wrapping, [(13, 3, 2), (251, 7, 6), (65521, 15, 14)]);
    let highest = Charge {
        p: 2147483647,
        k: 30,
        m: 29,
        a: 1073741823,
    };
    assert_eq!(highest.sum() - highest.p, -(1 << 29) - 1);
}

#[test]
fn drawn_sheets_charge_numbers_at_both_ends() {
    let drawn = (0..20_000).flat_map(|index| found(&sheet_for(11, index), charge));
    let charges: Vec<Charge> = drawn.collect();
    for (number, field) in FIELDS.iter().enumerate() {
        let in_field = charges.iter().filter(|it| it.p == field.modulus.into());
        for (name, is_of) in ENDS {
            let count = in_field.clone().filter(|it| is_of(it)).count();
            assert!(count >= 10, "field {number}, {name}: {count}");
        }
        let wrapping = in_field.filter(|it| it.wraps_into_range()).count();
        assert_eq!(wrapping > 0, number < 3, "field {number}: {wrapping}");
    }
}
