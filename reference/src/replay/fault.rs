//! What can be changed in a replay.

use super::case::{Case, LONGEST_RECORD};
use super::recorded::Recorded;
use crate::cases::generator::Generator;
use crate::field::FIELDS;
use crate::forecast::fault;
use crate::present::permitted;

/// One change of the case. The recorded run says what the header was, which may be changed already.
pub fn drawn(generator: &mut Generator, recorded: &Recorded, mut case: Case) -> Case {
    let parties = recorded.parts.len();
    match generator.below(32) {
        0..=5 => in_number(generator, recorded, case),
        6..=9 => in_opening(generator, recorded, case),
        10..=12 => absent(generator, recorded, case),
        13..=16 => cut(generator, parties, case),
        17 => longer(generator, case),
        18..=21 => in_share(generator, recorded, case),
        22 => in_part_length(generator, case),
        23 => {
            let other = generator.below(parties as u32) as usize;
            case.with_part(&recorded.parts[other])
        }
        24..=25 => in_party(generator, parties as u32, case),
        26 => {
            fault::in_counts(generator, &mut case.head);
            case
        }
        27 => fewer(generator, recorded, case),
        28..=29 => {
            fault::in_script(generator, &mut case.head);
            case
        }
        30 => {
            fault::in_header(generator, &mut case.head);
            case
        }
        _ => {
            fault::in_length(generator, &mut case.head);
            case
        }
    }
}

fn modulus(recorded: &Recorded) -> u32 {
    FIELDS[usize::from(recorded.head[0])].modulus
}

/// A place of the record, often one of the first.
fn place(generator: &mut Generator, length: usize) -> usize {
    let bound = match generator.below(2) {
        0 => length.min(12),
        _ => length,
    };
    generator.below(bound as u32) as usize
}

/// A number of the record becomes p, one above p, its neighbour or any below p.
fn in_number(generator: &mut Generator, recorded: &Recorded, mut case: Case) -> Case {
    if case.record.is_empty() {
        return case;
    }
    let p = modulus(recorded);
    let place = place(generator, case.record.len());
    let number = case.record[place];
    case.record[place] = match generator.below(8) {
        0..=1 => p,
        2 => generator.pick(&[p + 1, p + 2, u32::MAX, 1 << 31]),
        3 => number ^ 1 << generator.below(32),
        4..=5 => (number.min(p - 1) + 1) % p,
        _ => generator.below(p),
    };
    case
}

/// All shares of an opening that are present are moved along a line, so that they are on one polynomial still;
/// at times the own share stays.
fn in_opening(generator: &mut Generator, recorded: &Recorded, mut case: Case) -> Case {
    let (n, p) = (recorded.parts.len(), u64::from(modulus(recorded)));
    let openings = case.record.len() / n;
    if openings == 0 {
        return case;
    }
    let opening = place(generator, openings);
    let slope = u64::from(generator.below(p as u32));
    let constant = match generator.below(2) {
        0 => u64::from(generator.below(p as u32)),
        _ => slope * (p - u64::from(case.party) % p) % p,
    };
    for (party, share) in (1..).zip(&mut case.record[n * opening..][..n]) {
        let moved = (u64::from(*share) + constant + slope * party % p) % p;
        if u64::from(*share) < p {
            *share = moved as u32;
        }
    }
    case
}

/// Other parties are absent too in some openings, or in all: a permitted set, or any.
fn absent(generator: &mut Generator, recorded: &Recorded, mut case: Case) -> Case {
    let (n, p) = (recorded.parts.len(), modulus(recorded));
    let sets = permitted(n, recorded.head[2].into());
    let often = generator.pick(&[1, 1, 2, 5]);
    for row in case.record.chunks_mut(n) {
        let any = generator.below(1 << n) as u8;
        let good = generator.pick(&sets);
        let set = match generator.below(16) {
            0 => any,
            _ => good,
        };
        if generator.below(often) == 0 {
            for (party, share) in row.iter_mut().enumerate() {
                if set >> party & 1 == 0 {
                    *share = p;
                }
            }
        }
    }
    case
}

/// Cut anywhere, between two openings, or by the last numbers.
fn cut(generator: &mut Generator, parties: usize, case: Case) -> Case {
    let length = case.record.len();
    let any = generator.below(length as u32 + 1) as usize;
    let length = match generator.below(4) {
        0 => any - any % parties,
        1 => length.saturating_sub(1 + generator.below(parties as u32) as usize),
        _ => any,
    };
    case.cut(length)
}

fn longer(generator: &mut Generator, case: Case) -> Case {
    let numbers: Vec<u32> = (0..generator.below(9))
        .map(|_| generator.any() as u32)
        .collect();
    let room = LONGEST_RECORD.saturating_sub(case.record.len());
    let count = numbers.len().min(room);
    case.followed_by(&numbers[..count])
}

/// A share of the part becomes another below p, p, or one above.
fn in_share(generator: &mut Generator, recorded: &Recorded, case: Case) -> Case {
    let shares = case.part.len() / 4;
    if shares == 0 {
        return case;
    }
    let p = modulus(recorded);
    let index = place(generator, shares);
    let share = match generator.below(4) {
        0 => generator.pick(&[p, p, p + 1, u32::MAX]),
        _ => generator.below(p),
    };
    case.with_share(index, share)
}

fn in_part_length(generator: &mut Generator, mut case: Case) -> Case {
    let length = case.part.len();
    match generator.below(4) {
        0 => case.part.push(0),
        1 => case.part.extend([0; 4]),
        2 => case.part.truncate(length.saturating_sub(4)),
        _ => drop(case.part.pop()),
    }
    case
}

fn in_party(generator: &mut Generator, parties: u32, case: Case) -> Case {
    let any = generator.any() as u32;
    let party = match generator.below(4) {
        0 => generator.pick(&[0, parties + 1, 8, 256 + case.party, any]),
        _ => 1 + generator.below(parties),
    };
    case.with_party(party)
}

/// The last triple goes, from the header's count and from the part.
fn fewer(generator: &mut Generator, recorded: &Recorded, mut case: Case) -> Case {
    let count = u16::from_le_bytes([recorded.head[7], recorded.head[8]]);
    let is_as_recorded = case.head == recorded.head;
    let length = case.part.len();
    if count == 0 || length < 12 || !is_as_recorded {
        return case;
    }
    let gone = 1 + generator.below(u32::from(count).min(3)) as u16;
    let gone = gone.min((length / 12) as u16);
    case.part.truncate(length - 12 * usize::from(gone));
    let [low, high] = (count - gone).to_le_bytes();
    case.with_byte(7, low).with_byte(8, high)
}
