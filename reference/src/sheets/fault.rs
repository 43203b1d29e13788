//! What can be wrong with a sheet.

use super::draft::Draft;
use super::wrong;
use crate::cases::generator::Generator;
use crate::dealer::Dealer;
use crate::field::FIELDS;
use crate::row::Row;
use crate::script;

#[derive(Clone, Debug, PartialEq)]
pub enum Fault {
    /// A mask's bit is a sharing of this secret.
    MaskBit {
        mask: usize,
        bit: usize,
        secret: u32,
    },
    /// A mask spells this number.
    MaskNumber { mask: usize, r: u32 },
    /// A triple's c is a sharing of this much more.
    Triple { triple: usize, amount: u32 },
    /// A share is this much more, modulo p, than its row's polynomial says.
    Row {
        row: usize,
        party: usize,
        amount: u32,
    },
    /// A share is this number.
    Share {
        row: usize,
        party: usize,
        value: u32,
    },
    /// The script is another.
    Script(Vec<u8>),
    /// A byte of the sheet is another.
    Byte { place: usize, value: u8 },
    /// One of the header's two-byte counts is another.
    Count { place: usize, count: u16 },
    /// Bytes stand after the sheet.
    Longer(usize),
    /// The sheet ends after this many bytes.
    Cut(usize),
}

/// The sheet's bytes with all the faults. The later kinds leave the earlier ones as they are.
pub fn with_faults(generator: &mut Generator, mut draft: Draft, mut faults: Vec<Fault>) -> Vec<u8> {
    faults.sort_by_key(rank);
    for fault in &faults {
        spoil_draft(generator, &mut draft, fault);
    }
    let mut bytes = draft.to_bytes();
    for fault in &faults {
        spoil_bytes(&mut bytes, fault);
    }
    bytes
}

fn rank(fault: &Fault) -> usize {
    match fault {
        Fault::MaskNumber { .. } => 0,
        Fault::MaskBit { .. } | Fault::Triple { .. } => 1,
        Fault::Row { .. } => 2,
        Fault::Share { .. } => 3,
        Fault::Script(_) => 4,
        Fault::Byte { .. } | Fault::Count { .. } => 5,
        Fault::Longer(_) => 6,
        Fault::Cut(_) => 7,
    }
}

/// Faults in the rows and the script. One that names what is not there does nothing.
fn spoil_draft(generator: &mut Generator, draft: &mut Draft, fault: &Fault) {
    let parties = (u32::from(draft.parties), u32::from(draft.threshold));
    let mut dealer = Dealer::new(generator, u32::from(draft.number), parties);
    match *fault {
        Fault::MaskBit { mask, bit, secret } => {
            if let Some(row) = draft.masks.get_mut(mask).and_then(|rows| rows.get_mut(bit)) {
                *row = dealer.sharing(secret);
            }
        }
        Fault::MaskNumber { mask, r } => {
            if let Some(rows) = draft.masks.get_mut(mask) {
                *rows = dealer.mask(r);
            }
        }
        Fault::Triple { triple, amount } => {
            if let Some(triple) = draft.triples.get_mut(triple) {
                let more = dealer.sharing(amount);
                triple.c = moved(&dealer, &triple.c, &more);
            }
        }
        Fault::Row { row, party, amount } => {
            let p = u64::from(dealer.field.modulus);
            if let Some(share) = share_at(draft, row, party) {
                *share = (*share + u64::from(amount)) % p;
            }
        }
        Fault::Share { row, party, value } => {
            if let Some(share) = share_at(draft, row, party) {
                *share = u64::from(value);
            }
        }
        Fault::Script(ref script) => draft.script.clone_from(script),
        _ => {}
    }
}

fn share_at(draft: &mut Draft, row: usize, party: usize) -> Option<&mut u64> {
    draft.rows_mut().into_iter().nth(row)?.get_mut(party - 1)
}

fn moved(dealer: &Dealer, row: &Row, more: &Row) -> Row {
    let pairs = row.iter().zip(more.iter());
    pairs.map(|(&x, &y)| dealer.field.add(x, y)).collect()
}

/// Faults in the header and the length.
fn spoil_bytes(bytes: &mut Vec<u8>, fault: &Fault) {
    match *fault {
        Fault::Byte { place, value } => bytes[place] = value,
        Fault::Count { place, count } => {
            bytes[place..place + 2].copy_from_slice(&count.to_le_bytes());
        }
        Fault::Longer(more) => bytes.extend(std::iter::repeat_n(0, more)),
        Fault::Cut(length) => bytes.truncate(length),
        _ => {}
    }
}

pub fn draw(generator: &mut Generator, draft: &Draft) -> Fault {
    match generator.below(16) {
        0..=5 => in_rows(generator, draft),
        6..=11 => Fault::Script(broken_script(generator, draft)),
        _ => in_bytes(generator, draft),
    }
}

fn in_rows(generator: &mut Generator, draft: &Draft) -> Fault {
    let field = &FIELDS[usize::from(draft.number)];
    let (p, bits) = (field.modulus, field.bits());
    let mask = generator.below(draft.masks.len().max(1) as u32) as usize;
    let amount = 1 + generator.below(p - 1);
    let rows = draft.clone().rows_mut().len().max(1) as u32;
    let row = generator.below(rows) as usize;
    let party = 1 + generator.below(u32::from(draft.parties)) as usize;
    match generator.below(5) {
        0 => Fault::MaskBit {
            mask,
            bit: generator.below(bits) as usize,
            secret: generator.pick(&[2, p - 1, amount]),
        },
        1 => Fault::MaskNumber {
            mask,
            r: (p + generator.below(3)).min(((1u64 << bits) - 1) as u32),
        },
        2 => Fault::Triple {
            triple: generator.below(draft.triples.len().max(1) as u32) as usize,
            amount,
        },
        3 => Fault::Row { row, party, amount },
        _ => Fault::Share {
            row,
            party,
            value: generator.pick(&[p, p + 1, 1 << 31, u32::MAX]),
        },
    }
}

fn in_bytes(generator: &mut Generator, draft: &Draft) -> Fault {
    let length = draft.to_bytes().len();
    let byte = |place, value| Fault::Byte { place, value };
    let choices = [
        byte(0, 4),
        byte(0, 255),
        byte(0, generator.below(4) as u8),
        byte(1, 2),
        byte(1, 8),
        byte(2, 0),
        byte(2, draft.parties.div_ceil(2)),
        byte(1, draft.parties + 1),
        Fault::Count {
            place: 3,
            count: 65,
        },
        Fault::Count {
            place: 5,
            count: 17,
        },
        Fault::Count {
            place: 7,
            count: 513,
        },
        Fault::Count {
            place: 9,
            count: 1025,
        },
        Fault::Longer(1),
        Fault::Cut(length - 1),
        Fault::Cut(generator.below(12) as usize),
    ];
    choices[generator.below(choices.len() as u32) as usize].clone()
}

fn broken_script(generator: &mut Generator, draft: &Draft) -> Vec<u8> {
    let mut script = draft.script.clone();
    let field = &FIELDS[usize::from(draft.number)];
    let lines = script::read(&script, field).unwrap_or_default();
    let places: Vec<usize> = lines.iter().map(|line| line.place).collect();
    let place = generator.pick(&places);
    match generator.below(8) {
        0 => script.truncate(generator.below(script.len() as u32 + 1) as usize),
        1 => script.extend((0..=generator.below(4)).map(|_| generator.any() as u8)),
        2 => script.truncate(script.len() - 1),
        3 => script[place] = generator.pick(&[0x0F, 0x10, 0x80, 0xFF]),
        4 => script.clear(),
        5 => {
            let any = generator.below(script.len() as u32) as usize;
            script[any] = generator.any() as u8;
        }
        _ => {
            let wrong = wrong::commands(field);
            let bytes = generator.pick(&wrong).to_bytes();
            script.splice(place..place, bytes);
        }
    }
    script
}
