//! One call of an entry, and its form as 28 little-endian 32-bit words.

const WORDS: usize = 28;
pub const BYTES: usize = 4 * WORDS;
/// The most numbers that a list in a case can have.
pub const LONGEST: usize = 9;

const KIND: usize = 0;
const FIELD: usize = 1;
const PARTIES_OR_K: usize = 2;
const THRESHOLD: usize = 3;
const SECRET_OR_VALUE: usize = 4;
const NEGATIVE: usize = 5;
const MAGNITUDE_LOW: usize = 6;
const MAGNITUDE_HIGH: usize = 7;
const GIVEN: usize = 8;
const LENT: usize = 18;

#[derive(Clone, Debug, PartialEq)]
pub enum Case {
    Share(ShareCase),
    Recover(RecoverCase),
    Encode { field: u32, k: u32, a: i64 },
    Decode { field: u32, v: u32 },
    Sum(SumCase),
}

#[derive(Clone, Debug, PartialEq)]
pub struct ShareCase {
    pub field: u32,
    pub parties: u32,
    pub threshold: u32,
    pub secret: u32,
    pub coefficients: Vec<u32>,
    /// The lent list's content before the call.
    pub lent: Vec<u32>,
}

#[derive(Clone, Debug, PartialEq)]
pub struct RecoverCase {
    pub field: u32,
    pub parties: u32,
    pub threshold: u32,
    pub row: Vec<u32>,
    /// The lent list's content before the call.
    pub lent: Vec<u32>,
}

#[derive(Clone, Debug, PartialEq)]
pub struct SumCase {
    pub field: u32,
    pub parties: u32,
    pub threshold: u32,
    pub row: Vec<u32>,
}

impl Case {
    pub fn to_bytes(&self) -> Vec<u8> {
        self.words()
            .iter()
            .flat_map(|word| word.to_le_bytes())
            .collect()
    }

    fn words(&self) -> [u32; WORDS] {
        let mut words = [0; WORDS];
        match self {
            Case::Share(case) => {
                let start = [0, case.field, case.parties, case.threshold, case.secret];
                words[..5].copy_from_slice(&start);
                put_list(&mut words, GIVEN, &case.coefficients);
                put_list(&mut words, LENT, &case.lent);
            }
            Case::Recover(case) => {
                let start = [1, case.field, case.parties, case.threshold];
                words[..4].copy_from_slice(&start);
                put_list(&mut words, GIVEN, &case.row);
                put_list(&mut words, LENT, &case.lent);
            }
            Case::Encode { field, k, a } => {
                words[..3].copy_from_slice(&[2, *field, *k]);
                put_signed(&mut words, *a);
            }
            Case::Decode { field, v } => {
                words[..5].copy_from_slice(&[3, *field, 0, 0, *v]);
            }
            Case::Sum(case) => {
                let start = [4, case.field, case.parties, case.threshold];
                words[..4].copy_from_slice(&start);
                put_list(&mut words, GIVEN, &case.row);
            }
        }
        words
    }

    fn from_words(words: &[u32; WORDS]) -> Result<Case, String> {
        let field = words[FIELD];
        match words[KIND] {
            0 => Ok(Case::Share(ShareCase {
                field,
                parties: words[PARTIES_OR_K],
                threshold: words[THRESHOLD],
                secret: words[SECRET_OR_VALUE],
                coefficients: take_list(words, GIVEN)?,
                lent: take_list(words, LENT)?,
            })),
            1 => Ok(Case::Recover(RecoverCase {
                field,
                parties: words[PARTIES_OR_K],
                threshold: words[THRESHOLD],
                row: take_list(words, GIVEN)?,
                lent: take_list(words, LENT)?,
            })),
            2 => Ok(Case::Encode {
                field,
                k: words[PARTIES_OR_K],
                a: take_signed(words)?,
            }),
            3 => Ok(Case::Decode {
                field,
                v: words[SECRET_OR_VALUE],
            }),
            4 => Ok(Case::Sum(SumCase {
                field,
                parties: words[PARTIES_OR_K],
                threshold: words[THRESHOLD],
                row: take_list(words, GIVEN)?,
            })),
            kind => Err(format!("kind {kind} is above 4")),
        }
    }
}

/// Reads the cases that the bytes consist of.
pub fn read_all(bytes: &[u8]) -> Result<Vec<Case>, String> {
    if !bytes.len().is_multiple_of(BYTES) {
        let length = bytes.len();
        return Err(format!("{length} bytes are not a multiple of {BYTES}"));
    }
    bytes
        .chunks_exact(BYTES)
        .enumerate()
        .map(|(index, chunk)| {
            let mut words = [0; WORDS];
            for (word, four) in words.iter_mut().zip(chunk.chunks_exact(4)) {
                *word = u32::from_le_bytes([four[0], four[1], four[2], four[3]]);
            }
            Case::from_words(&words).map_err(|message| format!("case {index}: {message}"))
        })
        .collect()
}

fn put_list(words: &mut [u32; WORDS], place: usize, list: &[u32]) {
    assert!(list.len() <= LONGEST, "a list of a case is too long");
    words[place] = list.len() as u32;
    words[place + 1..][..list.len()].copy_from_slice(list);
}

fn take_list(words: &[u32; WORDS], place: usize) -> Result<Vec<u32>, String> {
    let length = words[place] as usize;
    if length > LONGEST {
        return Err(format!("list length {length} is above {LONGEST}"));
    }
    Ok(words[place + 1..][..length].to_vec())
}

/// The magnitude of a negative number is -(a + 1), which is the complement of a's bits
/// and fits for every a.
fn put_signed(words: &mut [u32; WORDS], a: i64) {
    let magnitude = (if a < 0 { !a } else { a }) as u64;
    words[NEGATIVE] = u32::from(a < 0);
    words[MAGNITUDE_LOW] = magnitude as u32;
    words[MAGNITUDE_HIGH] = (magnitude >> 32) as u32;
}

fn take_signed(words: &[u32; WORDS]) -> Result<i64, String> {
    let magnitude = u64::from(words[MAGNITUDE_HIGH]) << 32 | u64::from(words[MAGNITUDE_LOW]);
    let magnitude =
        i64::try_from(magnitude).map_err(|_| format!("magnitude {magnitude} is not below 2^63"))?;
    match words[NEGATIVE] {
        0 => Ok(magnitude),
        1 => Ok(-1 - magnitude),
        sign => Err(format!("sign {sign} is above 1")),
    }
}

#[cfg(test)]
mod tests {
    use super::*;

    #[test]
    fn words_have_their_places() {
        let case = Case::Share(ShareCase {
            field: 1,
            parties: 3,
            threshold: 2,
            secret: 4,
            coefficients: vec![5, 6],
            lent: vec![7; 9],
        });
        let mut words = [0; WORDS];
        words[..5].copy_from_slice(&[0, 1, 3, 2, 4]);
        words[8..11].copy_from_slice(&[2, 5, 6]);
        words[18] = 9;
        words[19..].fill(7);
        assert_eq!(case.words(), words);
        assert_eq!(case.to_bytes().len(), BYTES);
    }

    #[test]
    fn a_sum_has_no_lent_list() {
        let case = Case::Sum(SumCase {
            field: 3,
            parties: 4,
            threshold: 1,
            row: vec![5, 6, 7, 8],
        });
        let mut words = [0; WORDS];
        words[..4].copy_from_slice(&[4, 3, 4, 1]);
        words[8..13].copy_from_slice(&[4, 5, 6, 7, 8]);
        assert_eq!(case.words(), words);
        assert_eq!(Case::from_words(&words), Ok(case));
    }

    #[test]
    fn signed_numbers_keep_their_value() {
        for (a, sign, low, high) in [
            (0, 0, 0, 0),
            (-1, 1, 0, 0),
            (-4, 1, 3, 0),
            (1 << 32, 0, 0, 1),
            (i64::MAX, 0, u32::MAX, u32::MAX >> 1),
            (i64::MIN, 1, u32::MAX, u32::MAX >> 1),
        ] {
            let case = Case::Encode { field: 0, k: 2, a };
            let words = case.words();
            assert_eq!(words[5..8], [sign, low, high]);
            assert_eq!(Case::from_words(&words), Ok(case));
        }
    }

    #[test]
    fn refuses_bytes_that_are_no_cases() {
        assert_eq!(read_all(&[]), Ok(vec![]));
        assert!(read_all(&[0; BYTES - 1]).is_err());
        assert!(read_all(&[0; BYTES + 1]).is_err());
        for (word, value) in [(KIND, 5), (GIVEN, 10), (LENT, 10)] {
            let mut bytes = [0; BYTES];
            bytes[4 * word] = value;
            assert!(read_all(&bytes).is_err(), "word {word}");
        }
    }

    #[test]
    fn refuses_signed_numbers_without_a_value() {
        let mut words = Case::Encode {
            field: 0,
            k: 2,
            a: i64::MIN,
        }
        .words();
        words[NEGATIVE] = 2;
        assert!(Case::from_words(&words).is_err());
        words[NEGATIVE] = 1;
        words[MAGNITUDE_HIGH] = 1 << 31;
        assert!(Case::from_words(&words).is_err());
    }
}
