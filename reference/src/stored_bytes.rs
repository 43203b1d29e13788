//! The bytes of stored cases that have lengths of their own: some lengths, then what they are of.

/// A case that was read, and the bytes after it; or what is wrong with it.
type Read<'a, T> = Result<(T, &'a [u8]), String>;

/// The lengths as little-endian words, then the bytes.
pub fn with_lengths(lengths: &[usize], bytes: &[u8]) -> Vec<u8> {
    let words = lengths
        .iter()
        .flat_map(|&length| (length as u32).to_le_bytes());
    words.chain(bytes.iter().copied()).collect()
}

/// Reads the cases that the bytes consist of, one after the other.
pub fn read_each<T>(bytes: &[u8], read_one: fn(&[u8]) -> Read<T>) -> Result<Vec<T>, String> {
    let mut cases = Vec::new();
    let mut rest = bytes;
    while !rest.is_empty() {
        let (case, after) =
            read_one(rest).map_err(|message| format!("case {}: {message}", cases.len()))?;
        cases.push(case);
        rest = after;
    }
    Ok(cases)
}

/// What the tests of every set of stored cases ask.
#[cfg(test)]
pub mod asked {
    use std::fmt::Debug;
    use std::ops::RangeInclusive;

    /// A set of stored cases, their forms as bytes and as lines.
    pub struct Stored<T> {
        pub all: fn() -> Vec<T>,
        pub to_bytes: fn(&T) -> Vec<u8>,
        pub read_all: fn(&[u8]) -> Result<Vec<T>, String>,
        pub lines: fn(&T) -> String,
    }

    impl<T: Debug + PartialEq> Stored<T> {
        pub fn is_always_the_same_and_read_back(&self) {
            let cases = (self.all)();
            assert_eq!(cases, (self.all)());
            let bytes: Vec<u8> = cases.iter().flat_map(self.to_bytes).collect();
            assert_eq!((self.read_all)(&bytes), Ok(cases));
        }

        /// So many cases, and fewer bytes of answers than this.
        pub fn is_within(&self, count: RangeInclusive<usize>, answers: usize) {
            let cases = (self.all)();
            assert!(count.contains(&cases.len()), "{}", cases.len());
            let length: usize = cases.iter().map(|case| (self.lines)(case).len()).sum();
            assert!(length < answers, "{length}");
        }
    }
}
