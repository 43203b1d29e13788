//! A fixed sequence of numbers that look random.

pub struct Generator {
    state: u64,
}

impl Generator {
    /// The lowest bit is set, because the state 0 would never change.
    pub fn new(seed: u64) -> Generator {
        Generator { state: seed | 1 }
    }

    /// The sequence with this index, among many of one seed.
    pub fn at(seed: u64, index: u64) -> Generator {
        Generator::new(mixed(seed, index))
    }

    /// Marsaglia's xorshift with a final multiplication; the high bits are the best ones.
    pub fn any(&mut self) -> u64 {
        self.state ^= self.state >> 12;
        self.state ^= self.state << 25;
        self.state ^= self.state >> 27;
        self.state.wrapping_mul(0x2545_F491_4F6C_DD1D)
    }

    /// A number below a bound that is not 0.
    pub fn below(&mut self, bound: u32) -> u32 {
        ((self.any() >> 32) % u64::from(bound)) as u32
    }

    pub fn list(&mut self, length: usize, bound: u32) -> Vec<u32> {
        (0..length).map(|_| self.below(bound)).collect()
    }

    /// One of the choices, of which there is at least one.
    pub fn pick<T: Copy>(&mut self, choices: &[T]) -> T {
        choices[self.below(choices.len() as u32) as usize]
    }
}

/// Numbers far apart for indices next to each other.
fn mixed(seed: u64, index: u64) -> u64 {
    let mut x = seed.wrapping_add(index.wrapping_mul(0x9E37_79B9_7F4A_7C15));
    x = (x ^ (x >> 30)).wrapping_mul(0xBF58_476D_1CE4_E5B9);
    x = (x ^ (x >> 27)).wrapping_mul(0x94D0_49BB_1331_11EB);
    x ^ (x >> 31)
}

#[cfg(test)]
mod tests {
    use super::*;

    #[test]
    fn numbers_stay_below_the_bound_and_reach_all_of_it() {
        let mut generator = Generator::new(1);
        let mut seen = [false; 13];
        for value in generator.list(1000, 13) {
            seen[value as usize] = true;
        }
        assert_eq!(seen, [true; 13]);
    }

    #[test]
    fn same_seed_gives_the_same_numbers() {
        let first = Generator::new(5).list(20, u32::MAX);
        assert_eq!(first, Generator::new(5).list(20, u32::MAX));
        assert_ne!(first, Generator::new(6).list(20, u32::MAX));
    }
}
