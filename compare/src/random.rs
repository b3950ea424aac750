//! A small generator of numbers that look random. The same seed gives the same numbers everywhere.

use std::ops::RangeInclusive;

/// The state of a generator that shifts and mixes one 64-bit word.
#[derive(Clone, Debug)]
pub struct Random {
    state: u64,
}

impl Random {
    /// A generator that starts from a seed; every seed will do.
    pub fn new(seed: u64) -> Self {
        let mut random = Self {
            state: (seed ^ 0x9E37_79B9_7F4A_7C15).max(1),
        };
        for _ in 0..16 {
            random.word();
        }
        random
    }

    /// The next 64 bits.
    pub fn word(&mut self) -> u64 {
        self.state ^= self.state >> 12;
        self.state ^= self.state << 25;
        self.state ^= self.state >> 27;
        self.state.wrapping_mul(0x2545_F491_4F6C_DD1D)
    }

    /// A number below a limit, which is not 0.
    pub fn below(&mut self, limit: usize) -> usize {
        // The upper half of the word is the better mixed one.
        let upper = usize::try_from(self.word() >> 32).expect("32 bits fit");
        upper % limit
    }

    /// A number of a range.
    pub fn within(&mut self, range: RangeInclusive<usize>) -> usize {
        let (first, last) = range.into_inner();
        first + self.below(last - first + 1)
    }

    /// Yes once in so many times.
    pub fn once_in(&mut self, times: usize) -> bool {
        self.below(times) == 0
    }

    /// A byte.
    pub fn byte(&mut self) -> u8 {
        self.word().to_be_bytes()[0]
    }

    /// A row of bytes.
    pub fn bytes(&mut self, count: usize) -> Vec<u8> {
        (0..count).map(|_| self.byte()).collect()
    }

    /// One of a row, which is not empty.
    pub fn choice<'row, T>(&mut self, row: &'row [T]) -> &'row T {
        &row[self.below(row.len())]
    }
}

#[cfg(test)]
mod tests {
    use super::*;

    #[test]
    fn a_seed_decides_everything() {
        let mut first = Random::new(7);
        let mut second = Random::new(7);
        let mut other = Random::new(8);
        let words: Vec<u64> = (0..50).map(|_| first.word()).collect();
        assert!(words.iter().all(|word| *word == second.word()));
        assert!(words.iter().any(|word| *word != other.word()));
    }

    #[test]
    fn ranges_are_kept_and_reached() {
        let mut random = Random::new(1);
        let mut met = [false; 5];
        for _ in 0..500 {
            met[random.within(3..=7) - 3] = true;
        }
        assert_eq!(met, [true; 5]);
    }
}
