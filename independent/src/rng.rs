//! A small generator of numbers that gives the same sequence on every machine.
//!
//! It is splitmix64: the state, a 64-bit number that starts as the seed, grows by 0x9E3779B97F4A7C15
//! at each call, and the answer is the new state z mixed by
//!
//! ```text
//! z = (z xor z >> 30) * 0xBF58476D1CE4E5B9
//! z = (z xor z >> 27) * 0x94D049BB133111EB
//! z =  z xor z >> 31
//! ```
//!
//! all modulo 2^64.

use std::ops::RangeInclusive;

/// The generator; its state is all there is to it.
#[derive(Clone, Debug)]
pub struct Rng {
    state: u64,
}

impl Rng {
    /// A generator that starts from this seed.
    pub fn new(seed: u64) -> Rng {
        Rng { state: seed }
    }

    /// The next 64 bits.
    pub fn next_u64(&mut self) -> u64 {
        self.state = self.state.wrapping_add(0x9E37_79B9_7F4A_7C15);
        let mut z = self.state;
        z = (z ^ z >> 30).wrapping_mul(0xBF58_476D_1CE4_E5B9);
        z = (z ^ z >> 27).wrapping_mul(0x94D0_49BB_1331_11EB);
        z ^ z >> 31
    }

    /// A number below `bound`: the upper 32 bits times `bound`, div 2^32.
    pub fn below(&mut self, bound: u32) -> u32 {
        (((self.next_u64() >> 32) * u64::from(bound)) >> 32) as u32
    }

    /// A number of this range.
    pub fn within(&mut self, range: RangeInclusive<u32>) -> u32 {
        range.start() + self.below(range.end() - range.start() + 1)
    }

    /// True one time in so many.
    pub fn one_in(&mut self, times: u32) -> bool {
        self.below(times) == 0
    }

    /// One of a mixture, by its weight.
    pub fn pick<T: Copy>(&mut self, mixture: &[(T, u32)]) -> T {
        let mut left = self.below(mixture.iter().map(|(_, weight)| weight).sum());
        for &(one, weight) in mixture {
            if left < weight {
                return one;
            }
            left -= weight;
        }
        unreachable!("a number below the sum of all weights falls to one of them")
    }

    /// Fills with bytes, eight from each number, its high byte first.
    pub fn fill(&mut self, bytes: &mut [u8]) {
        for chunk in bytes.chunks_mut(8) {
            chunk.copy_from_slice(&self.next_u64().to_be_bytes()[..chunk.len()]);
        }
    }

    /// So many bytes.
    pub fn bytes(&mut self, length: usize) -> Vec<u8> {
        let mut bytes = vec![0; length];
        self.fill(&mut bytes);
        bytes
    }
}

#[cfg(test)]
mod tests {
    use super::*;

    #[test]
    fn published_numbers_of_splitmix64() {
        let mut rng = Rng::new(1_234_567);
        let first: Vec<u64> = (0..5).map(|_| rng.next_u64()).collect();
        let published = [
            6_457_827_717_110_365_317,
            3_203_168_211_198_807_973,
            9_817_491_932_198_370_423,
            4_593_380_528_125_082_431,
            16_408_922_859_458_223_821,
        ];
        assert_eq!(first, published);
    }

    #[test]
    fn numbers_stay_in_their_range() {
        let mut rng = Rng::new(0);
        let mut seen = [false; 6];
        for _ in 0..1_000 {
            seen[rng.within(0..=5) as usize] = true;
            assert!((7..=9).contains(&rng.within(7..=9)));
        }
        assert_eq!(seen, [true; 6]);
    }
}
