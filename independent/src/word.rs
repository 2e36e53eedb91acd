//! One coded word of 15 positions: the 32 valid words, and repair by trying them all.
//!
//! "Position i is the coefficient of x^i, and bit i when the word is written as a number."

/// x^10+x^8+x^5+x^4+x^2+x+1.
pub const GENERATOR: u16 = 0x537;

/// The positions of a word.
pub const POSITIONS: usize = 15;

/// Data bits of a word; they stand at its highest positions.
pub const DATA_BITS: usize = 5;

/// Parity bits of a word, below the data.
pub const PARITY_BITS: usize = POSITIONS - DATA_BITS;

/// The largest number that is a word: "a number above 32,767 is no word".
pub const LARGEST: u16 = (1 << POSITIONS) - 1;

/// "A word becomes the valid word that differs in at most three places."
pub const MOST_FLIPS: u32 = 3;

/// "A valid word is a multiple, of degree below 15, of 0x537": the product with each of the 32
/// polynomials of degree below 5.
pub const VALID: [u16; 1 << DATA_BITS] = {
    let mut words = [0; 1 << DATA_BITS];
    let mut factor = 0;
    while factor < words.len() {
        words[factor] = carryless_product(factor as u16, GENERATOR);
        factor += 1;
    }
    words
};

/// The product of two polynomials over one bit, where sums have no carry.
const fn carryless_product(a: u16, b: u16) -> u16 {
    let mut product = 0;
    let mut i = 0;
    while i < u16::BITS {
        if a >> i & 1 == 1 {
            product ^= b << i;
        }
        i += 1;
    }
    product
}

/// The valid words again, each at the place of its own data.
const CODED: [u16; 1 << DATA_BITS] = {
    let mut words = [0; 1 << DATA_BITS];
    let mut i = 0;
    while i < VALID.len() {
        words[data(VALID[i]) as usize] = VALID[i];
        i += 1;
    }
    words
};

/// The five data bits of a word as a number, its highest position first.
pub const fn data(word: u16) -> u16 {
    word >> PARITY_BITS
}

/// The valid word that carries these five data bits; higher bits of `data` are left out.
pub fn encode(data: u16) -> u16 {
    CODED[usize::from(data) % CODED.len()]
}

/// The places in which two words differ.
pub fn distance(a: u16, b: u16) -> u32 {
    (a ^ b).count_ones()
}

/// A valid word and where the received one differs from it.
#[derive(Clone, Copy, Debug, PartialEq, Eq)]
pub struct Repaired {
    /// The valid word.
    pub word: u16,
    /// "The flip pattern itself, a 15-bit number with at most three ones": bit i is set where the two differ at
    /// position i, parity positions among them.
    pub pattern: u16,
}

/// "Tries the 32 valid words and stops at the first one within three"; `None` is beyond repair.
pub fn repair(received: u16) -> Option<Repaired> {
    if received > LARGEST {
        return None;
    }
    VALID.iter().find_map(|&word| {
        let pattern = received ^ word;
        (distance(received, word) <= MOST_FLIPS).then_some(Repaired { word, pattern })
    })
}

#[cfg(test)]
mod tests {
    use super::*;

    fn repaired(word: u16, pattern: u16) -> Option<Repaired> {
        Some(Repaired { word, pattern })
    }

    #[test]
    fn marked_examples() {
        assert_eq!(repair(0), repaired(0, 0));
        assert_eq!(repair(0x537), repaired(0x537, 0));
        assert_eq!(repair(0x7FFF), repaired(0x7FFF, 0));
        // "0x0007 becomes 0 with 3; 0x0017 becomes 0x537 with 3": three ones each.
        assert_eq!(repair(0x0007), repaired(0, 0b000_0000_0000_0111));
        assert_eq!(repair(0x0017), repaired(0x537, 0b000_0101_0010_0000));
        assert_eq!(repair(0x000F), None);
    }

    #[test]
    fn there_are_32_valid_words_and_any_two_differ_in_at_least_7_places() {
        let mut least = u32::MAX;
        for (i, &a) in VALID.iter().enumerate() {
            assert!(a <= LARGEST);
            for &b in &VALID[..i] {
                least = least.min(distance(a, b));
            }
        }
        assert_eq!(least, 7);
    }

    /// The remainder modulo the generator, by long division.
    fn remainder(mut word: u16) -> u16 {
        for i in (PARITY_BITS..POSITIONS).rev() {
            if word >> i & 1 == 1 {
                word ^= GENERATOR << (i - PARITY_BITS);
            }
        }
        word
    }

    #[test]
    fn valid_words_are_those_that_the_generator_divides() {
        for word in 0..=LARGEST {
            assert_eq!(remainder(word) == 0, VALID.contains(&word));
        }
    }

    #[test]
    fn of_1024_remainders_576_are_repaired_and_448_are_beyond() {
        // A word and its remainder differ by a valid word, so both are repaired or neither is.
        for word in 0..=LARGEST {
            let own = repair(word).map(|r| r.pattern);
            let of_remainder = repair(remainder(word)).map(|r| r.pattern);
            assert_eq!(own, of_remainder);
        }
        let within = (0..1 << PARITY_BITS)
            .filter(|&r| repair(r).is_some())
            .count();
        assert_eq!(within, 576);
        assert_eq!((1 << PARITY_BITS) - within, 448);
    }

    #[test]
    fn each_of_the_576_patterns_of_at_most_three_ones_is_given_for_32_words() {
        let mut times = [0; 1 << POSITIONS];
        for pattern in (0..=LARGEST).filter_map(|word| Some(repair(word)?.pattern)) {
            times[usize::from(pattern)] += 1;
        }
        let given: Vec<usize> = (0..times.len()).filter(|&p| times[p] > 0).collect();
        assert_eq!(given.len(), 576);
        assert!(given.iter().all(|&p| times[p] == 32 && p.count_ones() <= 3));
    }

    #[test]
    fn at_most_one_valid_word_is_within_three() {
        for word in 0..=LARGEST {
            let near = VALID.iter().filter(|&&v| distance(word, v) <= MOST_FLIPS);
            assert_eq!(near.count(), usize::from(repair(word).is_some()));
        }
    }

    #[test]
    fn a_number_above_32767_is_beyond_repair() {
        for number in LARGEST + 1..=u16::MAX {
            assert_eq!(repair(number), None);
        }
    }

    #[test]
    fn encode_keeps_its_data_and_gives_valid_words() {
        for d in 0..32 {
            assert_eq!(data(encode(d)), d);
            assert!(VALID.contains(&encode(d)));
        }
    }

    #[test]
    fn every_pattern_of_at_most_three_flips_is_undone_and_told() {
        for &word in &VALID {
            for pattern in (0..=LARGEST).filter(|p| p.count_ones() <= MOST_FLIPS) {
                assert_eq!(repair(word ^ pattern), repaired(word, pattern));
            }
        }
    }

    #[test]
    fn bit_i_of_the_pattern_is_position_i() {
        for &word in &VALID {
            for i in 0..POSITIONS {
                assert_eq!(repair(word ^ 1 << i), repaired(word, 1 << i));
            }
        }
    }
}
