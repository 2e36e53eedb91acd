//! The way of fourteen words over the air.
//!
//! "Bit n of the 210 is position n div 14 of word n mod 14."

use crate::word::POSITIONS;

/// The words of a header.
pub const WORDS: usize = 14;

/// The elements of a header on air, "each 0 or 1".
pub const AIR_BITS: usize = WORDS * POSITIONS;

/// The air bit at which this position of this word travels.
pub const fn air_index(word: usize, position: usize) -> usize {
    position * WORDS + word
}

/// The words that were received; every element is 0 or 1.
pub fn words_of(air: &[u8; AIR_BITS]) -> [u16; WORDS] {
    let mut words = [0; WORDS];
    for (position, row) in air.chunks_exact(WORDS).enumerate() {
        for (word, &bit) in words.iter_mut().zip(row) {
            *word |= u16::from(bit) << position;
        }
    }
    words
}

/// The elements to send.
pub fn air_of(words: &[u16; WORDS]) -> [u8; AIR_BITS] {
    let mut air = [0; AIR_BITS];
    for (position, row) in air.chunks_exact_mut(WORDS).enumerate() {
        for (bit, &word) in row.iter_mut().zip(words) {
            *bit = (word >> position & 1) as u8;
        }
    }
    air
}

#[cfg(test)]
mod tests {
    use super::*;

    #[test]
    fn bit_n_is_position_n_div_14_of_word_n_mod_14() {
        for n in 0..AIR_BITS {
            let mut air = [0; AIR_BITS];
            air[n] = 1;
            let mut words = [0; WORDS];
            words[n % 14] = 1 << (n / 14);
            assert_eq!(words_of(&air), words);
            assert_eq!(air_of(&words), air);
            assert_eq!(air_index(n % 14, n / 14), n);
        }
    }

    #[test]
    fn marked_examples() {
        // "Header bit 0 travels at air bit 196, bit 69 at 153": bit 5j+t stands at position 14-t of word j.
        assert_eq!(air_index(0, 14), 196);
        assert_eq!(air_index(13, 14 - 4), 153);
    }
}
