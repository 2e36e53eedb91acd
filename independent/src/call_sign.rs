//! The call signs of the four S-NET satellites, and the 48 bits that spell one.

/// The call signs of A to D. "Table 2 of 001 prints a letter O; the digit of its Table 1 is right."
pub const CALL_SIGNS: [&str; 4] = ["DP0TBB", "DP0TBC", "DP0TBD", "DP0TBE"];

/// "The 48 call sign bits."
pub const CALL_SIGN_BITS: usize = 48;

/// The bits of a satellite's call sign; A is 0. Any number may be handed in: all bits are 0 for one above 3.
pub fn call_sign_bits(satellite: usize) -> [u8; CALL_SIGN_BITS] {
    CALL_SIGNS
        .get(satellite)
        .map_or([0; CALL_SIGN_BITS], |text| spelled(text))
}

/// "Six ASCII characters in reading order, each lowest bit first."
fn spelled(text: &str) -> [u8; CALL_SIGN_BITS] {
    let mut bits = [0; CALL_SIGN_BITS];
    for (eight, character) in bits.chunks_exact_mut(8).zip(text.bytes()) {
        for (i, bit) in eight.iter_mut().enumerate() {
            *bit = character >> i & 1;
        }
    }
    bits
}

#[cfg(test)]
mod tests {
    use super::*;

    #[test]
    fn a_call_sign_is_spelled_character_by_character_lowest_bit_first() {
        // D is 0x44, P 0x50, the digit 0 is 0x30, T 0x54, B 0x42, E 0x45.
        let expected = [
            [0, 0, 1, 0, 0, 0, 1, 0],
            [0, 0, 0, 0, 1, 0, 1, 0],
            [0, 0, 0, 0, 1, 1, 0, 0],
            [0, 0, 1, 0, 1, 0, 1, 0],
            [0, 1, 0, 0, 0, 0, 1, 0],
            [1, 0, 1, 0, 0, 0, 1, 0],
        ];
        assert_eq!(call_sign_bits(3), expected.concat()[..]);
    }

    #[test]
    fn the_four_differ_in_their_last_character_alone() {
        for (satellite, last) in [0x42, 0x43, 0x44, 0x45].into_iter().enumerate() {
            let bits = call_sign_bits(satellite);
            assert_eq!(bits[..40], call_sign_bits(0)[..40]);
            let character: u8 = (0..8).map(|i| bits[40 + i] << i).sum();
            assert_eq!(character, last);
            assert!(bits.iter().all(|&bit| bit <= 1));
        }
    }

    #[test]
    fn a_satellite_above_3_has_no_call_sign() {
        for satellite in [4, 5, 255, usize::MAX] {
            assert_eq!(call_sign_bits(satellite), [0; CALL_SIGN_BITS]);
        }
    }
}
