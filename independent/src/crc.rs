//! The bit-by-bit rule of the checksums, and CRC13.

/// A checksum: so many bits wide, with the polynomial's highest power implied, and no final change.
#[derive(Clone, Copy, Debug)]
pub struct Crc {
    /// Bits of the checksum, at most 16.
    pub width: u32,
    /// The polynomial without its highest power.
    pub polynomial: u16,
    /// What the register holds at first.
    pub start: u16,
}

/// "CRC13: polynomial 0x1CF5 (x^13 implied), start 0x1FFF, no final change."
pub const CRC13: Crc = Crc {
    width: 13,
    polynomial: 0x1CF5,
    start: 0x1FFF,
};

/// "CRC5: polynomial 0x15 (x^5 implied), start 0x1F, no final change."
pub const CRC5: Crc = Crc {
    width: 5,
    polynomial: 0x15,
    start: 0x1F,
};

/// The error field of BEESAT-1, "the CCSDS rule: polynomial 0x1021, start 0xFFFF".
pub const CRC16: Crc = Crc {
    width: 16,
    polynomial: 0x1021,
    start: 0xFFFF,
};

impl Crc {
    /// "From the last to the first, each most significant bit first."
    #[inline(always)]
    pub fn of(&self, bytes: &[u8]) -> u16 {
        self.through(bytes.iter().rev())
    }

    /// From the first byte to the last, each most significant bit first.
    #[inline(always)]
    pub fn in_order(&self, bytes: &[u8]) -> u16 {
        self.through(bytes.iter())
    }

    /// The polynomial is added where the register's top bit differs from the data bit.
    // Inlined always, so that width and polynomial are constants where it is used: whether they are is else left to chance.
    #[inline(always)]
    fn through<'a>(&self, bytes: impl Iterator<Item = &'a u8>) -> u16 {
        let top = self.width - 1;
        let mask = u16::MAX >> (u16::BITS - self.width);
        let mut register = self.start;
        for &byte in bytes {
            for i in (0..u8::BITS).rev() {
                let differ = (register >> top ^ u16::from(byte >> i)) & 1 == 1;
                register = register << 1 & mask;
                if differ {
                    register ^= self.polynomial;
                }
            }
        }
        register
    }
}

/// CRC13 of a payload.
pub fn crc13(payload: &[u8]) -> u16 {
    CRC13.of(payload)
}

#[cfg(test)]
mod tests {
    use super::*;

    #[test]
    fn marked_examples() {
        assert_eq!(crc13(&[]), 0x1FFF);
        assert_eq!(crc13(&[0xFF]), 0x1F00);
        assert_eq!(crc13(&[0xFF, 0xFF]), 0x13D4);
    }

    #[test]
    fn the_published_check_value_of_crc16() {
        // That of CRC-16 with polynomial 0x1021 and start 0xFFFF in the catalogues of checksums.
        assert_eq!(CRC16.in_order(b"123456789"), 0x29B1);
        assert_eq!(CRC16.of(b"987654321"), 0x29B1);
        assert_eq!(CRC16.in_order(&[]), 0xFFFF);
    }

    #[test]
    fn last_byte_goes_in_first() {
        // The start is eaten up by FF; what then follows is a register that byte 0 alone moves.
        assert_ne!(crc13(&[0x00, 0xFF]), crc13(&[0xFF, 0x00]));
        let by_hand = (0..8).fold(0x1F00u16, |r, _| {
            let shifted = r << 1 & 0x1FFF;
            if r & 0x1000 != 0 {
                shifted ^ 0x1CF5
            } else {
                shifted
            }
        });
        assert_eq!(crc13(&[0x00, 0xFF]), by_hand);
    }

    #[test]
    fn the_sum_of_three_payloads_of_one_length_has_the_sum_of_their_checksums() {
        let a = [0x12, 0x34, 0x56, 0x78];
        let b = [0xFE, 0x01, 0x80, 0x7F];
        let c = [0x00, 0xAA, 0x55, 0xFF];
        let sum: Vec<u8> = (0..4).map(|i| a[i] ^ b[i] ^ c[i]).collect();
        assert_eq!(crc13(&sum), crc13(&a) ^ crc13(&b) ^ crc13(&c));
    }
}
