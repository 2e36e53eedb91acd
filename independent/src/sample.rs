//! Records and damage to make seasons, examples and vectors of.

use std::io::{self, Write};

use crate::air::{air_index, AIR_BITS, WORDS};
use crate::crc::crc13;
use crate::header::{Field, Header};
use crate::rng::Rng;
use crate::rules::Edition;
use crate::word::{MOST_FLIPS, POSITIONS};

/// The longest run of neighbouring air bits that is always repaired: three in each of fourteen words.
pub const LONGEST_BURST: usize = WORDS * MOST_FLIPS as usize;

/// A record of the listing's input.
#[derive(Clone, Debug, PartialEq, Eq)]
pub struct Record {
    /// The header's elements.
    pub header: [u8; AIR_BITS],
    /// The payload, at most 65,535 bytes.
    pub payload: Vec<u8>,
}

impl Record {
    /// The clean record of a header and its payload.
    pub fn new(header: &Header, payload: Vec<u8>) -> Record {
        Record {
            header: header.to_air(),
            payload,
        }
    }

    /// "A two-byte length, high byte first, 210 header bytes, that many payload bytes."
    pub fn write_to(&self, out: &mut impl Write) -> io::Result<()> {
        out.write_all(&(self.payload.len() as u16).to_be_bytes())?;
        out.write_all(&self.header)?;
        out.write_all(&self.payload)
    }
}

/// Sets PduLength and CRC13 to those of the payload, then CRC5 to that of the edition.
pub fn seal(edition: Edition, header: &mut Header, payload: &[u8]) {
    header[Field::PduLength] = payload.len() as u16;
    header[Field::Crc13] = crc13(payload);
    header[Field::Crc5] = header.crc5(edition);
}

/// Makes a payload of 12 bytes or more look like an EPS page with a time tag (001, Table 6). CRC14 and
/// the time tag stay as they were.
pub fn dress_as_page(payload: &mut [u8]) {
    let user = payload.len() - 12;
    payload[0] = 0xF3;
    payload[1] = 0x50;
    payload[2] &= 0x3F;
    payload[4] = 9 << 2;
    payload[5] = 0;
    // not urgent, CRC used, single frame, absolute time stamp
    payload[6] = 0b0010_1100 | (user >> 8 & 3) as u8;
    payload[7] = user as u8;
}

/// Flips a position of a word.
pub fn flip(air: &mut [u8; AIR_BITS], word: usize, position: usize) {
    air[air_index(word, position)] ^= 1;
}

/// Flips the positions of a word that are set in the pattern.
pub fn flip_pattern(air: &mut [u8; AIR_BITS], word: usize, pattern: u16) {
    for position in (0..POSITIONS).filter(|i| pattern >> i & 1 == 1) {
        flip(air, word, position);
    }
}

/// Flips so many different positions of a word.
pub fn flip_some(rng: &mut Rng, air: &mut [u8; AIR_BITS], word: usize, count: u32) {
    let mut pattern = 0u16;
    while pattern.count_ones() < count.min(POSITIONS as u32) {
        pattern |= 1 << rng.below(POSITIONS as u32);
    }
    flip_pattern(air, word, pattern);
}

/// Flips every bit of a run of neighbouring air bits.
pub fn burst(air: &mut [u8; AIR_BITS], start: usize, length: usize) {
    for bit in &mut air[start..start + length] {
        *bit ^= 1;
    }
}

#[cfg(test)]
mod tests {
    use super::*;
    use crate::page::read_page;

    #[test]
    fn a_dressed_payload_is_a_page() {
        for length in [46, 62, 300, 1_023] {
            let mut payload = Rng::new(5).bytes(length);
            dress_as_page(&mut payload);
            let page = read_page(&payload).unwrap();
            assert_eq!(page.fsync, 0b11_1100_1101_0100_0000);
            assert_eq!((page.fcid_major, page.later.end), (9, length));
        }
    }

    #[test]
    fn so_many_positions_are_flipped() {
        let mut rng = Rng::new(3);
        for count in 0..=15 {
            let mut air = [0; AIR_BITS];
            flip_some(&mut rng, &mut air, 6, count);
            let ones = air.iter().filter(|&&bit| bit == 1).count();
            assert_eq!(ones, count as usize);
            assert!((0..AIR_BITS).all(|n| n % 14 == 6 || air[n] == 0));
        }
    }
}
