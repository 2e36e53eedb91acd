//! A made-up recording: bits, one a byte, with everything that a search has to tell apart.
//!
//! The stream depends on the options alone. It is noise, and stretches in it that are made of markers and headers ([`Stretch`]).
//! A header stands across each border of so many bits, as a reader that takes pieces has them, and another one at the end: as
//! often as not it lacks some bits there.

use std::io::{self, Write};

use crate::air::{AIR_BITS, WORDS};
use crate::call_sign::{call_sign_bits, CALL_SIGNS};
use crate::header::{crc5, largest, Field, Header, GIVEN};
use crate::rng::Rng;
use crate::rules::{Edition, USUAL_LIMIT};
use crate::sample::{flip_pattern, flip_some, LONGEST_BURST};
use crate::search::{MARKER, MARKER_BITS};

/// What a recording is made by.
#[derive(Clone, Debug)]
pub struct Options {
    /// The seed of all chances.
    pub seed: u64,
    /// The number of bits.
    pub bits: u64,
    /// The most bits of noise between two stretches.
    pub gap: u32,
    /// After the bits a byte above 1, and more bits with a header among them.
    pub bad: bool,
}

/// The most bits of noise between two stretches, where it is not named.
pub const USUAL_GAP: u32 = 1_000;

/// The largest gap that can be named.
pub const LARGEST_GAP: u32 = 60_000;

/// A header stands across each multiple of it.
pub const BORDER: u64 = 65_536;

/// The bits of a marker and its header.
pub const SENT_BITS: usize = MARKER_BITS + AIR_BITS;

/// No stretch has more bits.
const LONGEST: u64 = 1_200;

/// Writes a recording.
pub fn write_recording(options: &Options, out: &mut impl Write) -> io::Result<()> {
    let mut maker = Maker {
        rng: Rng::new(options.seed),
        gap: options.gap,
        made: 0,
        border: BORDER,
    };
    // The last header is there all but so many bits, as far as there is room for it.
    let missing = if maker.rng.one_in(2) {
        0
    } else {
        maker.rng.within(1..=AIR_BITS as u32 + 8) as u64
    };
    let last = options.bits.saturating_sub(SENT_BITS as u64 - missing);
    while maker.made < last {
        let mut bits = maker.next_bits();
        bits.truncate((last - maker.made).min(bits.len() as u64) as usize);
        maker.made += bits.len() as u64;
        out.write_all(&bits)?;
    }
    let mut end = maker.sent();
    end.truncate((options.bits - last) as usize);
    out.write_all(&end)?;
    if options.bad {
        out.write_all(&[maker.rng.within(2..=255) as u8])?;
        out.write_all(&maker.noise(40))?;
        out.write_all(&maker.sent())?;
    }
    Ok(())
}

/// What stands in the noise.
#[derive(Clone, Copy, Debug, PartialEq, Eq)]
enum Stretch {
    /// A marker and its header.
    Bare,
    /// Bit synchronisation, call sign, marker, header and bits of a payload, as 001 has them.
    AirFrame,
    /// A header behind a marker of which one to three bits are flipped.
    DamagedMarker,
    /// A header behind a marker that is sent highest bit first.
    BackwardMarker,
    /// A header behind a marker that lacks its first bit or its last.
    ShortMarker,
    /// A header, and a second marker inside of its bits.
    MarkerInside,
    /// A marker and its header, and from somewhere in them on another marker and its header.
    Overlapping,
    /// Markers one behind the other, and a header.
    Chain,
    /// The same bit over and over, or two in turn.
    Even,
}

/// The stretches with their weights.
const STRETCHES: [(Stretch, u32); 9] = [
    (Stretch::Bare, 6),
    (Stretch::AirFrame, 6),
    (Stretch::DamagedMarker, 3),
    (Stretch::BackwardMarker, 1),
    (Stretch::ShortMarker, 1),
    (Stretch::MarkerInside, 3),
    (Stretch::Overlapping, 4),
    (Stretch::Chain, 2),
    (Stretch::Even, 1),
];

/// What is wrong with a header.
#[derive(Clone, Copy, Debug, PartialEq, Eq)]
enum Trouble {
    /// Nothing.
    Clean,
    /// One to three flips in some words.
    Light,
    /// As many flips as the search believes, or one less or more.
    AtLimit,
    /// Three flips in every word.
    ThreeEverywhere,
    /// Four flips in a word, beyond repair.
    Beyond,
    /// A wrong CRC5.
    Crc5,
    /// SrcId 8 to 127.
    Source,
    /// AiTypeSrc 4 to 15.
    AirType,
    /// 210 bits by chance.
    Noise,
}

/// The troubles with their weights.
const TROUBLES: [(Trouble, u32); 9] = [
    (Trouble::Clean, 8),
    (Trouble::Light, 6),
    (Trouble::AtLimit, 5),
    (Trouble::ThreeEverywhere, 1),
    (Trouble::Beyond, 2),
    (Trouble::Crc5, 2),
    (Trouble::Source, 2),
    (Trouble::AirType, 2),
    (Trouble::Noise, 1),
];

/// A pattern that no valid word is within three flips of, whichever word it is added to.
const BEYOND: u16 = 0x000F;

/// The bits of a marker, "its lowest bit sent first".
fn marker() -> Vec<u8> {
    (0..MARKER_BITS).map(|i| (MARKER >> i & 1) as u8).collect()
}

/// The state between stretches.
struct Maker {
    rng: Rng,
    gap: u32,
    /// Bits that were made.
    made: u64,
    /// The next border without a header across it.
    border: u64,
}

impl Maker {
    /// Noise, and a stretch: one across the next border where that is near.
    fn next_bits(&mut self) -> Vec<u8> {
        let before = self.border - self.made;
        if before <= u64::from(self.gap) + LONGEST + SENT_BITS as u64 {
            self.border += BORDER;
            let across = self.bits_before_border();
            let mut bits = self.noise((before as usize).saturating_sub(across));
            bits.extend(self.sent());
            return bits;
        }
        let gap = self.rng.within(0..=self.gap) as usize;
        let mut bits = self.noise(gap);
        let stretch = self.rng.pick(&STRETCHES);
        bits.extend(self.stretch(stretch));
        bits
    }

    /// How many bits of a marker and its header stand before a border: any number, or one at an end of either, or beside it.
    fn bits_before_border(&mut self) -> usize {
        let (marker, sent) = (MARKER_BITS, SENT_BITS);
        let telling = [
            0,
            1,
            marker - 1,
            marker,
            marker + 1,
            AIR_BITS - 1,
            AIR_BITS,
            AIR_BITS + 1,
            sent - 1,
            sent,
        ];
        if self.rng.one_in(2) {
            telling[self.rng.below(telling.len() as u32) as usize]
        } else {
            self.rng.within(0..=sent as u32) as usize
        }
    }

    fn noise(&mut self, length: usize) -> Vec<u8> {
        (0..length).map(|_| self.rng.below(2) as u8).collect()
    }

    /// A marker and its header.
    fn sent(&mut self) -> Vec<u8> {
        [marker(), self.header().to_vec()].concat()
    }

    fn stretch(&mut self, stretch: Stretch) -> Vec<u8> {
        match stretch {
            Stretch::Bare => self.sent(),
            Stretch::AirFrame => self.air_frame(),
            Stretch::DamagedMarker => self.damaged_marker(),
            Stretch::BackwardMarker => {
                let mut bits = self.sent();
                bits[..MARKER_BITS].reverse();
                bits
            }
            Stretch::ShortMarker => {
                let mut bits = self.sent();
                let lost = [0, MARKER_BITS - 1][self.rng.below(2) as usize];
                bits.remove(lost);
                bits
            }
            Stretch::MarkerInside => self.marker_inside(),
            Stretch::Overlapping => self.overlapping(),
            Stretch::Chain => {
                let mut bits = marker().repeat(self.rng.within(1..=5) as usize);
                bits.extend(self.sent());
                bits
            }
            Stretch::Even => {
                let length = self.rng.within(1..=LONGEST as u32) as usize;
                let turn = [[0, 0], [1, 1], [0, 1]][self.rng.below(3) as usize];
                turn.into_iter().cycle().take(length).collect()
            }
        }
    }

    fn damaged_marker(&mut self) -> Vec<u8> {
        let mut bits = self.sent();
        let first = self.rng.below(MARKER_BITS as u32) as usize;
        for further in 0..self.rng.within(1..=3) as usize {
            bits[(first + 5 * further) % MARKER_BITS] ^= 1;
        }
        bits
    }

    /// Of each word three bits at most are written over, so it can be repaired where nothing else is wrong.
    fn marker_inside(&mut self) -> Vec<u8> {
        let mut bits = self.sent();
        let last = SENT_BITS - MARKER_BITS;
        let place = self.rng.within(MARKER_BITS as u32..=last as u32) as usize;
        bits[place..place + MARKER_BITS].copy_from_slice(&marker());
        bits.extend(self.noise(AIR_BITS));
        bits
    }

    /// Two times in three the first header can be repaired: no more than its last bits are lost, three of each word.
    fn overlapping(&mut self) -> Vec<u8> {
        let mut bits = self.sent();
        let least = if self.rng.one_in(3) {
            MARKER_BITS
        } else {
            SENT_BITS - LONGEST_BURST
        };
        let kept = self.rng.within(least as u32..=SENT_BITS as u32 - 1);
        bits.truncate(kept as usize);
        bits.extend(self.sent());
        bits
    }

    /// "BitSync 24, CallSign 48, FrSync 32", the header, the payload.
    fn air_frame(&mut self) -> Vec<u8> {
        let satellite = self.rng.below(CALL_SIGNS.len() as u32) as usize;
        let mut bits = [0, 1].repeat(12);
        bits.extend(call_sign_bits(satellite));
        bits.extend(self.sent());
        let payload = self.rng.within(0..=600) as usize;
        bits.extend(self.noise(payload));
        bits
    }

    /// A header with one trouble, or two.
    fn header(&mut self) -> [u8; AIR_BITS] {
        let mut troubles = vec![self.rng.pick(&TROUBLES)];
        if self.rng.one_in(6) {
            troubles.push(self.rng.pick(&TROUBLES));
        }
        let mut header = self.fields();
        for &trouble in &troubles {
            match trouble {
                Trouble::Source => header[Field::SrcId] = self.rng.within(8..=127) as u16,
                Trouble::AirType => header[Field::AiTypeSrc] = self.rng.within(4..=15) as u16,
                _ => {}
            }
        }
        let edition = if self.rng.one_in(3) {
            Edition::Corrected
        } else {
            Edition::Flown
        };
        header[Field::Crc5] = crc5(edition, header.to_bits());
        if troubles.contains(&Trouble::Crc5) {
            header[Field::Crc5] ^= self.rng.within(1..=31) as u16;
        }
        let mut air = header.to_air();
        for &trouble in &troubles {
            self.spoil(trouble, &mut air);
        }
        air
    }

    /// The fields of a header that names no trouble; there is no payload for it.
    fn fields(&mut self) -> Header {
        let mut header = Header::default();
        for field in 0..GIVEN {
            header.values[field] =
                self.rng
                    .within(0..=u32::from(largest(Edition::Flown, field))) as u16;
        }
        // Zeros here make CRC5 the same under both editions.
        if self.rng.one_in(3) {
            header[Field::AiTypeDst] &= 0b1100;
            header[Field::DfcId] = 0;
        }
        header[Field::PduLength] = self.rng.below(1 << 10) as u16;
        header[Field::Crc13] = self.rng.below(1 << 13) as u16;
        header
    }

    /// The troubles of the way through the air.
    fn spoil(&mut self, trouble: Trouble, air: &mut [u8; AIR_BITS]) {
        let rng = &mut self.rng;
        match trouble {
            Trouble::Light => {
                for word in 0..WORDS {
                    if rng.one_in(3) {
                        let count = rng.within(1..=3);
                        flip_some(rng, air, word, count);
                    }
                }
            }
            Trouble::AtLimit => {
                let mut left = rng.within(USUAL_LIMIT - 1..=USUAL_LIMIT + 1);
                let first = rng.below(WORDS as u32) as usize;
                for word in 0..WORDS {
                    let words_after = (WORDS - 1 - word) as u32;
                    let least = left.saturating_sub(3 * words_after);
                    let count = rng.within(least..=left.min(3));
                    flip_some(rng, air, (first + word) % WORDS, count);
                    left -= count;
                }
            }
            Trouble::ThreeEverywhere => {
                for word in 0..WORDS {
                    flip_some(rng, air, word, 3);
                }
            }
            Trouble::Beyond => {
                let word = rng.below(WORDS as u32) as usize;
                flip_pattern(air, word, BEYOND);
            }
            Trouble::Noise => air.fill_with(|| rng.below(2) as u8),
            _ => {}
        }
    }
}
