//! The 70 header bits: fields, CRC5, the reader (refusals 20, 1 to 6, 21, 23, 24) and the writer (13 to 15).

use std::ops::{Index, IndexMut};

use crate::air::{air_of, words_of, AIR_BITS, WORDS};
use crate::call_sign::{call_sign_bits, CALL_SIGN_BITS};
use crate::crc::{crc13, CRC5};
use crate::refusal::Refusal;
use crate::rules::{Edition, Rules, LARGEST_LIMIT};
use crate::word::{data, encode, repair, DATA_BITS};

/// The fields in the paper's order; a field's number is its place in this list.
#[allow(missing_docs)] // The names are the paper's.
#[derive(Clone, Copy, Debug, PartialEq, Eq)]
pub enum Field {
    SrcId,
    DstId,
    FrCntTx,
    FrCntRx,
    Snr,
    AiTypeSrc,
    AiTypeDst,
    DfcId,
    Caller,
    Arq,
    PduTypeId,
    BchRq,
    Hailing,
    UdFl1,
    PduLength,
    Crc13,
    Crc5,
}

/// The number of fields.
pub const FIELDS: usize = 17;

/// The bits of each field.
pub const WIDTHS: [u32; FIELDS] = [7, 7, 4, 4, 4, 4, 4, 2, 1, 1, 1, 1, 1, 1, 10, 13, 5];

/// The bits of a header.
pub const HEADER_BITS: usize = 70;

/// The fields that the writer is given, SrcId to UdFl1: it "works out PduLength and both checksums".
pub const GIVEN: usize = Field::PduLength as usize;

/// The largest AiTypeSrc.
pub const LARGEST_AI_TYPE_SRC: u16 = 3;

/// The longest payload: PduLength has ten bits.
pub const LONGEST_PAYLOAD: usize = 1_023;

/// The largest value of a field: "widths bound it, also SrcId to 7 and AiTypeSrc to 3". Under the corrected edition "the
/// writer allows 0 to 127" as SrcId.
pub const fn largest(edition: Edition, field: usize) -> u16 {
    if field == Field::SrcId as usize {
        edition.largest_src_id()
    } else if field == Field::AiTypeSrc as usize {
        LARGEST_AI_TYPE_SRC
    } else {
        (1 << WIDTHS[field]) - 1
    }
}

/// The seventeen values of a header, in the paper's order.
#[derive(Clone, Copy, Debug, Default, PartialEq, Eq)]
pub struct Header {
    /// A value for each field.
    pub values: [u16; FIELDS],
}

impl Index<Field> for Header {
    type Output = u16;

    fn index(&self, field: Field) -> &u16 {
        &self.values[field as usize]
    }
}

impl IndexMut<Field> for Header {
    fn index_mut(&mut self, field: Field) -> &mut u16 {
        &mut self.values[field as usize]
    }
}

impl Header {
    /// The fields taken out of 70 bits: header bit 0 is the highest of the number.
    pub fn from_bits(mut bits: u128) -> Header {
        let mut header = Header::default();
        for (value, width) in header.values.iter_mut().zip(WIDTHS).rev() {
            *value = (bits & ((1 << width) - 1)) as u16;
            bits >>= width;
        }
        header
    }

    /// The 70 bits as a number, "each field most significant bit first"; a value is cut to its width.
    pub fn to_bits(&self) -> u128 {
        self.values
            .iter()
            .zip(WIDTHS)
            .fold(0, |bits, (&value, width)| {
                bits << width | u128::from(value) & ((1 << width) - 1)
            })
    }

    /// The header on air. Nothing is checked or worked out.
    pub fn to_air(&self) -> [u8; AIR_BITS] {
        let bits = self.to_bits();
        let mut words = [0; WORDS];
        for (j, word) in words.iter_mut().enumerate() {
            // "Header bits 5j to 5j+4 are the data of word j."
            let after = HEADER_BITS - DATA_BITS * (j + 1);
            *word = encode((bits >> after & 0x1F) as u16);
        }
        air_of(&words)
    }

    /// The CRC5 that belongs to these values.
    pub fn crc5(&self, edition: Edition) -> u16 {
        crc5(edition, self.to_bits())
    }
}

/// Header bits 32 to 35, which "count as zero in CRC5" under the flown rule: the low two bits of AiTypeDst, and DfcId.
const FLOWN_LOST: u128 = 0b1111 << (HEADER_BITS - 36);

/// CRC5 from header bits 0 to 64 of the 70.
pub fn crc5(edition: Edition, bits: u128) -> u16 {
    let counted = match edition {
        Edition::Flown => bits & !FLOWN_LOST,
        // "Bits 32 to 35 count like the others."
        Edition::Corrected => bits,
    };
    CRC5.of(&crc5_bytes(counted))
}

/// "Header bits 0 to 64 followed by 1011011 make nine bytes."
fn crc5_bytes(bits: u128) -> [u8; 9] {
    let padded = bits >> WIDTHS[Field::Crc5 as usize] << 7 | 0b101_1011;
    let mut bytes = [0; 9];
    bytes.copy_from_slice(&padded.to_be_bytes()[16 - 9..]);
    bytes
}

/// A header that was accepted.
#[derive(Clone, Copy, Debug, PartialEq, Eq)]
pub struct Heard {
    /// Its repaired values.
    pub header: Header,
    /// The flip pattern of each word.
    pub patterns: [u16; WORDS],
}

impl Heard {
    /// The bits repaired in each word.
    fn word_flips(&self) -> [u32; WORDS] {
        self.patterns.map(u16::count_ones)
    }

    /// The bits repaired over all fourteen words: "the total being their ones".
    pub fn flips(&self) -> u32 {
        self.word_flips().iter().sum()
    }

    /// "The lowest word with the most flips"; 0 where nothing was flipped.
    pub fn worst(&self) -> usize {
        let flips = self.word_flips();
        let mut worst = 0;
        for word in 1..WORDS {
            if flips[word] > flips[worst] {
                worst = word;
            }
        }
        worst
    }
}

/// Reads a header off the air. The call sign bits may be given: "without them a frame is judged as before".
pub fn read_header(rules: Rules, call: Option<&[u8]>, air: &[u8]) -> Result<Heard, Refusal> {
    // 20: "limit above 42, before 1", the limit
    if rules.limit > LARGEST_LIMIT {
        return Err(Refusal::new(20, rules.limit as usize));
    }
    // 1: "header slice is not 210 long", its length
    let Ok(air) = <&[u8; AIR_BITS]>::try_from(air) else {
        return Err(Refusal::new(1, air.len()));
    };
    // 2: "an element is above 1", lowest index
    if let Some(index) = air.iter().position(|&element| element > 1) {
        return Err(Refusal::new(2, index));
    }
    // "Under the corrected edition they aren't looked at."
    let call = call.filter(|_| rules.edition == Edition::Flown);
    // 23: "not 48 elements or one above 1, after 2 and before 3", the length, or the first bad index
    if let Some(call) = call {
        if call.len() != CALL_SIGN_BITS {
            return Err(Refusal::new(23, call.len()));
        }
        if let Some(index) = call.iter().position(|&element| element > 1) {
            return Err(Refusal::new(23, index));
        }
    }
    // 3: "a word is beyond repair", lowest word
    let mut bits = 0;
    let mut patterns = [0; WORDS];
    for (j, &received) in words_of(air).iter().enumerate() {
        let repaired = repair(received).ok_or(Refusal::new(3, j))?;
        bits = bits << DATA_BITS | u128::from(data(repaired.word));
        patterns[j] = repaired.pattern;
    }
    let header = Header::from_bits(bits);
    let heard = Heard { header, patterns };
    // 21: "flips above the limit, after 3 and before 4", the flips
    let flips = heard.flips();
    if flips > rules.limit {
        return Err(Refusal::new(21, flips as usize));
    }
    // 4: "CRC5 differs", CRC5 worked out
    let worked_out = crc5(rules.edition, bits);
    if header[Field::Crc5] != worked_out {
        return Err(Refusal::new(4, worked_out));
    }
    // 5: "SrcId above 7", SrcId; under the corrected edition "check 5 isn't made"
    let src_id = header[Field::SrcId];
    if rules.edition == Edition::Flown && src_id > Edition::Flown.largest_src_id() {
        return Err(Refusal::new(5, src_id));
    }
    // 24: "disagreement, after 5 and before 6", SrcId; satellite A, B, C, D is SrcId div 2
    if call.is_some_and(|call| call != call_sign_bits(usize::from(src_id / 2))) {
        return Err(Refusal::new(24, src_id));
    }
    // 6: "AiTypeSrc above 3", AiTypeSrc
    let ai_type_src = header[Field::AiTypeSrc];
    if ai_type_src > LARGEST_AI_TYPE_SRC {
        return Err(Refusal::new(6, ai_type_src));
    }
    Ok(heard)
}

/// Writes the header of a payload to the first 210 bytes of `out`; "bytes past 210 keep what they held".
pub fn write_header(
    edition: Edition,
    given: &[u16; GIVEN],
    payload: &[u8],
    out: &mut [u8],
) -> Result<(), Refusal> {
    // 13: "output under 210", its length
    let room = out.len();
    let Some(out) = out.first_chunk_mut::<AIR_BITS>() else {
        return Err(Refusal::new(13, room));
    };
    // 14: "a field out of range", the lowest such field's number
    if let Some(field) = (0..GIVEN).find(|&field| given[field] > largest(edition, field)) {
        return Err(Refusal::new(14, field));
    }
    // 15: "payload over 1,023", its length
    if payload.len() > LONGEST_PAYLOAD {
        return Err(Refusal::new(15, payload.len()));
    }
    let mut header = Header::default();
    header.values[..GIVEN].copy_from_slice(given);
    header[Field::PduLength] = payload.len() as u16;
    header[Field::Crc13] = crc13(payload);
    header[Field::Crc5] = header.crc5(edition);
    *out = header.to_air();
    Ok(())
}

#[cfg(test)]
mod tests {
    use super::*;
    use crate::rng::Rng;
    use crate::rules::EDITIONS;

    /// Header bit n, as the paper numbers them.
    fn bit(n: usize) -> u128 {
        1 << (HEADER_BITS - 1 - n)
    }

    #[test]
    fn widths_make_70_bits() {
        assert_eq!(WIDTHS.iter().sum::<u32>() as usize, HEADER_BITS);
    }

    #[test]
    fn marked_crc5_examples() {
        assert_eq!(crc5(Edition::Flown, 0), 6);
        assert_eq!(crc5(Edition::Flown, bit(32)), 6);
        // Beside them, worked by hand: bit 32 is the first of byte 4, after which 39 more bits go in.
        assert_eq!(crc5(Edition::Corrected, 0), 6);
        let worked = (0..39).fold(0x15_u16, |r, _| (r << 1 & 0x1F) ^ ((r >> 4) * 0x15));
        assert_eq!(crc5(Edition::Corrected, bit(32)), 6 ^ worked);
        assert_eq!(crc5(Edition::Corrected, bit(32)), 28);
    }

    #[test]
    fn crc5_sees_bits_0_to_64_and_the_flown_one_not_32_to_35() {
        for n in 0..HEADER_BITS {
            let lost = (32..36).contains(&n);
            let seen = EDITIONS.map(|edition| crc5(edition, bit(n)) != 6);
            assert_eq!(seen, [n < 65 && !lost, n < 65], "bit {n}");
        }
    }

    #[test]
    fn the_editions_differ_exactly_where_a_bit_of_32_to_35_is_set() {
        let mut rng = Rng::new(21);
        for n in 0..4_000 {
            let others = u128::from(rng.next_u64()) << 6 | u128::from(rng.below(64));
            let lost = (n % 16) << (HEADER_BITS - 36);
            let bits = others & !FLOWN_LOST | lost;
            let [flown, corrected] = EDITIONS.map(|edition| crc5(edition, bits));
            assert_eq!(flown != corrected, lost != 0);
        }
    }

    #[test]
    fn lost_bits_are_the_low_two_of_ai_type_dst_and_dfc_id() {
        let mut header = Header::default();
        header[Field::AiTypeDst] = 0b0011;
        header[Field::DfcId] = 0b11;
        assert_eq!(header.to_bits(), FLOWN_LOST);
    }

    #[test]
    fn pad_follows_bit_64() {
        assert_eq!(crc5_bytes(bit(64)), [0, 0, 0, 0, 0, 0, 0, 0, 0b1101_1011]);
        assert_eq!(crc5_bytes(bit(0)), [0x80, 0, 0, 0, 0, 0, 0, 0, 0b0101_1011]);
        assert_eq!(crc5_bytes(0b11111), crc5_bytes(0));
    }

    /// The nine bytes as Table 4 of 001 puts them together; Table 5 has the flown byte 4, without AiTypeDst and DfcId.
    fn bytes_of_table_4(edition: Edition, header: &Header) -> [u8; 9] {
        let of = |field| header[field];
        let lost = match edition {
            Edition::Flown => 0,
            Edition::Corrected => of(Field::AiTypeDst) << 6 | of(Field::DfcId) << 4,
        };
        [
            of(Field::SrcId) << 1 | of(Field::DstId) >> 6,
            of(Field::DstId) << 2 | of(Field::FrCntTx) >> 2,
            of(Field::FrCntTx) << 6 | of(Field::FrCntRx) << 2 | of(Field::Snr) >> 2,
            of(Field::Snr) << 6 | of(Field::AiTypeSrc) << 2 | of(Field::AiTypeDst) >> 2,
            lost | of(Field::Caller) << 3
                | of(Field::Arq) << 2
                | of(Field::PduTypeId) << 1
                | of(Field::BchRq),
            of(Field::Hailing) << 7 | of(Field::UdFl1) << 6 | of(Field::PduLength) >> 4,
            of(Field::PduLength) << 4 | of(Field::Crc13) >> 9,
            of(Field::Crc13) >> 1,
            0b101_1011 | of(Field::Crc13) << 7,
        ]
        .map(|byte| byte as u8)
    }

    #[test]
    fn both_rules_take_the_bytes_of_tables_4_and_5() {
        let mut rng = Rng::new(9);
        for _ in 0..2_000 {
            let bits = u128::from(rng.next_u64()) << 6 | u128::from(rng.below(64));
            let header = Header::from_bits(bits);
            assert_eq!(header.to_bits(), bits);
            for edition in EDITIONS {
                let bytes = bytes_of_table_4(edition, &header);
                assert_eq!(header.crc5(edition), CRC5.of(&bytes));
            }
            let corrected = bytes_of_table_4(Edition::Corrected, &header);
            assert_eq!(crc5_bytes(bits), corrected);
        }
    }

    /// A header with these patterns.
    fn with_patterns(patterns: [u16; WORDS]) -> Heard {
        let header = Header::default();
        Heard { header, patterns }
    }

    #[test]
    fn nothing_flipped_is_worst_word_0() {
        let heard = with_patterns([0; WORDS]);
        assert_eq!((heard.flips(), heard.worst()), (0, 0));
    }

    #[test]
    fn the_lowest_of_the_words_with_the_most_flips_is_the_worst() {
        for pattern in [0x0001_u16, 0x4000, 0x0003, 0x4400, 0x0007, 0x7000] {
            for worst in 0..WORDS {
                let mut patterns = [0; WORDS];
                patterns[worst] = pattern;
                let ones = pattern.count_ones();
                let heard = with_patterns(patterns);
                assert_eq!((heard.flips(), heard.worst()), (ones, worst));
                // A tie with one later word, then with all of them.
                for tied in worst + 1..WORDS {
                    patterns[tied] = pattern;
                    let ones = ones * (tied - worst + 1) as u32;
                    let heard = with_patterns(patterns);
                    assert_eq!((heard.flips(), heard.worst()), (ones, worst));
                }
            }
        }
    }

    #[test]
    fn the_worst_word_goes_by_ones_and_not_by_value() {
        for worst in 0..WORDS {
            for (least, larger) in [(0x0003, 0x4000), (0x0007, 0x6000)] {
                let mut patterns = [larger; WORDS];
                patterns[worst] = least;
                assert_eq!(with_patterns(patterns).worst(), worst);
            }
        }
    }

    #[test]
    fn marked_places_of_header_bits_0_and_69() {
        for (n, at) in [(0, 196), (69, 153)] {
            let air = Header::from_bits(bit(n)).to_air();
            assert_eq!(air[at], 1);
            // Of the 70 data places this one alone is set; the rest is parity.
            assert_eq!(air[140..].iter().filter(|&&b| b == 1).count(), 1);
        }
    }

    #[test]
    fn bits_and_fields_go_back_and_forth() {
        for n in 0..HEADER_BITS {
            assert_eq!(Header::from_bits(bit(n)).to_bits(), bit(n));
        }
        let header = Header::from_bits(bit(0) | bit(13) | bit(17) | bit(42) | bit(69));
        assert_eq!(header[Field::SrcId], 64);
        assert_eq!(header[Field::DstId], 1);
        assert_eq!(header[Field::FrCntTx], 1);
        assert_eq!(header[Field::PduLength], 512);
        assert_eq!(header[Field::Crc5], 1);
    }
}
