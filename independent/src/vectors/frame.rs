//! Frames in records: how they are read, their header slices and their payloads.

use super::bytes::{put, Bytes};
use super::sheets::{put_sheet, Wide};
use super::Kind;
use crate::air::{AIR_BITS, WORDS};
use crate::header::{largest, Field, Header, GIVEN};
use crate::rng::Rng;
use crate::rules::{Edition, Rules, LARGEST_LIMIT};
use crate::sample::{flip_pattern, flip_some, seal};
use crate::sheet::Sheet;

/// Room for a header slice in a record.
pub(super) const HEADER_ROOM: usize = 256;

/// Room for call sign bits in a record.
pub(super) const CALL_ROOM: usize = 64;

/// The longest payload of a payload rule.
pub(super) const PAYLOAD_ROOM: usize = 2_047;

/// The rules of an edition that refuse no frame for its flips.
pub(super) const fn widest(edition: Edition) -> Rules {
    Rules {
        edition,
        limit: LARGEST_LIMIT,
    }
}

/// Puts an edition in one byte.
pub(super) fn put_edition(edition: Edition, out: &mut Vec<u8>) {
    put(out, 1, edition as u8);
}

/// The edition of a byte: 0 is flown, and all others are corrected.
pub(super) fn take_edition(input: &mut Bytes) -> Edition {
    match input.u8() {
        0 => Edition::Flown,
        _ => Edition::Corrected,
    }
}

/// Puts the rules that a frame is read by.
pub(super) fn put_rules(rules: Rules, out: &mut Vec<u8>) {
    put_edition(rules.edition, out);
    put(out, 4, rules.limit);
}

/// The rules that a frame is read by.
pub(super) fn take_rules(input: &mut Bytes) -> Rules {
    Rules {
        edition: take_edition(input),
        limit: input.u32(),
    }
}

/// A word pattern that is beyond repair from every valid word: it is at distance 4 of word 0, and within 3 of none.
pub(super) const BEYOND: u16 = 0x000F;

/// A payload that is told by its length, its first byte and the step to the next.
#[derive(Clone, Copy)]
pub(super) struct PayloadRule {
    pub length: u16,
    pub start: u8,
    pub step: u8,
}

impl PayloadRule {
    pub fn chance(rng: &mut Rng, length: usize) -> PayloadRule {
        let [start, step] = (rng.below(65_536) as u16).to_be_bytes();
        PayloadRule {
            length: length as u16,
            start,
            step,
        }
    }

    /// The rule of a short payload.
    pub fn short(rng: &mut Rng) -> PayloadRule {
        let length = rng.below(80) as usize;
        PayloadRule::chance(rng, length)
    }

    pub fn payload(&self) -> Vec<u8> {
        (0..self.length)
            .map(|k| self.start.wrapping_add(self.step.wrapping_mul(k as u8)))
            .collect()
    }

    pub fn bytes(&self) -> [u8; 4] {
        let [high, low] = self.length.to_be_bytes();
        [high, low, self.start, self.step]
    }
}

/// The length in two bytes, then the bytes, then zeros up to so many bytes.
pub(super) fn sized(bytes: &[u8], room: usize) -> Vec<u8> {
    let mut record = (bytes.len() as u16).to_be_bytes().to_vec();
    record.extend(bytes);
    record.resize(2 + room, 0);
    record
}

/// How a frame is read, its call sign bits where they are given, its header slice and the payload that comes with it.
#[derive(Clone)]
pub(super) struct Frame {
    pub rules: Rules,
    pub call: Option<Vec<u8>>,
    pub slice: Vec<u8>,
    pub rule: PayloadRule,
}

impl Frame {
    /// A frame without call sign bits.
    pub fn new(rules: Rules, slice: impl Into<Vec<u8>>, rule: PayloadRule) -> Frame {
        Frame {
            rules,
            call: None,
            slice: slice.into(),
            rule,
        }
    }

    /// The same frame with these call sign bits.
    pub fn called(self, call: Vec<u8>) -> Frame {
        Frame {
            call: Some(call),
            ..self
        }
    }

    /// The input of a kind with this frame, which a new sheet is offered in `sheets` and `wides`; records of these kinds have
    /// 210 header bytes.
    pub fn input(&self, kind: Kind) -> Option<Vec<u8>> {
        match kind {
            Kind::Headers => Some(self.header_input()),
            Kind::Frames => Some(self.frame_input()),
            Kind::Sheets => self.sheet_input(&Sheet::new(Edition::Flown)),
            Kind::Wides => self.wide_input(&Wide::new()),
            Kind::Signs => self.sign_input(),
            _ => None,
        }
    }

    /// One input of `headers`, which has no call sign bits; nor has one of `frames` or of `wides`.
    pub fn header_input(&self) -> Vec<u8> {
        let mut record = Vec::new();
        put_rules(self.rules, &mut record);
        record.extend(sized(&self.slice, HEADER_ROOM));
        record
    }

    pub fn frame_input(&self) -> Vec<u8> {
        let mut record = self.header_input();
        record.extend(self.rule.bytes());
        record
    }

    /// The frame offered to this sheet; none where its slice is not 210 long.
    pub fn sheet_input(&self, sheet: &Sheet) -> Option<Vec<u8>> {
        let air = <&[u8; AIR_BITS]>::try_from(self.slice.as_slice()).ok()?;
        let mut record = Vec::new();
        put_rules(self.rules, &mut record);
        put_call(self.call.as_deref(), &mut record);
        put_sheet(sheet, &mut record);
        record.extend(air);
        record.extend(self.rule.bytes());
        Some(record)
    }

    /// The frame and its call sign bits; none where its slice is not 210 long.
    pub fn sign_input(&self) -> Option<Vec<u8>> {
        let air = <&[u8; AIR_BITS]>::try_from(self.slice.as_slice()).ok()?;
        let mut record = Vec::new();
        put_rules(self.rules, &mut record);
        put_call(self.call.as_deref(), &mut record);
        record.extend(air);
        record.extend(self.rule.bytes());
        Some(record)
    }

    /// The frame offered to this corrected sheet; none where its slice is not 210 long.
    pub fn wide_input(&self, wide: &Wide) -> Option<Vec<u8>> {
        let air = <&[u8; AIR_BITS]>::try_from(self.slice.as_slice()).ok()?;
        let mut record = Vec::new();
        put_rules(self.rules, &mut record);
        wide.put(&mut record);
        record.extend(air);
        record.extend(self.rule.bytes());
        Some(record)
    }
}

/// Puts whether call sign bits are given, and these.
fn put_call(call: Option<&[u8]>, out: &mut Vec<u8>) {
    put(out, 1, call.is_some());
    out.extend(sized(call.unwrap_or_default(), CALL_ROOM));
}

/// The call sign bits where they are given.
pub(super) fn take_call<'a>(input: &mut Bytes<'a>) -> Option<&'a [u8]> {
    let given = input.u8() != 0;
    let call = input.sized(CALL_ROOM);
    given.then_some(call)
}

/// A header in range with the payload's length and checksum, and a right CRC5.
pub(super) fn fresh_header(rng: &mut Rng, edition: Edition, payload: &[u8]) -> Header {
    let mut header = Header::default();
    for field in 0..GIVEN {
        header.values[field] = rng.within(0..=u32::from(largest(edition, field))) as u16;
    }
    seal(edition, &mut header, payload);
    header
}

/// One to three flips in about every third word.
pub(super) fn light_damage(rng: &mut Rng, air: &mut [u8; AIR_BITS]) {
    for word in 0..WORDS {
        if rng.one_in(3) {
            let count = rng.within(1..=3);
            flip_some(rng, air, word, count);
        }
    }
}

/// A frame with these flip patterns, of a header that would be accepted without a limit.
pub(super) fn damaged(rng: &mut Rng, rules: Rules, patterns: &[u16; WORDS]) -> Frame {
    let rule = PayloadRule::short(rng);
    let mut air = fresh_header(rng, rules.edition, &rule.payload()).to_air();
    for (word, &pattern) in patterns.iter().enumerate() {
        flip_pattern(&mut air, word, pattern);
    }
    Frame::new(rules, air, rule)
}

/// A frame that is refused with this number of 1 to 8, unless the limit refuses it before or the edition does not make check 5. Every word is damaged, and
/// within repair but for one of refusal 3: there would be patterns to give.
pub(super) fn refused(rng: &mut Rng, rules: Rules, number: u8) -> Frame {
    let mut rule = PayloadRule::short(rng);
    let mut header = fresh_header(rng, rules.edition, &rule.payload());
    match number {
        5 => header[Field::SrcId] = rng.within(8..=127) as u16,
        6 => header[Field::AiTypeSrc] = rng.within(4..=15) as u16,
        7 => rule.length += rng.within(1..=80) as u16,
        8 => header[Field::Crc13] ^= rng.within(1..=0x1FFF) as u16,
        _ => {}
    }
    header[Field::Crc5] = header.crc5(rules.edition);
    if number == 4 {
        header[Field::Crc5] ^= rng.within(1..=31) as u16;
    }
    let mut air = header.to_air();
    let beyond = rng.below(WORDS as u32) as usize;
    for word in 0..WORDS {
        if number == 3 && word == beyond {
            flip_pattern(&mut air, word, BEYOND);
        } else {
            let count = rng.within(1..=3);
            flip_some(rng, &mut air, word, count);
        }
    }
    let mut slice = air.to_vec();
    match number {
        1 => slice.resize(AIR_BITS + rng.within(1..=40) as usize, 0),
        2 => slice[rng.below(AIR_BITS as u32) as usize] |= 2,
        _ => {}
    }
    Frame::new(rules, slice, rule)
}
