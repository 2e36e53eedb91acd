//! The inputs of each kind.

use super::frame::{
    fresh_header, light_damage, put_edition, sized, widest, Frame, PayloadRule, BEYOND,
    PAYLOAD_ROOM,
};
use super::{beesat, sheets, shown, signs, stored, telling, Kind};
use crate::air::{AIR_BITS, WORDS};
use crate::header::{largest, Field, Header, GIVEN, HEADER_BITS, LONGEST_PAYLOAD, WIDTHS};
use crate::page::ROWS;
use crate::rng::Rng;
use crate::rules::{Edition, Rules, EDITIONS};
use crate::sample::{burst, flip_pattern, flip_some, LONGEST_BURST};

/// The edition of the base; `telling` has inputs for the other one.
const FLOWN: Edition = Edition::Flown;

/// Room for a payload of `pages`.
pub(super) const PAGE_ROOM: usize = 1_100;

/// The inputs of a kind, in their order.
pub(super) fn inputs(kind: Kind, seed: u64) -> Vec<Vec<u8>> {
    let mut inputs = mixture(kind, seed);
    inputs.extend(telling::inputs(kind, seed));
    if kind == Kind::Shown {
        inputs.extend(shown::every_x());
    }
    inputs
}

/// The inputs of a kind but for the telling ones at their end, and for every x of `shown`.
pub(super) fn mixture(kind: Kind, seed: u64) -> Vec<Vec<u8>> {
    let rng = &mut Rng::new(seed);
    match kind {
        Kind::Words => (0..=u16::MAX).map(|n| n.to_be_bytes().to_vec()).collect(),
        Kind::Encode => (0..32).map(|data| vec![data]).collect(),
        Kind::Crc13 => crc13_inputs(rng),
        Kind::Crc5 => crc5_inputs(rng),
        Kind::Headers => base_headers(rng).iter().map(Frame::header_input).collect(),
        Kind::Writes => write_inputs(rng),
        Kind::Frames => frame_inputs(rng),
        Kind::Pages => pages(rng).iter().map(|p| sized(p, PAGE_ROOM)).collect(),
        Kind::Rows => row_inputs(rng),
        Kind::Shown => shown::mixture(rng),
        Kind::Sheets => sheets::inputs(rng),
        Kind::Sources => sheets::source_inputs(rng),
        Kind::Wides => sheets::wide_inputs(rng),
        Kind::Signs => signs::inputs(rng),
        Kind::Calls => (0..=u8::MAX).map(|satellite| vec![satellite]).collect(),
        Kind::Beesat => beesat::frame_inputs(rng),
        Kind::Fields => beesat::field_inputs(rng),
        Kind::Stored | Kind::StoredSheets | Kind::StoredBeesat => stored::inputs(kind, seed),
    }
}

/// Lengths 0 to 64 and some up to 2,047 with bytes by chance; payloads of 00 and of FF; each one bit of
/// 16 bytes.
fn crc13_inputs(rng: &mut Rng) -> Vec<Vec<u8>> {
    let mut payloads = Vec::new();
    let longer = [
        100, 127, 128, 255, 256, 500, 511, 512, 1_022, 1_023, 1_024, 2_047,
    ];
    for length in (0..=64).chain(longer) {
        payloads.push(rng.bytes(length));
    }
    for length in [1, 2, 3, 62, 1_023] {
        payloads.push(vec![0x00; length]);
        payloads.push(vec![0xFF; length]);
    }
    for bit in 0..128 {
        let mut payload = vec![0; 16];
        payload[bit / 8] = 0x80 >> (bit % 8);
        payloads.push(payload);
    }
    payloads.iter().map(|p| sized(p, PAYLOAD_ROOM)).collect()
}

/// No bit, each one bit, all bits, all but one, under both editions; then bits by chance, under one of them.
fn crc5_inputs(rng: &mut Rng) -> Vec<Vec<u8>> {
    let mut inputs = Vec::new();
    for edition in EDITIONS {
        for base in [0, 1] {
            let all = vec![base; 65];
            inputs.push(crc5_input(edition, &all));
            for bit in 0..65 {
                let mut one = all.clone();
                one[bit] ^= 1;
                inputs.push(crc5_input(edition, &one));
            }
        }
    }
    for _ in 0..1_000 {
        let edition = EDITIONS[rng.below(2) as usize];
        let bits: Vec<u8> = (0..65).map(|_| rng.below(2) as u8).collect();
        inputs.push(crc5_input(edition, &bits));
    }
    inputs
}

/// One input of `crc5`.
fn crc5_input(edition: Edition, bits: &[u8]) -> Vec<u8> {
    let mut record = Vec::new();
    put_edition(edition, &mut record);
    record.extend(bits);
    record
}

/// Header slices for each answer of the reader, and for the order of its refusals.
fn header_slices(rng: &mut Rng) -> Vec<Vec<u8>> {
    let mut slices = Vec::new();
    // 1: other lengths, with an element above 1 too
    for length in [0, 1, 14, 209, 211, 212, 256] {
        slices.push(vec![0; length]);
        slices.push(vec![9; length]);
    }
    slices.push(vec![0; AIR_BITS]);
    slices.push(vec![1; AIR_BITS]);
    // 2: an element above 1, also before and after others and in words beyond repair
    for index in [0, 1, 13, 14, 100, 208, 209] {
        for value in [2, 3, 128, 255] {
            let mut air = fresh_header(rng, FLOWN, &[]).to_air();
            air[index] = value;
            air[209] |= value;
            slices.push(air.to_vec());
            flip_pattern(&mut air, 0, BEYOND);
            slices.push(air.to_vec());
        }
    }
    // Each header bit alone, under a right CRC5.
    for n in 0..HEADER_BITS {
        let mut header = Header::from_bits(1 << (HEADER_BITS - 1 - n));
        header[Field::Crc5] = header.crc5(FLOWN);
        slices.push(header.to_air().to_vec());
    }
    // Clean, then within repair.
    for _ in 0..100 {
        slices.push(fresh_header(rng, FLOWN, &[]).to_air().to_vec());
    }
    for _ in 0..300 {
        let mut air = fresh_header(rng, FLOWN, &[]).to_air();
        light_damage(rng, &mut air);
        slices.push(air.to_vec());
    }
    for _ in 0..60 {
        let mut air = fresh_header(rng, FLOWN, &[]).to_air();
        for word in 0..WORDS {
            flip_some(rng, &mut air, word, 3);
        }
        slices.push(air.to_vec());
    }
    // Bursts of 42 and of 43 at each place.
    for length in [LONGEST_BURST, LONGEST_BURST + 1] {
        for start in 0..=AIR_BITS - length {
            let mut air = fresh_header(rng, FLOWN, &[]).to_air();
            burst(&mut air, start, length);
            slices.push(air.to_vec());
        }
    }
    // 3: words beyond repair
    for word in 0..WORDS {
        for other in word..WORDS {
            let mut air = fresh_header(rng, FLOWN, &[]).to_air();
            flip_pattern(&mut air, word, BEYOND);
            if other > word {
                flip_pattern(&mut air, other, BEYOND);
            }
            slices.push(air.to_vec());
        }
    }
    // 4 to 6, alone and together
    for change in 1..=31 {
        let mut header = fresh_header(rng, FLOWN, &[]);
        header[Field::Crc5] ^= change;
        slices.push(header.to_air().to_vec());
    }
    for src_id in 8..=127 {
        for ai_type_src in [rng.below(4) as u16, rng.within(4..=15) as u16] {
            for wrong in [0, rng.within(1..=31) as u16] {
                let mut header = fresh_header(rng, FLOWN, &[]);
                header[Field::SrcId] = src_id;
                header[Field::AiTypeSrc] = ai_type_src;
                header[Field::Crc5] = header.crc5(FLOWN) ^ wrong;
                slices.push(header.to_air().to_vec());
            }
        }
    }
    for ai_type_src in 4..=15 {
        let mut header = fresh_header(rng, FLOWN, &[]);
        header[Field::AiTypeSrc] = ai_type_src;
        header[Field::Crc5] = header.crc5(FLOWN);
        slices.push(header.to_air().to_vec());
    }
    for _ in 0..300 {
        slices.push((0..AIR_BITS).map(|_| rng.below(2) as u8).collect());
    }
    slices
}

/// A flown frame under the rules that refuse none for its flips.
fn flown(slice: Vec<u8>, rule: PayloadRule) -> Frame {
    Frame::new(widest(FLOWN), slice, rule)
}

/// The header slices, and some under limits by chance, with a payload that belongs to few of them.
fn base_headers(rng: &mut Rng) -> Vec<Frame> {
    let rule = PayloadRule {
        length: 5,
        start: 1,
        step: 1,
    };
    let slices = header_slices(rng).into_iter();
    let mut frames: Vec<Frame> = slices.map(|slice| flown(slice, rule)).collect();
    // 21 about as often as not
    for _ in 0..200 {
        let mut air = fresh_header(rng, FLOWN, &rule.payload()).to_air();
        light_damage(rng, &mut air);
        let limit = rng.below(20);
        frames.push(Frame {
            rules: Rules {
                limit,
                ..widest(FLOWN)
            },
            ..flown(air.to_vec(), rule)
        });
    }
    frames
}

/// One input of `writes`.
fn write_input(edition: Edition, fields: &[u8; GIVEN], room: usize, rule: PayloadRule) -> Vec<u8> {
    let mut record = Vec::new();
    put_edition(edition, &mut record);
    record.extend(fields);
    record.extend((room as u16).to_be_bytes());
    record.extend(rule.bytes());
    record
}

/// Fields that the writer takes under an edition.
fn in_range(rng: &mut Rng, edition: Edition) -> [u8; GIVEN] {
    let mut fields = [0; GIVEN];
    for (field, value) in fields.iter_mut().enumerate() {
        *value = rng.within(0..=u32::from(largest(edition, field))) as u8;
    }
    fields
}

/// Headers in range; each field at and over its limits, alone and two by two; rooms and payloads at and
/// over theirs, and several at once.
fn write_inputs(rng: &mut Rng) -> Vec<Vec<u8>> {
    let mut inputs = Vec::new();
    for round in 0..300 {
        let edition = EDITIONS[round % 2];
        let length = rng.below(LONGEST_PAYLOAD as u32 + 1) as usize;
        let rule = PayloadRule::chance(rng, length);
        let room = rng.within(210..=256) as usize;
        inputs.push(write_input(edition, &in_range(rng, edition), room, rule));
    }
    for field in 0..GIVEN {
        for edition in EDITIONS {
            let most = largest(edition, field) as u8;
            let whole = (1u16 << WIDTHS[field]) - 1;
            for value in [0, 7, 8, most, most + 1, whole as u8, whole as u8 + 1, 255] {
                let mut fields = in_range(rng, edition);
                fields[field] = value;
                let rule = PayloadRule::chance(rng, 62);
                inputs.push(write_input(edition, &fields, 210, rule));
            }
        }
        for other in field + 1..GIVEN {
            let edition = EDITIONS[other % 2];
            let mut fields = in_range(rng, edition);
            fields[field] = largest(edition, field) as u8 + 1;
            fields[other] = 255;
            let rule = PayloadRule::chance(rng, 62);
            inputs.push(write_input(edition, &fields, 210, rule));
        }
    }
    for room in [0, 1, 14, 209, 210, 211, 256] {
        for length in [0, 1, 1_022, 1_023, 1_024, 1_025, 2_047] {
            for over in [false, true] {
                let edition = EDITIONS[rng.below(2) as usize];
                let mut fields = in_range(rng, edition);
                if over {
                    fields[rng.below(GIVEN as u32) as usize] = 200;
                }
                let rule = PayloadRule::chance(rng, length);
                inputs.push(write_input(edition, &fields, room, rule));
            }
        }
    }
    inputs
}

/// Frames that are accepted, or refused with 7 or 8; then every slice of `headers`.
fn frame_inputs(rng: &mut Rng) -> Vec<Vec<u8>> {
    let mut frames = Vec::new();
    let mut push = |air: &[u8], rule: PayloadRule| frames.push(flown(air.to_vec(), rule));
    for round in 0..200 {
        let length = match round {
            0..=9 => round,
            10..=29 => LONGEST_PAYLOAD,
            _ => rng.below(LONGEST_PAYLOAD as u32 + 1) as usize,
        };
        let rule = PayloadRule::chance(rng, length);
        let header = fresh_header(rng, FLOWN, &rule.payload());
        let mut air = header.to_air();
        light_damage(rng, &mut air);
        push(&air, rule);
        // 7: one more, one less, other lengths, and lengths with the same ten low bits
        let other = |length: usize| PayloadRule {
            length: length as u16,
            ..rule
        };
        push(&air, other(length + 1));
        push(&air, other(length.saturating_sub(1)));
        push(&air, other(rng.below(2_048) as usize));
        push(&air, other(length + 1_024));
        // 8: one bit of CRC13, also beside a wrong length
        let mut wrong = header;
        wrong[Field::Crc13] ^= 1 << (round % 13);
        wrong[Field::Crc5] = wrong.crc5(FLOWN);
        push(&wrong.to_air(), rule);
        push(&wrong.to_air(), other(length + 2));
    }
    frames.extend(base_headers(rng));
    frames.iter().map(Frame::frame_input).collect()
}

/// Payloads around each limit of the page reader, tagged and not, with FrameLength right and wrong.
fn pages(rng: &mut Rng) -> Vec<Vec<u8>> {
    let mut pages = Vec::new();
    let lengths = (0..=70).chain(1_020..=1_060).chain([1_100]);
    for length in lengths {
        for tagged in [false, true] {
            for off in [0, 1, 1_023] {
                let mut payload = rng.bytes(length);
                set_frame_length(&mut payload, tagged, off);
                pages.push(payload);
            }
        }
    }
    for _ in 0..300 {
        let length = rng.within(46..=1_031) as usize;
        let mut payload = rng.bytes(length);
        set_frame_length(&mut payload, rng.one_in(2), 0);
        pages.push(payload);
    }
    for _ in 0..300 {
        let length = rng.below(PAGE_ROOM as u32 + 1) as usize;
        pages.push(rng.bytes(length));
    }
    pages
}

/// Sets TimeTagged and FrameLength, as far as the payload has their bytes; `off` is added modulo 1,024.
fn set_frame_length(payload: &mut [u8], tagged: bool, off: usize) {
    let head = if tagged { 12 } else { 8 };
    let frame_length = (payload.len() + 2_048 - head + off) % 1_024;
    if let Some(byte) = payload.get_mut(6) {
        *byte = *byte & 0xF8 | (tagged as u8) << 2 | (frame_length >> 8) as u8;
    }
    if let Some(byte) = payload.get_mut(7) {
        *byte = frame_length as u8;
    }
}

/// Rows by chance and at their limits, into rooms of 0 to 40 and of 64 bytes.
fn row_inputs(rng: &mut Rng) -> Vec<Vec<u8>> {
    let mut inputs = Vec::new();
    for room in (0..=40).chain([64]) {
        let extremes: [[u16; ROWS]; 4] =
            [[0; ROWS], [0x7FFF; ROWS], [0x8000; ROWS], [0xFFFF; ROWS]];
        let by_chance = [(); 4].map(|()| [(); ROWS].map(|()| rng.below(65_536) as u16));
        for rows in extremes.iter().chain(&by_chance) {
            let mut record: Vec<u8> = rows.iter().flat_map(|row| row.to_be_bytes()).collect();
            record.extend((room as u16).to_be_bytes());
            inputs.push(record);
        }
    }
    inputs
}
