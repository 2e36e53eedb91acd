//! Inputs for the call sign: each satellite with each, each wrong bit, wrong lengths and elements, and what comes before
//! and after them.

use super::super::frame::{damaged, fresh_header, refused, widest, Frame, PayloadRule, CALL_ROOM};
use super::super::Kind;
use crate::air::WORDS;
use crate::call_sign::{call_sign_bits, CALL_SIGNS, CALL_SIGN_BITS};
use crate::header::Field;
use crate::rng::Rng;
use crate::rules::{Edition, Rules, EDITIONS, LARGEST_LIMIT};
use crate::sample::{flip_pattern, flip_some, seal};
use crate::sheet::{Sheet, FULL};

const SATELLITES: usize = CALL_SIGNS.len();

pub(super) fn inputs(kind: Kind, rng: &mut Rng) -> Vec<Vec<u8>> {
    let frames = match kind {
        Kind::Signs => [
            each_with_each(rng),
            misspelled(rng),
            misshapen(rng, Edition::Flown),
            misshapen(rng, Edition::Corrected),
            repaired(rng),
            beside_refusals(rng),
        ]
        .concat(),
        Kind::Sheets => return on_sheets(rng),
        _ => return Vec::new(),
    };
    frames.iter().filter_map(Frame::sign_input).collect()
}

/// A frame of this source that is accepted without call sign bits, with one flip.
fn from_source(rng: &mut Rng, edition: Edition, src_id: usize) -> Frame {
    let rule = PayloadRule::short(rng);
    let mut header = fresh_header(rng, edition, &rule.payload());
    header[Field::SrcId] = src_id as u16;
    seal(edition, &mut header, &rule.payload());
    let mut air = header.to_air();
    let word = rng.below(WORDS as u32) as usize;
    flip_some(rng, &mut air, word, 1);
    Frame::new(widest(edition), air, rule)
}

/// The call sign bits of a source.
fn bits_of(src_id: usize) -> Vec<u8> {
    call_sign_bits(src_id / 2).to_vec()
}

/// Every source with each of the four call signs and without, under both editions; under the corrected one also a
/// source that is no S-NET satellite's.
fn each_with_each(rng: &mut Rng) -> Vec<Frame> {
    let mut frames = Vec::new();
    for edition in EDITIONS {
        for src_id in (0..8).chain([8, 97]) {
            if src_id < edition.sources() {
                frames.push(from_source(rng, edition, src_id));
                for satellite in 0..SATELLITES {
                    let frame = from_source(rng, edition, src_id);
                    frames.push(frame.called(call_sign_bits(satellite).to_vec()));
                }
            }
        }
    }
    frames
}

/// Every wrong bit alone; then the letter O, each highest bit first, from the last character, and from the last bit.
fn misspelled(rng: &mut Rng) -> Vec<Frame> {
    let mut frames = Vec::new();
    let mut push = |rng: &mut Rng, src_id: usize, call: Vec<u8>| {
        let frame = from_source(rng, Edition::Flown, src_id);
        frames.push(frame.called(call));
    };
    for at in 0..CALL_SIGN_BITS {
        let mut call = bits_of(at % 8);
        call[at] ^= 1;
        push(rng, at % 8, call);
    }
    for satellite in 0..SATELLITES {
        let right = bits_of(2 * satellite);
        let mut letter = right.clone();
        for (i, bit) in letter[2 * 8..3 * 8].iter_mut().enumerate() {
            *bit = b'O' >> i & 1;
        }
        let highest_first: Vec<u8> = right
            .chunks(8)
            .flat_map(|c| c.iter().rev())
            .copied()
            .collect();
        let from_last: Vec<u8> = right.rchunks(8).flatten().copied().collect();
        let backwards = right.iter().rev().copied().collect();
        for call in [letter, highest_first, from_last, backwards] {
            push(rng, 2 * satellite, call);
        }
        push(rng, 2 * satellite, vec![0; CALL_SIGN_BITS]);
        push(rng, 2 * satellite, vec![1; CALL_SIGN_BITS]);
    }
    frames
}

/// Call sign bits that are too few or too many, with and without an element above 1; of the right length, with one
/// element above 1 or several.
fn misshapen(rng: &mut Rng, edition: Edition) -> Vec<Frame> {
    let mut frames = Vec::new();
    for length in [0, 1, 8, 40, 47, 49, 56, CALL_ROOM] {
        let mut call = bits_of(4);
        call.resize(length, 0);
        frames.push(from_source(rng, edition, 4).called(call.clone()));
        if let Some(last) = call.last_mut() {
            *last = 2;
            frames.push(from_source(rng, edition, 4).called(call));
        }
    }
    for at in [0, 1, 7, 8, 23, 24, 46, 47] {
        for value in [2, 255] {
            let mut call = bits_of(6);
            call[at] = value;
            frames.push(from_source(rng, edition, 6).called(call.clone()));
            call[47] = value;
            frames.push(from_source(rng, edition, 6).called(call));
        }
    }
    frames
}

/// Damage to SrcId that is repaired: what counts is the repaired header's satellite.
fn repaired(rng: &mut Rng) -> Vec<Frame> {
    let mut frames = Vec::new();
    // SrcId 0 to 7 are header bits 4 to 6: the last of word 0 and the first two of word 1.
    for (word, pattern) in [
        (0, 0b000_0100_0000_0000),
        (1, 0b100_0000_0000_0000),
        (1, 0b110_0000_0000_0000),
    ] {
        for satellite in 0..SATELLITES {
            let mut frame = from_source(rng, Edition::Flown, 3);
            let air = frame.slice.as_mut_slice().try_into();
            flip_pattern(air.expect("a header is 210 long"), word, pattern);
            frames.push(frame.called(call_sign_bits(satellite).to_vec()));
        }
    }
    frames
}

/// Call sign bits that are refused with 23, that disagree, and that agree by chance, beside each of the refusals 2 to 8,
/// 20 and 21, under both editions.
fn beside_refusals(rng: &mut Rng) -> Vec<Frame> {
    let mut frames = Vec::new();
    for edition in EDITIONS {
        let rules = widest(edition);
        let mut others: Vec<Frame> = (2..=8).map(|number| refused(rng, rules, number)).collect();
        for limit in [0, LARGEST_LIMIT + 1] {
            others.push(damaged(rng, Rules { limit, ..rules }, &[1; WORDS]));
        }
        for frame in others {
            let mut above = bits_of(0);
            above[5] = 2;
            for call in [vec![], above, vec![0; CALL_SIGN_BITS], bits_of(0)] {
                frames.push(frame.clone().called(call));
            }
        }
    }
    frames
}

/// Sheets that are new, that one more frame fills, and that are full, offered frames that are refused with 23, with 24
/// and not at all; and sheets that the counts of 23 and 24 fill.
fn on_sheets(rng: &mut Rng) -> Vec<Vec<u8>> {
    let mut inputs = Vec::new();
    let mut above = bits_of(2);
    above[11] = 2;
    let calls = [
        vec![],
        above,
        vec![0; CALL_SIGN_BITS],
        bits_of(0),
        bits_of(2),
    ];
    for count in [0, FULL as u32 - 1, FULL as u32] {
        for place in [0, 10, 11] {
            let mut sheet = Sheet::new(Edition::Flown);
            sheet.refused[place] = count;
            for call in &calls {
                let frame = from_source(rng, Edition::Flown, 2).called(call.clone());
                inputs.extend(frame.sheet_input(&sheet));
            }
        }
    }
    // 20 comes before them, and 22 too
    for call in calls {
        let mut frame = from_source(rng, Edition::Flown, 2).called(call);
        frame.rules.limit = LARGEST_LIMIT + 1;
        inputs.extend(frame.sheet_input(&Sheet::new(Edition::Flown)));
        frame.rules = widest(Edition::Corrected);
        inputs.extend(frame.sheet_input(&Sheet::new(Edition::Flown)));
    }
    inputs
}
