//! Inputs for the two lanes of a source: frames whose lane was or was not heard before, and what a source shows.

use super::super::frame::{fresh_header, widest, Frame, PayloadRule};
use super::super::sheets::{lanes, source_input};
use super::super::Kind;
use crate::header::Field;
use crate::rng::Rng;
use crate::rules::Edition;
use crate::sample::{flip_some, seal};
use crate::sheet::{Lane, Sheet, FULL};

const FLOWN: Edition = Edition::Flown;
const SOURCES: usize = FLOWN.sources();

pub(super) fn inputs(kind: Kind, rng: &mut Rng) -> Vec<Vec<u8>> {
    match kind {
        Kind::Sheets => [one_lane_or_both(rng), filled_by_a_lane(rng)].concat(),
        Kind::Sources => shown(),
        _ => Vec::new(),
    }
}

/// A frame of this source and lane, with this counter and as many flips.
fn frame(rng: &mut Rng, src_id: usize, caller: u16, fr_cnt_tx: u8) -> Frame {
    let rule = PayloadRule::short(rng);
    let mut header = fresh_header(rng, FLOWN, &rule.payload());
    header[Field::SrcId] = src_id as u16;
    header[Field::Caller] = caller;
    header[Field::FrCntTx] = fr_cnt_tx.into();
    seal(FLOWN, &mut header, &rule.payload());
    let mut air = header.to_air();
    for flip in 0..fr_cnt_tx.min(14) {
        flip_some(rng, &mut air, flip.into(), 1);
    }
    Frame::new(widest(FLOWN), air, rule)
}

/// Sheets on which neither lane of a source was heard, one of them, or both, with other counters: a frame of each lane,
/// which repeats the one, the other or neither.
fn one_lane_or_both(rng: &mut Rng) -> Vec<Vec<u8>> {
    let mut inputs = Vec::new();
    for (caller_last, responder_last) in [
        (None, None),
        (Some(4), None),
        (None, Some(9)),
        (Some(4), Some(9)),
        (Some(15), Some(15)),
    ] {
        for caller in [0, 1] {
            for fr_cnt_tx in [0, 4, 5, 9, 15] {
                let source = rng.below(SOURCES as u32) as usize;
                let mut sheet = Sheet::new(FLOWN);
                sheet.sources[source].caller.last = caller_last;
                sheet.sources[source].responder.last = responder_last;
                let frame = frame(rng, source, caller, fr_cnt_tx);
                inputs.extend(frame.sheet_input(&sheet));
            }
        }
    }
    inputs
}

/// Sheets that are full or that one frame fills, by what the lanes of a source accepted.
fn filled_by_a_lane(rng: &mut Rng) -> Vec<Vec<u8>> {
    let mut inputs = Vec::new();
    for total in [FULL as u32 - 1, FULL as u32] {
        for of_caller in [0, 1, total / 2, total] {
            for caller in [0, 1] {
                let source = rng.below(SOURCES as u32) as usize;
                let mut sheet = Sheet::new(FLOWN);
                sheet.sources[source].caller.accepted = of_caller;
                sheet.sources[source].responder.accepted = total - of_caller;
                let frame = frame(rng, source, caller, 3);
                inputs.extend(frame.sheet_input(&sheet));
            }
        }
    }
    inputs
}

/// A sheet on which every number is another one and a sheet of the largest numbers: every source that has a record, and
/// some that have none.
fn shown() -> Vec<Vec<u8>> {
    let (mut other, mut largest) = (Sheet::new(FLOWN), Sheet::new(FLOWN));
    for (lane, k) in lanes(&mut other).into_iter().zip(1..) {
        *lane = Lane {
            accepted: k,
            repaired: 0x100 + k,
            missed: 0x1_0000 + k,
            repeats: 0x100_0000 + k,
            last: (k % 5 != 0).then_some(k as u8 % 16),
        };
    }
    for lane in lanes(&mut largest) {
        *lane = Lane {
            accepted: u32::MAX,
            repaired: u32::MAX,
            missed: u32::MAX,
            repeats: u32::MAX,
            last: Some(u8::MAX),
        };
    }
    let without = [8, 9, 15, 16, 127, 128, 136, 254, 255];
    let mut inputs = Vec::new();
    for sheet in [other, largest] {
        for source in (0..SOURCES as u8).chain(without) {
            inputs.push(source_input(&sheet, source));
        }
    }
    inputs
}
