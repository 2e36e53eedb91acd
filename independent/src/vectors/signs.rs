//! The mixture of `signs`: frames with call sign bits.

use super::frame::{Frame, CALL_ROOM};
use super::sheets::offered;
use crate::call_sign::{call_sign_bits, CALL_SIGNS, CALL_SIGN_BITS};
use crate::frame::read_frame;
use crate::header::Field;
use crate::rng::Rng;
use crate::rules::EDITIONS;

/// Frames with at most one thing wrong, and call sign bits that are right about as often as not.
pub(super) fn inputs(rng: &mut Rng) -> Vec<Vec<u8>> {
    let mut inputs = Vec::new();
    for _ in 0..1_000 {
        // three flown ones to one corrected
        let edition = EDITIONS[usize::from(rng.one_in(4))];
        let frame = offered(rng, edition);
        let call = any_call(rng, &frame);
        inputs.extend(Frame { call, ..frame }.sign_input());
    }
    inputs
}

/// Call sign bits by chance, or none: those of the frame's satellite, of any of the four, with an element that is not
/// right, too few or too many.
fn any_call(rng: &mut Rng, frame: &Frame) -> Option<Vec<u8>> {
    let heard = read_frame(frame.rules, None, &frame.slice, &frame.rule.payload());
    let satellite = match heard {
        Ok(heard) if !rng.one_in(4) => usize::from(heard.header[Field::SrcId] / 2),
        _ => rng.below(CALL_SIGNS.len() as u32) as usize,
    };
    let mut call = call_sign_bits(satellite).to_vec();
    let at = rng.below(CALL_SIGN_BITS as u32) as usize;
    match rng.below(10) {
        0 => return None,
        1 => call[at] ^= 1,
        2 => call[at] = rng.within(2..=255) as u8,
        3 => call.resize(rng.below(CALL_ROOM as u32 + 1) as usize, 0),
        4 => call.fill_with(|| rng.below(2) as u8),
        _ => {}
    }
    Some(call)
}
