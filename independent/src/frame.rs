//! A frame: header and payload judged together (refusals 20, 1 to 8, 21, 23, 24).

use crate::crc::crc13;
use crate::header::{read_header, Field, Heard};
use crate::refusal::Refusal;
use crate::rules::Rules;

/// Reads a frame, with its call sign bits where they are given: the header's refusals first, then those of its payload.
pub fn read_frame(
    rules: Rules,
    call: Option<&[u8]>,
    air: &[u8],
    payload: &[u8],
) -> Result<Heard, Refusal> {
    let heard = read_header(rules, call, air)?;
    // 7: "payload length is not PduLength", PduLength
    let pdu_length = heard.header[Field::PduLength];
    if payload.len() != usize::from(pdu_length) {
        return Err(Refusal::new(7, pdu_length));
    }
    // 8: "CRC13 differs", CRC13 worked out
    let worked_out = crc13(payload);
    if heard.header[Field::Crc13] != worked_out {
        return Err(Refusal::new(8, worked_out));
    }
    Ok(heard)
}
