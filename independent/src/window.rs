//! The header answer for the 210 bits behind a marker: that of the reader, under an edition and the limit of a caller that names none.

use crate::air::AIR_BITS;
use crate::header::{read_header, Heard};
use crate::refusal::Refusal;
use crate::rules::{usual, Edition};

/// Reads the header of a window; every element is 0 or 1. "The search takes 28", and gives no call sign bits.
pub fn judge_window(edition: Edition, bits: &[u8; AIR_BITS]) -> Result<Heard, Refusal> {
    read_header(usual(edition), None, bits)
}
