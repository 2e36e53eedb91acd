//! BEESAT-1 frames and damage to make seasons and vectors of.

use super::{error_field, field_row, Row, ERROR_FIELD, FIXED, FRAME_BYTES, IDLE_APID, MARKER};
use crate::crc::{Crc, CRC16};
use crate::rng::Rng;

/// The field number of VCID.
pub const VCID: u32 = 80;
/// The field number of MCFC.
pub const MCFC: u32 = 81;
/// The field number of VCFC.
pub const VCFC: u32 = 82;
/// The field number of APID.
pub const APID: u32 = 83;
/// The field number of PSC.
pub const PSC: u32 = 85;

/// The first byte of the data, behind the headers.
const DATA: usize = 16;

/// Puts a value into a field that there is; the error field stays.
pub fn put(frame: &mut [u8; FRAME_BYTES], field: u32, value: u32) {
    if let Some(row) = field_row(field) {
        row.write(frame, value);
    }
}

/// Works the error field out.
pub fn seal(frame: &mut [u8; FRAME_BYTES]) {
    ERROR_FIELD.write(frame, error_field(frame).into());
}

/// A frame that reads well, with free values and data by chance: an idle one, or telemetry.
pub fn fresh_frame(rng: &mut Rng, idle: bool) -> [u8; FRAME_BYTES] {
    let mut frame = [0; FRAME_BYTES];
    rng.fill(&mut frame);
    match rng.below(16) {
        0 => frame[DATA..].fill(0x00),
        1 => frame[DATA..].fill(0xFF),
        _ => {}
    }
    MARKER.write(&mut frame);
    FIXED.iter().for_each(|fixed| fixed.write(&mut frame));
    let idle_apid = u32::from(IDLE_APID);
    let apid = if idle {
        idle_apid
    } else {
        rng.below(idle_apid)
    };
    put(&mut frame, APID, apid);
    seal(&mut frame);
    frame
}

/// Changes one bit of the row, or several.
pub fn spoil_row(rng: &mut Rng, frame: &mut [u8; FRAME_BYTES], row: Row) {
    let change = if rng.one_in(2) {
        1 << rng.below(row.length as u32)
    } else {
        1 + rng.below(row.largest())
    };
    row.write(frame, row.read(frame) ^ change);
}

/// Changes the marker.
pub fn spoil_marker(rng: &mut Rng, frame: &mut [u8; FRAME_BYTES]) {
    spoil_row(rng, frame, MARKER.row());
}

/// Changes one to three of the fixed header values, under a right error field.
pub fn spoil_fixed(rng: &mut Rng, frame: &mut [u8; FRAME_BYTES]) {
    let first = rng.below(FIXED.len() as u32) as usize;
    for further in 0..rng.within(1..=3) as usize {
        spoil_row(rng, frame, FIXED[(first + 5 * further) % FIXED.len()].row());
    }
    seal(frame);
}

/// Error fields as other rules give them, none of which is right: low byte first, start 0, bytes 0 to 141, 4 to 140 and 5 to
/// 141, from the last byte to the first, all bits turned over, another polynomial.
pub fn wrong_sums(frame: &[u8; FRAME_BYTES]) -> Vec<u16> {
    let right = error_field(frame);
    let (from_zero, other) = (
        Crc { start: 0, ..CRC16 },
        Crc {
            polynomial: 0x8005,
            ..CRC16
        },
    );
    let mut sums = vec![
        right.swap_bytes(),
        from_zero.in_order(&frame[4..142]),
        CRC16.in_order(&frame[..142]),
        CRC16.in_order(&frame[4..141]),
        CRC16.in_order(&frame[5..142]),
        CRC16.of(&frame[4..142]),
        !right,
        other.in_order(&frame[4..142]),
    ];
    sums.retain(|&sum| sum != right);
    sums
}

/// Changes a bit under the error field, a bit of the error field, or puts that of another rule.
pub fn spoil_sum(rng: &mut Rng, frame: &mut [u8; FRAME_BYTES]) {
    match rng.below(3) {
        0 => {
            let bit = rng.within(4 * 8..=142 * 8 - 1) as usize;
            frame[bit / 8] ^= 0x80 >> (bit % 8);
        }
        1 => spoil_row(rng, frame, ERROR_FIELD),
        _ => {
            let sums = wrong_sums(frame);
            let sum = sums[rng.below(sums.len() as u32) as usize];
            ERROR_FIELD.write(frame, sum.into());
        }
    }
}
