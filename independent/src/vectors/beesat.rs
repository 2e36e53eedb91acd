//! The kinds `beesat` and `fields`: inputs, replies and lines.

use super::bytes::{put, Bytes};
use super::frame::sized;
use super::lines::{add, answer_line, written_line};
use super::replies::put_answer;
use crate::beesat::sample::{
    self, fresh_frame, seal, spoil_fixed, spoil_marker, spoil_sum, wrong_sums, APID, VCID,
};
use crate::beesat::{
    field_row, read, write_field, Frame, ERROR_FIELD, FIELDS, FIXED, FRAME_BYTES, FREE, IDLE_APID,
    VALUES,
};
use crate::rng::Rng;

/// Room for a frame in a record.
const FRAME_ROOM: usize = 160;

/// The sizes of a record and of a reply.
pub(super) const FRAME_SIZES: (usize, usize) = (2 + FRAME_ROOM, 66);
pub(super) const FIELD_SIZES: (usize, usize) = (4 + 4 + 2 + FRAME_ROOM, 9 + 2 + FRAME_ROOM);

/// The sizes of the six free header values in a reply.
const FREE_BYTES: [usize; FREE] = [1, 1, 1, 2, 1, 2];

/// The case byte of a reply.
const TELEMETRY: u8 = 1;
const IDLE: u8 = 2;

/// Lengths that are no frame's.
const OTHER_LENGTHS: [usize; 13] = [0, 1, 3, 4, 16, 48, 141, 142, 143, 145, 146, 159, 160];

/// The inputs of `beesat`.
pub(super) fn frame_inputs(rng: &mut Rng) -> Vec<Vec<u8>> {
    let mut frames = good_frames(rng);
    frames.extend(one_bit_frames(rng));
    frames.extend(spoiled_frames(rng));
    frames.iter().map(|f| sized(f, FRAME_ROOM)).collect()
}

/// Frames that read well: telemetry and idle ones by chance, free header values at their limits, APIDs beside that of idle
/// frames, and each bit of the values and states alone.
fn good_frames(rng: &mut Rng) -> Vec<Vec<u8>> {
    let mut frames = Vec::new();
    for round in 0..60 {
        frames.push(fresh_frame(rng, round % 3 == 2));
    }
    for field in FIELDS - FREE as u32..FIELDS {
        let largest = field_row(field).map_or(0, |row| row.largest());
        for value in [0, 1, largest / 2, largest / 2 + 1, largest - 1, largest] {
            let mut frame = fresh_frame(rng, false);
            sample::put(&mut frame, field, value);
            frames.push(frame);
        }
    }
    let idle = u32::from(IDLE_APID);
    for bit in 0..11 {
        let mut frame = fresh_frame(rng, false);
        sample::put(&mut frame, APID, idle ^ 1 << bit);
        frames.push(frame);
    }
    for bit in 16 * 8..48 * 8 {
        let mut frame = fresh_frame(rng, false);
        frame[16..142].fill(0);
        frame[bit / 8] = 0x80 >> (bit % 8);
        frames.push(frame);
    }
    frames.iter_mut().for_each(seal);
    frames.iter().map(|frame| frame.to_vec()).collect()
}

/// Frames in which one bit is another: of the marker and the headers each, under the old error field and under a new one; of what
/// follows one in five, and all of the error field.
fn one_bit_frames(rng: &mut Rng) -> Vec<Vec<u8>> {
    let mut frames = Vec::new();
    let later = (16 * 8..142 * 8).step_by(5).chain(142 * 8..144 * 8);
    for bit in (0..16 * 8).chain(later) {
        let mut frame = fresh_frame(rng, bit % 7 == 0);
        frame[bit / 8] ^= 0x80 >> (bit % 8);
        frames.push(frame.to_vec());
        if bit < 16 * 8 {
            seal(&mut frame);
            frames.push(frame.to_vec());
        }
    }
    frames
}

/// Frames of each refusal and of several at once, telemetry and idle; bytes by chance.
fn spoiled_frames(rng: &mut Rng) -> Vec<Vec<u8>> {
    let mut frames = Vec::new();
    for length in OTHER_LENGTHS {
        let mut cut = fresh_frame(rng, false).to_vec();
        cut.resize(length, 0);
        frames.push(cut);
        frames.push(vec![0xFF; length]);
    }
    for idle in [false, true] {
        let frame = fresh_frame(rng, idle);
        for sum in wrong_sums(&frame) {
            let mut frame = frame;
            ERROR_FIELD.write(&mut frame, sum.into());
            frames.push(frame.to_vec());
        }
        for (number, one) in FIXED.iter().enumerate() {
            for other in &FIXED[number..] {
                let mut frame = fresh_frame(rng, idle);
                sample::spoil_row(rng, &mut frame, one.row());
                sample::spoil_row(rng, &mut frame, other.row());
                seal(&mut frame);
                frames.push(frame.to_vec());
            }
        }
        for round in 0..64 {
            let (marker, sum, fixed) = (round & 1 == 1, round & 2 == 2, round & 4 == 4);
            let mut frame = fresh_frame(rng, idle);
            if fixed {
                spoil_fixed(rng, &mut frame);
            }
            if sum {
                spoil_sum(rng, &mut frame);
            }
            if marker {
                spoil_marker(rng, &mut frame);
            }
            frames.push(frame.to_vec());
        }
    }
    for _ in 0..20 {
        frames.push(rng.bytes(FRAME_BYTES));
    }
    frames
}

/// One input of `fields`.
fn field_input(field: u32, value: u32, frame: &[u8]) -> Vec<u8> {
    let mut record = field.to_be_bytes().to_vec();
    record.extend(value.to_be_bytes());
    record.extend(sized(frame, FRAME_ROOM));
    record
}

/// Field numbers up to 90, and larger ones whose low bits are those of a field.
fn field_numbers() -> impl Iterator<Item = u32> {
    let larger = [127, 128, 255, 256, 300, 65_536, 65_619, 1 << 31, u32::MAX];
    (0..=90).chain(larger)
}

/// The inputs of `fields`.
pub(super) fn field_inputs(rng: &mut Rng) -> Vec<Vec<u8>> {
    let mut inputs = value_inputs(rng);
    // "An idle frame": every field, with values in and out of its range.
    for (field, value) in field_numbers().zip([0, 1, 1 << 15, u32::MAX].into_iter().cycle()) {
        inputs.push(field_input(field, value, &fresh_frame(rng, true)));
    }
    // Frames that do not read well, for fields that there are and are not, with values in range and too large.
    let mut spoiled: Vec<Vec<u8>> = Vec::new();
    for idle in [false, true] {
        let mut frames = [(); 3].map(|()| fresh_frame(rng, idle));
        spoil_marker(rng, &mut frames[0]);
        spoil_sum(rng, &mut frames[1]);
        spoil_fixed(rng, &mut frames[2]);
        spoiled.extend(frames.map(|frame| frame.to_vec()));
    }
    for length in OTHER_LENGTHS {
        let mut cut = fresh_frame(rng, false).to_vec();
        cut.resize(length, 0);
        spoiled.push(cut);
    }
    for frame in spoiled {
        for (field, value) in [(7, 1), (APID, 4_095), (FIELDS, 0), (u32::MAX, u32::MAX)] {
            inputs.push(field_input(field, value, &frame));
        }
    }
    inputs
}

/// Every field of telemetry frames: the value that is there, values by chance, at the limits and past them, also by so much
/// that the low bits are in range.
fn value_inputs(rng: &mut Rng) -> Vec<Vec<u8>> {
    let mut inputs = Vec::new();
    for field in field_numbers() {
        let frame = fresh_frame(rng, false);
        let mut values = vec![0, 1, u32::MAX];
        if let Some(row) = field_row(field) {
            let largest = row.largest();
            values.extend([largest - 1, largest, largest + 1, 2 * largest + 2]);
            values.extend([1 << 8, 1 << 16, 1 << 31]);
            values.push(row.read(&frame));
            values.push(row.read(&frame) ^ largest);
            values.push(rng.within(0..=largest));
        }
        values.sort_unstable();
        values.dedup();
        for value in values {
            inputs.push(field_input(field, value, &frame));
        }
    }
    // The frame becomes idle.
    for _ in 0..4 {
        let frame = fresh_frame(rng, false);
        inputs.push(field_input(APID, IDLE_APID.into(), &frame));
    }
    inputs
}

/// Whether an input of `beesat` is an idle frame.
pub(super) fn is_idle(input: &[u8]) -> bool {
    matches!(read(Bytes(input).sized(FRAME_ROOM)), Ok(Frame::Idle { .. }))
}

/// Whether an input of `fields` is at the limit of its field's value, or one past it, has no such field, or is for a header
/// field of an idle frame.
pub(super) fn is_limit(input: &[u8]) -> bool {
    let mut call = Bytes(input);
    let (field, value) = (call.u32(), call.u32());
    match field_row(field) {
        None => true,
        Some(row) if value == row.largest() || value == row.largest() + 1 => true,
        Some(_) => field >= VCID && is_idle(call.0),
    }
}

/// The reply to an input of `beesat`.
pub(super) fn frame_reply(input: &mut Bytes, out: &mut Vec<u8>) {
    let heard = match read(input.sized(FRAME_ROOM)) {
        Ok(heard) => heard,
        Err(refusal) => return put_answer(Err(refusal), out),
    };
    put_answer(Ok(()), out);
    let (case, header) = match heard {
        Frame::Telemetry { header, .. } => (TELEMETRY, header),
        Frame::Idle { header } => (IDLE, header),
    };
    put(out, 1, case);
    for (bytes, value) in FREE_BYTES.into_iter().zip(header.values()) {
        put(out, bytes, value);
    }
    if let Frame::Telemetry { values, states, .. } = heard {
        values.into_iter().for_each(|value| put(out, 2, value));
        states.into_iter().for_each(|state| put(out, 1, state));
    }
}

/// The reply to an input of `fields`.
pub(super) fn field_reply(input: &mut Bytes, out: &mut Vec<u8>) {
    let (field, value) = (input.u32(), input.u32());
    let length = input.length(FRAME_ROOM);
    let mut room = input.take(FRAME_ROOM).to_vec();
    put_answer(write_field(&mut room[..length], field, value), out);
    put(out, 2, length as u16);
    out.extend(room);
}

/// The line of a reply of `beesat`.
pub(super) fn frame_line(reply: &mut Bytes) -> String {
    answer_line(reply, |reply| {
        let case = reply.u8();
        let mut line = String::from(if case == IDLE { "idle" } else { "telemetry" });
        for bytes in FREE_BYTES {
            add(&mut line, reply.number(bytes));
        }
        if case != IDLE {
            for bytes in [[2; VALUES], [1; VALUES]].concat() {
                add(&mut line, reply.number(bytes));
            }
        }
        line
    })
}

/// The line of a reply of `fields`.
pub(super) fn field_line(reply: &mut Bytes) -> String {
    written_line(reply, FRAME_ROOM, |byte| format!("{byte:02x}"))
}
