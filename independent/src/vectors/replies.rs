//! The reply to each input.

use super::bytes::{put, Bytes};
use super::frame::{take_call, take_edition, take_rules, PayloadRule, HEADER_ROOM, PAYLOAD_ROOM};
use super::inputs::PAGE_ROOM;
use super::sheets::{put_counts, put_sheet, put_source, take_sheet, Wide};
use super::{beesat, Kind};
use crate::air::AIR_BITS;
use crate::call_sign::call_sign_bits;
use crate::crc::crc13;
use crate::frame::read_frame;
use crate::header::{crc5, read_header, write_header, Field, Heard, FIELDS, GIVEN};
use crate::page::{read_page, write_page, Page, ROWS};
use crate::refusal::Refusal;
use crate::shown::Scaling;
use crate::word::{encode, repair};

/// The most room of the header writer's output, and of the page writer's.
pub(super) const AIR_ROOM: usize = 256;
pub(super) const USER_ROOM: usize = 64;

/// What the writers' outputs hold beforehand.
const HELD_AIR: u8 = 7;
const HELD_ROWS: u8 = 0xA7;

/// The bits that stand for every NaN.
pub(super) const NAN_BITS: u64 = u64::MAX;

/// The sizes of a header's fields in a reply, in the paper's order.
pub(super) const FIELD_BYTES: [usize; FIELDS] = [1, 1, 1, 1, 1, 1, 1, 1, 1, 1, 1, 1, 1, 1, 2, 2, 1];

/// The reply to an input of any kind but the stored ones. Where a refusal has nothing to tell, zeros stand.
pub(super) fn reply(kind: Kind, input: &[u8]) -> Vec<u8> {
    let mut input = Bytes(input);
    let mut out = Vec::new();
    match kind {
        Kind::Words => word_reply(input.u16(), &mut out),
        Kind::Encode => {
            let data = input.u8() % 32;
            put(&mut out, 1, data);
            put(&mut out, 2, encode(data.into()));
        }
        Kind::Crc13 => {
            let payload = input.sized(PAYLOAD_ROOM);
            put(&mut out, 2, payload.len() as u16);
            put(&mut out, 2, crc13(payload));
        }
        Kind::Crc5 => {
            let edition = take_edition(&mut input);
            let bits = input
                .take(65)
                .iter()
                .fold(0, |bits, &bit| bits << 1 | u128::from(bit % 2));
            put(&mut out, 1, crc5(edition, bits << 5));
        }
        Kind::Headers => {
            let rules = take_rules(&mut input);
            heard_reply(read_header(rules, None, input.sized(HEADER_ROOM)), &mut out);
        }
        Kind::Writes => write_reply(&mut input, &mut out),
        Kind::Frames => {
            let rules = take_rules(&mut input);
            let air = input.sized(HEADER_ROOM);
            heard_reply(read_frame(rules, None, air, &payload(&mut input)), &mut out);
        }
        Kind::Pages => match read_page(input.sized(PAGE_ROOM)) {
            Ok(page) => page_reply(&page, &mut out),
            Err(refusal) => put_answer(Err(refusal), &mut out),
        },
        Kind::Rows => rows_reply(&mut input, &mut out),
        Kind::Shown => shown_reply(&mut input, &mut out),
        Kind::Sheets => sheet_reply(&mut input, &mut out),
        Kind::Sources => {
            let sheet = take_sheet(&mut input);
            let source = sheet.source(input.u8().into());
            put_source(&source, &mut out);
            put(&mut out, 8, source.accepted());
            put(&mut out, 8, source.repaired());
        }
        Kind::Wides => wide_reply(&mut input, &mut out),
        Kind::Signs => {
            let rules = take_rules(&mut input);
            let call = take_call(&mut input);
            let air = input.take(AIR_BITS);
            heard_reply(read_frame(rules, call, air, &payload(&mut input)), &mut out);
        }
        Kind::Calls => out.extend(call_sign_bits(input.u8().into())),
        Kind::Beesat => beesat::frame_reply(&mut input, &mut out),
        Kind::Fields => beesat::field_reply(&mut input, &mut out),
        Kind::Stored | Kind::StoredSheets | Kind::StoredBeesat => {
            unreachable!("a stored record has the kind of what it holds")
        }
    }
    out.resize(kind.reply_bytes(), 0);
    out
}

/// The payload of a payload rule.
fn payload(input: &mut Bytes) -> Vec<u8> {
    let rule = PayloadRule {
        length: input.length(PAYLOAD_ROOM) as u16,
        start: input.u8(),
        step: input.u8(),
    };
    rule.payload()
}

/// Puts number and place of a refusal, or zeros.
pub(super) fn put_answer(answer: Result<(), Refusal>, out: &mut Vec<u8>) {
    let (number, place) = match answer {
        Ok(()) => (0, 0),
        Err(refusal) => (refusal.number, refusal.place),
    };
    put(out, 1, number);
    put(out, 8, place as u64);
}

/// There is one repair here, which stands for the table's and for the search's.
fn word_reply(number: u16, out: &mut Vec<u8>) {
    put(out, 2, number);
    for _ in 0..2 {
        let (found, word, pattern) = match repair(number) {
            Some(repaired) => (1, repaired.word, repaired.pattern),
            None => (0, 0, 0),
        };
        put(out, 1, found as u8);
        put(out, 2, word);
        put(out, 2, pattern);
    }
}

fn heard_reply(answer: Result<Heard, Refusal>, out: &mut Vec<u8>) {
    match answer {
        Ok(heard) => {
            put_answer(Ok(()), out);
            for (bytes, value) in FIELD_BYTES.into_iter().zip(heard.header.values) {
                put(out, bytes, value);
            }
            put(out, 4, heard.flips());
            for pattern in heard.patterns {
                put(out, 2, pattern);
            }
        }
        Err(refusal) => put_answer(Err(refusal), out),
    }
}

/// Puts a writer's answer, how much room its output has, and all of the output.
fn put_written(answer: Result<(), Refusal>, output: &[u8], out: &mut Vec<u8>) {
    put_answer(answer, out);
    put(out, 2, output.len() as u16);
    out.extend(output);
}

fn write_reply(input: &mut Bytes, out: &mut Vec<u8>) {
    let edition = take_edition(input);
    let mut given = [0; GIVEN];
    given.fill_with(|| input.u8().into());
    let mut output = vec![HELD_AIR; input.length(AIR_ROOM)];
    let answer = write_header(edition, &given, &payload(input), &mut output);
    put_written(answer, &output, out);
}

fn rows_reply(input: &mut Bytes, out: &mut Vec<u8>) {
    let mut rows = [0; ROWS];
    rows.fill_with(|| input.u16() as i16);
    let mut output = vec![HELD_ROWS; input.length(USER_ROOM)];
    let answer = write_page(&rows, &mut output);
    put_written(answer, &output, out);
}

fn page_reply(page: &Page, out: &mut Vec<u8>) {
    let flags = page.flags;
    put_answer(Ok(()), out);
    put(out, 4, page.fsync);
    put(out, 2, page.crc14);
    put(out, 1, page.fcid_major);
    put(out, 2, page.fcid_sub);
    for flag in [
        flags.urgent,
        flags.future,
        flags.crc,
        flags.multi_frame,
        flags.time_tagged_setting,
        flags.time_tagged,
    ] {
        put(out, 1, flag);
    }
    put(out, 2, page.frame_length);
    put(out, 4, page.time_tag.unwrap_or(0));
    for row in page.rows {
        put(out, 2, row as u16);
    }
    put(out, 8, page.later.start as u64);
    put(out, 8, page.later.len() as u64);
}

fn shown_reply(input: &mut Bytes, out: &mut Vec<u8>) {
    let scaling = Scaling {
        c0: f64::from_bits(input.number(8)),
        c1: f64::from_bits(input.number(8)),
        c2: f64::from_bits(input.number(8)),
        spread: input.u16().into(),
    };
    match scaling.shown(input.u16() as i16) {
        Ok(value) => {
            let bits = if value.is_nan() {
                NAN_BITS
            } else {
                value.to_bits()
            };
            put_answer(Ok(()), out);
            put(out, 8, bits);
        }
        Err(refusal) => put_answer(Err(refusal), out),
    }
}

fn sheet_reply(input: &mut Bytes, out: &mut Vec<u8>) {
    let rules = take_rules(input);
    let call = take_call(input);
    let mut sheet = take_sheet(input);
    let air = input.take(AIR_BITS);
    heard_reply(sheet.offer(rules, call, air, &payload(input)), out);
    // beside a refusal the fields of a header and the patterns are zeros
    out.resize(Kind::Headers.reply_bytes(), 0);
    put_sheet(&sheet, out);
}

/// The source that is told of is the frame's where it was accepted, else that of the record.
fn wide_reply(input: &mut Bytes, out: &mut Vec<u8>) {
    let rules = take_rules(input);
    let wide = Wide::take(input);
    let mut sheet = wide.sheet();
    let air = input.take(AIR_BITS);
    let answer = sheet.offer(rules, None, air, &payload(input));
    let number = match &answer {
        Ok(heard) => heard.header[Field::SrcId] as u8,
        Err(_) => wide.number,
    };
    heard_reply(answer, out);
    out.resize(Kind::Headers.reply_bytes(), 0);
    put(out, 1, number);
    put_source(&sheet.source(number.into()), out);
    put_counts(&sheet.refused, out);
    put(out, 8, sheet.offered());
}
