//! The line of each reply.

use std::fmt::{Display, Write};

use super::bytes::Bytes;
use super::replies::{AIR_ROOM, FIELD_BYTES, NAN_BITS, USER_ROOM};
use super::{beesat, Kind};
use crate::air::WORDS;
use crate::call_sign::CALL_SIGN_BITS;
use crate::page::ROWS;
use crate::rules::Edition;
use crate::sheet::COUNTS;

/// The line of a reply of any kind but the stored ones, without its line feed.
pub(super) fn line(kind: Kind, reply: &[u8]) -> String {
    let mut reply = Bytes(reply);
    match kind {
        Kind::Words => word_line(&mut reply),
        Kind::Encode => format!("{} {}", reply.u8(), reply.u16()),
        Kind::Crc13 => format!("{} {}", reply.u16(), reply.u16()),
        Kind::Crc5 => reply.u8().to_string(),
        Kind::Headers | Kind::Frames | Kind::Signs => heard_line(&mut reply),
        Kind::Writes => written_line(&mut reply, AIR_ROOM, |byte| byte.to_string()),
        Kind::Pages => answer_line(&mut reply, page_line),
        Kind::Rows => written_line(&mut reply, USER_ROOM, |byte| format!("{byte:02x}")),
        Kind::Shown => answer_line(&mut reply, |reply| match reply.number(8) {
            NAN_BITS => String::from("nan"),
            bits => format!("{bits:016x}"),
        }),
        Kind::Sheets => sheet_line(&mut reply),
        Kind::Sources => source_line(&mut reply),
        Kind::Wides => wide_line(&mut reply),
        Kind::Calls => digits_of(reply.take(CALL_SIGN_BITS), |bit| bit.to_string()),
        Kind::Beesat => beesat::frame_line(&mut reply),
        Kind::Fields => beesat::field_line(&mut reply),
        Kind::Stored | Kind::StoredSheets | Kind::StoredBeesat => {
            unreachable!("a stored record has the kind of what it holds")
        }
    }
}

/// Adds a space and a number.
pub(super) fn add(line: &mut String, number: impl Display) {
    // Writing to a string does not fail.
    let _ = write!(line, " {number}");
}

/// The refusal, or what stands in its place.
pub(super) fn answer_line(reply: &mut Bytes, told: impl FnOnce(&mut Bytes) -> String) -> String {
    match (reply.u8(), reply.number(8)) {
        (0, _) => told(reply),
        (number, place) => format!("refused {number} {place}"),
    }
}

/// The table and the search say the same, or both are told.
fn word_line(reply: &mut Bytes) -> String {
    let number = reply.u16();
    let mut repaired = || match (reply.u8(), reply.u16(), reply.u16()) {
        (0, _, _) => String::from("beyond"),
        (_, word, pattern) => format!("{word} {}", pattern_digits(pattern)),
    };
    let (table, search) = (repaired(), repaired());
    if table == search {
        format!("{number} {table}")
    } else {
        format!("{number} by table {table} by search {search}")
    }
}

/// A flip pattern, in which single positions are to be seen.
fn pattern_digits(pattern: u16) -> String {
    format!("{pattern:04x}")
}

fn heard_line(reply: &mut Bytes) -> String {
    answer_line(reply, |reply| {
        let mut line = String::from("accepted");
        for bytes in FIELD_BYTES {
            add(&mut line, reply.number(bytes));
        }
        add(&mut line, reply.u32());
        for _ in 0..WORDS {
            add(&mut line, pattern_digits(reply.u16()));
        }
        line
    })
}

/// A writer's answer and all bytes of its output, each as `digits` tells.
pub(super) fn written_line(reply: &mut Bytes, most: usize, digits: fn(u8) -> String) -> String {
    let mut line = answer_line(reply, |_| String::from("written"));
    let bytes = digits_of(reply.sized(most), digits);
    add(&mut line, if bytes.is_empty() { "-" } else { &bytes });
    line
}

/// All bytes, each as `digits` tells.
fn digits_of(bytes: &[u8], digits: fn(u8) -> String) -> String {
    bytes.iter().map(|&byte| digits(byte)).collect()
}

fn page_line(reply: &mut Bytes) -> String {
    let mut line = String::from("page");
    // FSYNC, CRC14, FCID major and sub, six flags, FrameLength, time tag
    for bytes in [4, 2, 1, 2, 1, 1, 1, 1, 1, 1, 2, 4] {
        add(&mut line, reply.number(bytes));
    }
    for _ in 0..ROWS {
        add(&mut line, reply.u16() as i16);
    }
    // where the later user bytes start, and how many they are
    for _ in 0..2 {
        add(&mut line, reply.number(8));
    }
    line
}

/// Adds the numbers of a caller's lane and of a responder's.
fn add_source(line: &mut String, reply: &mut Bytes) {
    for _ in 0..2 {
        for _ in 0..4 {
            add(line, reply.u32());
        }
        match (reply.u8(), reply.u8()) {
            (0, _) => add(line, "-"),
            (_, last) => add(line, last),
        }
    }
}

/// Both lanes, and the sums of frames and of repaired bits.
fn source_line(reply: &mut Bytes) -> String {
    let mut line = String::from("source");
    add_source(&mut line, reply);
    for _ in 0..2 {
        add(&mut line, reply.number(8));
    }
    line
}

fn sheet_line(reply: &mut Bytes) -> String {
    let answer = reply.take(Kind::Headers.reply_bytes());
    let mut line = heard_line(&mut Bytes(answer));
    for _ in 0..Edition::Flown.sources() {
        add_source(&mut line, reply);
    }
    for _ in 0..COUNTS {
        add(&mut line, reply.u32());
    }
    line
}

/// One source of a corrected sheet behind its number, the counts, and how many frames were heard.
fn wide_line(reply: &mut Bytes) -> String {
    let answer = reply.take(Kind::Headers.reply_bytes());
    let mut line = heard_line(&mut Bytes(answer));
    add(&mut line, reply.u8());
    add_source(&mut line, reply);
    for _ in 0..COUNTS {
        add(&mut line, reply.u32());
    }
    add(&mut line, reply.number(8));
    line
}
