//! Vectors: inputs that a program in another language answers too, so that the two can be compared.
//!
//! Each kind has a stream of inputs, a reply to each input and a line for each reply. README.md tells
//! their format; `inputs.rs`, `sheets.rs`, `shown.rs`, `signs.rs`, `beesat.rs` and `telling` say which inputs there
//! are. A seed (1 where none is named) drives those that are left to chance.

mod beesat;
mod bytes;
mod compare;
mod frame;
mod inputs;
mod lines;
mod replies;
mod sheets;
mod shown;
mod signs;
mod stored;
mod telling;

use std::io::{self, Write};

pub use compare::{compare, Comparison};

/// What a vector is about.
#[allow(missing_docs)] // The table of README.md says it.
#[derive(Clone, Copy, Debug, PartialEq, Eq)]
pub enum Kind {
    Words,
    Encode,
    Crc13,
    Crc5,
    Headers,
    Writes,
    Frames,
    Pages,
    Rows,
    Shown,
    Sheets,
    Sources,
    Wides,
    Signs,
    Calls,
    Beesat,
    Fields,
    Stored,
    StoredSheets,
    StoredBeesat,
}

/// All kinds with their names, in the order that numbers them in the stored streams.
pub const KINDS: [(&str, Kind); 20] = [
    ("words", Kind::Words),
    ("encode", Kind::Encode),
    ("crc13", Kind::Crc13),
    ("crc5", Kind::Crc5),
    ("headers", Kind::Headers),
    ("writes", Kind::Writes),
    ("frames", Kind::Frames),
    ("pages", Kind::Pages),
    ("rows", Kind::Rows),
    ("shown", Kind::Shown),
    ("sheets", Kind::Sheets),
    ("sources", Kind::Sources),
    ("wides", Kind::Wides),
    ("signs", Kind::Signs),
    ("calls", Kind::Calls),
    ("beesat", Kind::Beesat),
    ("fields", Kind::Fields),
    ("stored", Kind::Stored),
    ("stored-sheets", Kind::StoredSheets),
    ("stored-beesat", Kind::StoredBeesat),
];

/// The seed where none is named.
pub const DEFAULT_SEED: u64 = 1;

/// The sizes of a record and of a reply, in the order of the kinds; a stored record has the sizes of what it holds.
const SIZES: [(usize, usize); 17] = [
    (2, 12),
    (1, 3),
    (2_049, 4),
    (66, 1),
    (263, 60),
    (21, 267),
    (267, 60),
    (1_102, 80),
    (36, 75),
    (28, 17),
    (622, 396),
    (337, 52),
    (304, 153),
    (286, 60),
    (1, 48),
    beesat::FRAME_SIZES,
    beesat::FIELD_SIZES,
];

impl Kind {
    /// The kind of this name.
    pub fn named(name: &str) -> Option<Kind> {
        KINDS
            .iter()
            .find(|(n, _)| *n == name)
            .map(|&(_, kind)| kind)
    }

    /// The name of this kind.
    pub fn name(self) -> &'static str {
        KINDS[self as usize].0
    }

    /// Whether a record of this kind is one of another kind, behind the byte of that.
    fn is_stored(self) -> bool {
        matches!(self, Kind::Stored | Kind::StoredSheets | Kind::StoredBeesat)
    }

    /// The size of a reply of this kind, which is not stored.
    fn reply_bytes(self) -> usize {
        SIZES[self as usize].1
    }
}

/// The records of a stream, each with the kind of its reply; none where something else stands among them.
fn records(kind: Kind, stream: &[u8]) -> Option<Vec<(Kind, &[u8])>> {
    let mut records = Vec::new();
    let mut rest = stream;
    while !rest.is_empty() {
        let kind = if kind.is_stored() {
            let number = usize::from(rest[0]);
            rest = &rest[1..];
            KINDS.get(number)?.1
        } else {
            kind
        };
        let (size, _) = *SIZES.get(kind as usize)?;
        if rest.len() < size {
            return None;
        }
        let (record, after) = rest.split_at(size);
        records.push((kind, record));
        rest = after;
    }
    Some(records)
}

/// Writes the inputs of a kind.
pub fn write_inputs(kind: Kind, seed: u64, out: &mut impl Write) -> io::Result<()> {
    inputs::inputs(kind, seed)
        .iter()
        .try_for_each(|input| out.write_all(input))
}

/// Writes the replies to the inputs of a kind.
pub fn write_replies(kind: Kind, seed: u64, out: &mut impl Write) -> io::Result<()> {
    each_reply(kind, seed, |_, reply| out.write_all(reply))
}

/// Writes the lines of the replies to the inputs of a kind.
pub fn write_lines(kind: Kind, seed: u64, out: &mut impl Write) -> io::Result<()> {
    each_reply(kind, seed, |kind, reply| {
        writeln!(out, "{}", lines::line(kind, reply))
    })
}

/// Hands each reply on, with its kind.
fn each_reply(
    kind: Kind,
    seed: u64,
    mut hand: impl FnMut(Kind, &[u8]) -> io::Result<()>,
) -> io::Result<()> {
    for input in inputs::inputs(kind, seed) {
        for (kind, record) in records(kind, &input).into_iter().flatten() {
            hand(kind, &replies::reply(kind, record))?;
        }
    }
    Ok(())
}
