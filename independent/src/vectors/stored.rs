//! The inputs of `stored`, `stored-sheets` and `stored-beesat`: a part of the inputs of every other kind.
//!
//! One input in so many is taken, and besides those at a limit of their kind, those that are the first
//! with their refusal and place, and all telling ones. So every refusal of the other streams is there,
//! and the whole is small enough to be kept in a repository. What reads headers and frames has a stream
//! of its own, sheets among it, and so has BEESAT-1.

use std::collections::{BTreeMap, BTreeSet};

use super::inputs::mixture;
use super::lines::line;
use super::replies::reply;
use super::{beesat, shown, telling, Kind};
use crate::header::LONGEST_PAYLOAD;

/// How much of a kind is taken.
struct Share {
    /// One input of so many. It has no factor in common with the number of inputs that a round of the
    /// kind makes, so that each sort of a round comes up.
    every: usize,
    /// At most so many places of each refusal are taken for being new.
    places: usize,
}

/// The shares of the kinds, in the order that numbers them: all but the stored ones themselves.
const SHARES: [(Kind, Share); 17] = [
    (Kind::Words, one_of(1, 0)),
    (Kind::Encode, one_of(1, 0)),
    (Kind::Crc13, one_of(7, 0)),
    (Kind::Crc5, one_of(5, 0)),
    (Kind::Headers, one_of(7, 128)),
    (Kind::Writes, one_of(5, 16)),
    (Kind::Frames, one_of(11, 16)),
    (Kind::Pages, one_of(23, 8)),
    (Kind::Rows, one_of(3, 34)),
    (Kind::Shown, one_of(61, 1)),
    (Kind::Sheets, one_of(29, 8)),
    (Kind::Sources, one_of(13, 0)),
    (Kind::Wides, one_of(23, 8)),
    (Kind::Signs, one_of(29, 8)),
    (Kind::Calls, one_of(1, 0)),
    (Kind::Beesat, one_of(13, 13)),
    (Kind::Fields, one_of(23, 6)),
];

const fn one_of(every: usize, places: usize) -> Share {
    Share { every, places }
}

/// The inputs of one of the three, each behind the byte of its kind.
pub(super) fn inputs(stream: Kind, seed: u64) -> Vec<Vec<u8>> {
    let mut stored = Vec::new();
    for (number, (kind, share)) in (0..).zip(SHARES) {
        if stream_of(kind) != stream {
            continue;
        }
        let mut inputs = taken(kind, share, mixture(kind, seed));
        inputs.extend(telling::inputs(kind, seed));
        for input in inputs {
            stored.push([vec![number], input].concat());
        }
    }
    stored
}

/// The stream that has the stored inputs of a kind.
fn stream_of(kind: Kind) -> Kind {
    match kind {
        Kind::Headers | Kind::Frames | Kind::Signs => Kind::StoredSheets,
        Kind::Sheets | Kind::Sources | Kind::Wides => Kind::StoredSheets,
        Kind::Beesat | Kind::Fields => Kind::StoredBeesat,
        _ => Kind::Stored,
    }
}

/// What is taken of the mixture of a kind, in its order.
fn taken(kind: Kind, share: Share, mut inputs: Vec<Vec<u8>>) -> Vec<Vec<u8>> {
    let mut told = Told::default();
    let mut number = 0;
    inputs.retain(|input| {
        let turn = number % share.every == 0;
        number += 1;
        let new = told.is_new(&line(kind, &reply(kind, input)), share.places);
        turn || new || is_limit(kind, input)
    });
    inputs
}

/// The places that were told, for each number of a refusal.
#[derive(Default)]
struct Told(BTreeMap<String, BTreeSet<String>>);

impl Told {
    /// Whether a line tells of a refusal at a place that was not told yet, among the first so many.
    fn is_new(&mut self, line: &str, most: usize) -> bool {
        let mut words = line.split(' ').map(String::from);
        match (words.next().as_deref(), words.next(), words.next()) {
            (Some("refused"), Some(number), Some(place)) => {
                let places = self.0.entry(number).or_default();
                places.len() < most && places.insert(place)
            }
            _ => false,
        }
    }
}

/// Whether an input stands at a limit of its kind.
fn is_limit(kind: Kind, input: &[u8]) -> bool {
    let two = |at: usize| u16::from_be_bytes([input[at], input[at + 1]]);
    let longest = LONGEST_PAYLOAD as u16;
    match kind {
        Kind::Crc13 => [0, 1, 2, 1_022, longest, longest + 1, 2_047].contains(&two(0)),
        // No bit, one bit, all bits, all but one.
        Kind::Crc5 => [0, 1, 64, 65].contains(&input[1..].iter().filter(|&&bit| bit == 1).count()),
        // The writer's payload lengths; 62 is that of fields at and over their limits.
        Kind::Writes => [0, 62, longest, longest + 1].contains(&two(17)),
        Kind::Frames => [0, longest, longest + 1].contains(&two(263)),
        // Around 8 and 12 bytes, 34 user bytes without and with a time tag, the longest payload, the
        // most user bytes without and with a time tag.
        Kind::Pages => {
            let lengths = [
                0, 7, 8, 11, 12, 41, 42, 45, 46, 1_023, 1_024, 1_031, 1_032, 1_035, 1_036,
            ];
            lengths.contains(&two(0))
        }
        Kind::Rows => [33, 34, 35].contains(&two(34)),
        Kind::Shown => shown::is_limit(input),
        Kind::Beesat => beesat::is_idle(input),
        Kind::Fields => beesat::is_limit(input),
        _ => false,
    }
}
