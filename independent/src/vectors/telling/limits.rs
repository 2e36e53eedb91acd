//! Inputs for the limit on flips: which limits there are, what is above one, and what comes before and after.

use std::ops::Range;

use super::super::frame::{damaged, refused, Frame};
use super::super::Kind;
use crate::air::WORDS;
use crate::rng::Rng;
use crate::rules::{Edition, Rules, LARGEST_LIMIT, USUAL_LIMIT};
use crate::sheet::{Sheet, COUNTS, FULL};
use crate::word::{MOST_FLIPS, PARITY_BITS, POSITIONS};

/// Limits far above the largest, some of which are small in their low bytes.
const FAR_ABOVE: [u32; 7] = [44, 255, 256, 65_535, 65_536, 1 << 31, u32::MAX];

/// Limits for the kinds that read a header as `headers` does.
const SOME: [u32; 10] = [
    0,
    1,
    27,
    USUAL_LIMIT,
    29,
    41,
    LARGEST_LIMIT,
    43,
    256,
    u32::MAX,
];

/// How a flown frame is read under a limit.
fn rules(limit: u32) -> Rules {
    let edition = Edition::Flown;
    Rules { edition, limit }
}

pub(super) fn inputs(kind: Kind, rng: &mut Rng) -> Vec<Vec<u8>> {
    let limits: Vec<u32> = match kind {
        Kind::Headers => (0..=LARGEST_LIMIT + 1).chain(FAR_ABOVE).collect(),
        Kind::Frames | Kind::Sheets => SOME.to_vec(),
        _ => return Vec::new(),
    };
    let mut frames = Vec::new();
    for limit in limits {
        for total in totals(limit) {
            frames.push(flipped(rng, limit, total, 0..POSITIONS));
        }
    }
    // Parity positions alone, and data positions alone: each of them counts.
    for total in [1, 5, WORDS as u32 + 1, USUAL_LIMIT] {
        for limit in [total - 1, total] {
            frames.push(flipped(rng, limit, total, 0..PARITY_BITS));
            frames.push(flipped(rng, limit, total, PARITY_BITS..POSITIONS));
        }
    }
    // Every word has a flip: 4 to 8 come after 21 and 1 to 3 before it, and all of them after 20.
    for number in 1..=8 {
        for limit in [0, WORDS as u32 - 2, LARGEST_LIMIT + 1, u32::MAX] {
            frames.push(refused(rng, rules(limit), number));
        }
    }
    let mut inputs: Vec<_> = frames
        .iter()
        .filter_map(|frame| frame.input(kind))
        .collect();
    if kind == Kind::Sheets {
        inputs.extend(nearly_full(rng));
    }
    inputs
}

/// Totals of flips just below the limit, at it and above; the most there can be.
fn totals(limit: u32) -> Vec<u32> {
    let around = limit.saturating_sub(1)..=limit.saturating_add(1);
    let mut totals: Vec<u32> = around.filter(|&total| total <= LARGEST_LIMIT).collect();
    if totals.last() != Some(&LARGEST_LIMIT) {
        totals.push(LARGEST_LIMIT);
    }
    totals
}

/// A frame with so many flips over all words, at these positions.
fn flipped(rng: &mut Rng, limit: u32, total: u32, positions: Range<usize>) -> Frame {
    let mut patterns: [u16; WORDS] = [0; WORDS];
    for _ in 0..total {
        // Another position of a word that has room for one more.
        loop {
            let pattern = &mut patterns[rng.below(WORDS as u32) as usize];
            let position = rng.within(positions.start as u32..=positions.end as u32 - 1);
            if pattern.count_ones() < MOST_FLIPS && *pattern >> position & 1 == 0 {
                *pattern |= 1 << position;
                break;
            }
        }
    }
    damaged(rng, rules(limit), &patterns)
}

/// Sheets that one frame fills and sheets that are full, by the count of each refusal, offered frames that are refused
/// with 20 and with 21: 17 comes before them, and they are in the total.
fn nearly_full(rng: &mut Rng) -> Vec<Vec<u8>> {
    let mut inputs = Vec::new();
    for place in 0..COUNTS {
        for count in [FULL as u32 - 1, FULL as u32] {
            for limit in [0, LARGEST_LIMIT + 1] {
                let mut sheet = Sheet::new(Edition::Flown);
                sheet.refused[place] = count;
                let frame = flipped(rng, limit, 1, 0..POSITIONS);
                inputs.extend(frame.sheet_input(&sheet));
            }
        }
    }
    inputs
}
