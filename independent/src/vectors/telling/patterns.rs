//! Inputs that tell right flip patterns from wrong ones.

use std::array;

use super::super::frame::{damaged, fresh_header, refused, widest, Frame, PayloadRule};
use super::super::Kind;
use crate::air::WORDS;
use crate::rng::Rng;
use crate::rules::{Edition, Rules};
use crate::sample::flip_some;

/// How they are read.
const FLOWN: Rules = widest(Edition::Flown);

pub(super) fn inputs(kind: Kind, rng: &mut Rng) -> Vec<Vec<u8>> {
    let mut all = Vec::new();
    if kind == Kind::Headers {
        all.extend(one_word_damaged(rng));
    }
    if matches!(kind, Kind::Headers | Kind::Frames | Kind::Sheets) {
        all.extend(frames(rng));
    }
    all.iter().filter_map(|frame| frame.input(kind)).collect()
}

/// Headers with 0 to 4 flips in one word, for each word.
fn one_word_damaged(rng: &mut Rng) -> Vec<Frame> {
    let mut frames = Vec::new();
    for word in 0..WORDS {
        for flips in 0..=4 {
            let rule = PayloadRule::short(rng);
            let mut air = fresh_header(rng, FLOWN.edition, &rule.payload()).to_air();
            flip_some(rng, &mut air, word, flips);
            frames.push(Frame::new(FLOWN, air, rule));
        }
    }
    frames
}

/// Frames with each of the telling patterns; then frames of each refusal.
fn frames(rng: &mut Rng) -> Vec<Frame> {
    let mut frames = Vec::new();
    for patterns in patterns() {
        frames.push(damaged(rng, FLOWN, &patterns));
    }
    for number in 1..=8 {
        for _ in 0..4 {
            frames.push(refused(rng, FLOWN, number));
        }
    }
    frames
}

/// Patterns for the fourteen words of a header.
///
/// Each word is the worst in some; another word would be if it went by the last of a tie, by values, or by
/// data positions. A pattern that is read backwards, or is that of another word, is another one.
fn patterns() -> Vec<[u16; WORDS]> {
    const THREE_OF_PARITY: u16 = 0b000_0010_0000_0101;
    const TWO_OF_DATA: u16 = 0b110_0000_0000_0000;
    const HIGHEST: u16 = 0b100_0000_0000_0000;

    let mut all = vec![[0; WORDS]];
    for worst in 0..WORDS {
        // Nothing in another word, and nothing in a data position.
        let mut alone = [0; WORDS];
        alone[worst] = THREE_OF_PARITY;
        all.push(alone);
        // Every other word has fewer flips and a larger value.
        let mut among = [TWO_OF_DATA; WORDS];
        among[worst] = THREE_OF_PARITY;
        all.push(among);
        // A tie with every later word, whose values grow; every earlier one has fewer flips and a larger value.
        let mut tied = [HIGHEST; WORDS];
        for (later, pattern) in tied[worst..].iter_mut().enumerate() {
            *pattern = 1 | 2 << later;
        }
        all.push(tied);
    }
    // Ties of all words, with one flip and with three.
    all.push(array::from_fn(|word| 1 << word));
    all.push(array::from_fn(|word| 0b111 << (word % 13)));
    all
}
