//! Inputs for the two editions: frames of the one read under the other, every source number, and sheets that belong to
//! the other one.

use super::super::frame::{damaged, fresh_header, refused, widest, Frame, PayloadRule};
use super::super::sheets::Wide;
use super::super::Kind;
use crate::air::WORDS;
use crate::header::{Field, Header, HEADER_BITS};
use crate::rng::Rng;
use crate::rules::{Edition, Rules, EDITIONS, LARGEST_LIMIT};
use crate::sample::seal;
use crate::sheet::{Lane, Sheet, Source, FULL};

const CORRECTED: Rules = widest(Edition::Corrected);

/// Source numbers around those of S-NET and around the largest.
const SOME: [u8; 10] = [0, 1, 6, 7, 8, 63, 64, 97, 126, 127];

pub(super) fn inputs(kind: Kind, rng: &mut Rng) -> Vec<Vec<u8>> {
    let frames = match kind {
        Kind::Headers => {
            let sources: Vec<u8> = (0..=127).collect();
            let crossed: Vec<u16> = (0..16).collect();
            [
                crossed_over(rng, &crossed),
                sources_of(rng, &sources),
                corrected_refusals(rng),
            ]
            .concat()
        }
        Kind::Frames => [
            crossed_over(rng, &[0b0000, 0b0001, 0b1000, 0b1111]),
            sources_of(rng, &SOME),
            corrected_refusals(rng),
        ]
        .concat(),
        Kind::Sheets => return other_edition_on_sheets(rng),
        Kind::Wides => {
            let mut inputs = own_and_other_source(rng);
            inputs.extend(other_edition_on_wides(rng));
            let frames = corrected_refusals(rng);
            inputs.extend(frames.iter().filter_map(|frame| frame.input(kind)));
            return inputs;
        }
        _ => return Vec::new(),
    };
    frames
        .iter()
        .filter_map(|frame| frame.input(kind))
        .collect()
}

/// A frame of this header, whose CRC5 is that of the edition it is read under.
fn sealed(rules: Rules, mut header: Header, rule: PayloadRule) -> Frame {
    seal(rules.edition, &mut header, &rule.payload());
    Frame::new(rules, header.to_air(), rule)
}

/// Frames that are written under each edition and read under each, with these as header bits 32 to 35.
fn crossed_over(rng: &mut Rng, lost: &[u16]) -> Vec<Frame> {
    let mut frames = Vec::new();
    for written in EDITIONS {
        for read in EDITIONS {
            for &four in lost {
                let rule = PayloadRule::short(rng);
                let header = fresh_header(rng, Edition::Flown, &rule.payload());
                let after = HEADER_BITS - 36;
                let bits = header.to_bits() & !(0b1111 << after) | u128::from(four) << after;
                let frame = sealed(widest(written), Header::from_bits(bits), rule);
                frames.push(Frame {
                    rules: widest(read),
                    ..frame
                });
            }
        }
    }
    frames
}

/// Corrected frames of these sources.
fn sources_of(rng: &mut Rng, sources: &[u8]) -> Vec<Frame> {
    let sources = sources.iter();
    sources.map(|&source| from_source(rng, source)).collect()
}

fn from_source(rng: &mut Rng, source: u8) -> Frame {
    let rule = PayloadRule::short(rng);
    let mut header = fresh_header(rng, Edition::Corrected, &rule.payload());
    header[Field::SrcId] = source.into();
    sealed(CORRECTED, header, rule)
}

/// What refuses a flown frame with 1 to 8, under the corrected edition and limits that refuse or do not: check 5 is not
/// made, and the others are. Then 6 beside every large source number.
fn corrected_refusals(rng: &mut Rng) -> Vec<Frame> {
    let mut frames = Vec::new();
    for number in 1..=8 {
        for limit in [LARGEST_LIMIT, 0, LARGEST_LIMIT + 1] {
            frames.push(refused(rng, Rules { limit, ..CORRECTED }, number));
        }
    }
    for source in SOME {
        let rule = PayloadRule::short(rng);
        let mut header = fresh_header(rng, Edition::Corrected, &rule.payload());
        header[Field::SrcId] = source.into();
        header[Field::AiTypeSrc] = rng.within(4..=15) as u16;
        frames.push(sealed(CORRECTED, header, rule));
    }
    frames
}

/// Frames for a sheet of the other edition: one that would be accepted, under every sort of limit, and one for each of
/// the refusals 2 to 8.
fn of_other_edition(rng: &mut Rng, sheet: Edition) -> Vec<Frame> {
    let rules = widest(sheet.other());
    let mut frames = Vec::new();
    for limit in [0, LARGEST_LIMIT, LARGEST_LIMIT + 1, u32::MAX] {
        frames.push(damaged(rng, Rules { limit, ..rules }, &[1; WORDS]));
    }
    for number in 2..=8 {
        frames.push(refused(rng, rules, number));
    }
    frames
}

/// Flown sheets that are new, that one more frame would fill, and that are full: 22 comes after 17 and is not counted.
fn other_edition_on_sheets(rng: &mut Rng) -> Vec<Vec<u8>> {
    let mut inputs = Vec::new();
    for count in [0, FULL as u32 - 1, FULL as u32] {
        let mut sheet = Sheet::new(Edition::Flown);
        sheet.refused[3] = count;
        for frame in of_other_edition(rng, Edition::Flown) {
            inputs.extend(frame.sheet_input(&sheet));
        }
    }
    inputs
}

/// The same for corrected sheets.
fn other_edition_on_wides(rng: &mut Rng) -> Vec<Vec<u8>> {
    let mut inputs = Vec::new();
    for count in [0, FULL as u32 - 1, FULL as u32] {
        let mut wide = Wide::new();
        wide.number = 99;
        wide.source.responder.accepted = count;
        for frame in of_other_edition(rng, Edition::Corrected) {
            inputs.extend(frame.wide_input(&wide));
        }
    }
    inputs
}

/// Corrected sheets on which a source was heard, offered frames of that source and of another one.
fn own_and_other_source(rng: &mut Rng) -> Vec<Vec<u8>> {
    let mut inputs = Vec::new();
    for source in SOME {
        for number in [source, source ^ 8, source ^ 127] {
            let lane = |k: u32| Lane {
                accepted: k,
                repaired: 2 * k,
                missed: 3 * k,
                repeats: 4 * k,
                last: Some(k as u8 % 16),
            };
            let wide = Wide {
                number,
                source: Source {
                    caller: lane(number.into()),
                    responder: lane(200 - u32::from(number)),
                },
                ..Wide::new()
            };
            inputs.extend(from_source(rng, source).wide_input(&wide));
        }
    }
    inputs
}
