//! Sheets in records and replies, and the mixtures of `sheets`, `sources` and `wides`.

use super::bytes::{put, Bytes};
use super::frame::{fresh_header, light_damage, Frame, PayloadRule};
use crate::air::AIR_BITS;
use crate::frame::read_frame;
use crate::header::{Field, FIELDS, WIDTHS};
use crate::rng::Rng;
use crate::rules::{Edition, Rules, LARGEST_LIMIT, USUAL_LIMIT};
use crate::sample::flip_some;
use crate::sheet::{Lane, Sheet, Source, COUNTS, FULL};

/// The sources of the flown sheet.
const SOURCES: usize = Edition::Flown.sources();

/// Puts a flown sheet: its sources, then its counts.
pub(super) fn put_sheet(sheet: &Sheet, out: &mut Vec<u8>) {
    for source in &sheet.sources {
        put_source(source, out);
    }
    put_counts(&sheet.refused, out);
}

/// Puts the counts of a sheet.
pub(super) fn put_counts(counts: &[u32; COUNTS], out: &mut Vec<u8>) {
    for &count in counts {
        put(out, 4, count);
    }
}

/// Puts a source: the caller's lane, then the responder's.
pub(super) fn put_source(source: &Source, out: &mut Vec<u8>) {
    for lane in [source.caller, source.responder] {
        put(out, 4, lane.accepted);
        put(out, 4, lane.repaired);
        put(out, 4, lane.missed);
        put(out, 4, lane.repeats);
        put(out, 1, lane.last.is_some());
        put(out, 1, lane.last.unwrap_or(0));
    }
}

/// The flown sheet of a record.
pub(super) fn take_sheet(input: &mut Bytes) -> Sheet {
    let mut sheet = Sheet::new(Edition::Flown);
    for source in &mut sheet.sources {
        *source = take_source(input);
    }
    sheet.refused.fill_with(|| input.u32());
    sheet
}

/// A corrected sheet on which all sources but one are silent.
pub(super) struct Wide {
    pub number: u8,
    pub source: Source,
    pub refused: [u32; COUNTS],
}

impl Wide {
    /// A sheet that was offered nothing.
    pub fn new() -> Wide {
        Wide {
            number: 0,
            source: Source::default(),
            refused: [0; COUNTS],
        }
    }

    /// Puts the one source's number, its lanes and the counts.
    pub fn put(&self, out: &mut Vec<u8>) {
        put(out, 1, self.number);
        put_source(&self.source, out);
        put_counts(&self.refused, out);
    }

    /// The sheet of a record. A number above 127 counts as 127.
    pub fn take(input: &mut Bytes) -> Wide {
        let largest = Edition::Corrected.largest_src_id() as u8;
        let mut wide = Wide {
            number: input.u8().min(largest),
            source: take_source(input),
            refused: [0; COUNTS],
        };
        wide.refused.fill_with(|| input.u32());
        wide
    }

    /// The whole sheet.
    pub fn sheet(&self) -> Sheet {
        let mut sheet = Sheet::new(Edition::Corrected);
        sheet.sources[usize::from(self.number)] = self.source;
        sheet.refused = self.refused;
        sheet
    }
}

/// A source of a record.
fn take_source(input: &mut Bytes) -> Source {
    Source {
        caller: take_lane(input),
        responder: take_lane(input),
    }
}

fn take_lane(input: &mut Bytes) -> Lane {
    let mut lane = Lane {
        accepted: input.u32(),
        repaired: input.u32(),
        missed: input.u32(),
        repeats: input.u32(),
        last: None,
    };
    let (heard, last) = (input.u8(), input.u8());
    lane.last = (heard == 1).then_some(last);
    lane
}

/// Sheets of five sorts: new, small, about to be full by so many, with counts at their limit, and with sums past 32 bits.
fn made_up(rng: &mut Rng) -> Sheet {
    let mut sheet = Sheet::new(Edition::Flown);
    let sort = rng.below(5);
    if sort == 0 {
        return sheet;
    }
    for lane in lanes(&mut sheet) {
        *lane = Lane {
            accepted: rng.below(1_000),
            repaired: rng.below(1_000),
            missed: rng.below(1_000),
            repeats: rng.below(1_000),
            last: match rng.below(8) {
                0 => None,
                1 => Some(rng.below(256) as u8),
                _ => Some(rng.below(16) as u8),
            },
        };
    }
    sheet.refused.fill_with(|| rng.below(1_000));
    match sort {
        2 => {
            let total = FULL as u32 + rng.below(4) - 2;
            let count = rng.below(COUNTS as u32) as usize;
            sheet.refused[count] = 0;
            sheet.refused[count] = total - sheet.offered() as u32;
        }
        3 => {
            for lane in lanes(&mut sheet) {
                lane.repaired = u32::MAX - rng.below(20);
                lane.missed = u32::MAX - rng.below(20);
                lane.repeats = u32::MAX - rng.below(20);
            }
        }
        4 => {
            let lane = rng.below(2 * SOURCES as u32) as usize;
            lanes(&mut sheet)[lane].accepted = u32::MAX;
            sheet.refused[rng.below(COUNTS as u32) as usize] = u32::MAX;
        }
        _ => {}
    }
    sheet
}

/// Every lane of a sheet, the caller's of a source before the responder's.
pub(super) fn lanes(sheet: &mut Sheet) -> Vec<&mut Lane> {
    let sources = sheet.sources.iter_mut();
    sources
        .flat_map(|source| [&mut source.caller, &mut source.responder])
        .collect()
}

/// Made-up sheets, each offered a frame that is accepted about three times in five.
pub(super) fn inputs(rng: &mut Rng) -> Vec<Vec<u8>> {
    let mut inputs = Vec::new();
    for _ in 0..2_000 {
        let sheet = made_up(rng);
        let frame = offered(rng, Edition::Flown);
        inputs.extend(frame.sheet_input(&sheet));
    }
    inputs
}

/// One input of `sources`.
pub(super) fn source_input(sheet: &Sheet, source: u8) -> Vec<u8> {
    let mut record = Vec::new();
    put_sheet(sheet, &mut record);
    put(&mut record, 1, source);
    record
}

/// Made-up sheets, each asked for a source that has a record four times in five.
pub(super) fn source_inputs(rng: &mut Rng) -> Vec<Vec<u8>> {
    let mut inputs = Vec::new();
    for _ in 0..500 {
        let sheet = made_up(rng);
        let source = match rng.below(5) {
            0 => rng.below(256),
            _ => rng.below(SOURCES as u32),
        };
        inputs.push(source_input(&sheet, source as u8));
    }
    inputs
}

/// Made-up corrected sheets with one source, which is the frame's or is not.
pub(super) fn wide_inputs(rng: &mut Rng) -> Vec<Vec<u8>> {
    let mut inputs = Vec::new();
    for _ in 0..1_500 {
        let sheet = made_up(rng);
        let frame = offered(rng, Edition::Corrected);
        let own = read_frame(frame.rules, None, &frame.slice, &frame.rule.payload());
        let number = match own {
            Ok(heard) if rng.one_in(2) => heard.header[Field::SrcId] as u8,
            _ => rng.below(128) as u8,
        };
        let wide = Wide {
            number,
            source: sheet.sources[0],
            refused: sheet.refused,
        };
        inputs.extend(frame.wide_input(&wide));
    }
    inputs
}

/// A frame with at most one thing wrong, under limits that are named in earnest and some that are not.
pub(super) fn offered(rng: &mut Rng, edition: Edition) -> Frame {
    let rule = PayloadRule::short(rng);
    let mut header = fresh_header(rng, edition, &rule.payload());
    // 4 to 8 by one field that is not as it should be; most fields may be anything
    if rng.one_in(4) {
        let field = rng.below(FIELDS as u32) as usize;
        header.values[field] ^= rng.within(1..=(1 << WIDTHS[field]) - 1) as u16;
        if field != Field::Crc5 as usize {
            header[Field::Crc5] = header.crc5(edition);
        }
    }
    let mut air = header.to_air();
    light_damage(rng, &mut air);
    match rng.below(16) {
        0 => flip_some(rng, &mut air, 5, 7),
        1 => air[rng.below(AIR_BITS as u32) as usize] = 2,
        _ => {}
    }
    let limit = match rng.below(8) {
        0 => rng.below(50),
        1..=3 => USUAL_LIMIT,
        _ => LARGEST_LIMIT,
    };
    Frame::new(Rules { edition, limit }, air, rule)
}
