//! A made-up season: a stream of records with everything that a listing has to tell apart.
//!
//! The stream depends on the options alone. A record is made in stages, and a [`Kind`] of trouble acts
//! in the stage that it belongs to; one record in six has two kinds, so that the order of refusals is
//! tried too. Refusal 1 is not among them: a record always has 210 header bytes.

use std::io::{self, Write};

use crate::air::{AIR_BITS, WORDS};
use crate::header::{largest, Field, Header, GIVEN, LONGEST_PAYLOAD};
use crate::page::{PLAIN_HEADER, ROWS, ROW_BYTES, TAGGED_HEADER};
use crate::rng::Rng;
use crate::rules::Edition;
use crate::sample::{burst, dress_as_page, flip_some, seal, Record, LONGEST_BURST};
use crate::sheet::FULL;

/// What a season is made by.
#[derive(Clone, Debug)]
pub struct Options {
    /// The edition that the records are written under.
    pub edition: Edition,
    /// The seed of all chances.
    pub seed: u64,
    /// The number of whole records.
    pub records: u64,
    /// One length for all payloads, at most 1,023.
    pub payload: Option<usize>,
    /// Payloads that are power pages, or nearly so, in place of any.
    pub pages: bool,
    /// Payloads that are power pages, all of them, also where a sheet is filled; each row has a band of numbers of its own.
    pub rows: bool,
    /// Only frames that are accepted, some with up to three flips in some words.
    pub clean: bool,
    /// What stands after the whole records.
    pub cut: Option<Cut>,
    /// So many short records as fill a sheet, in place of `records`.
    pub full: Option<Full>,
}

/// A rest that is no whole record.
#[derive(Clone, Copy, Debug, PartialEq, Eq)]
pub enum Cut {
    /// A record whose length is over 1,023, with all its bytes there.
    Length,
    /// One byte of a length.
    Lone,
    /// A record that ends inside its header bytes, or right before them.
    Header,
    /// A record that ends inside its payload, or right before it.
    Payload,
}

/// How a sheet is filled.
#[derive(Clone, Copy, Debug, PartialEq, Eq)]
pub enum Full {
    /// 65,535 records: the sheet is full, nothing is cut.
    Exact,
    /// One more, which cuts.
    OneMore,
}

/// Writes a season.
pub fn write_season(options: &Options, out: &mut impl Write) -> io::Result<()> {
    let records = match options.full {
        None => options.records,
        Some(Full::Exact) => FULL as u64,
        Some(Full::OneMore) => FULL as u64 + 1,
    };
    let mut season = Season::new(options);
    for _ in 0..records {
        season.next_record().write_to(out)?;
    }
    match options.cut {
        None => Ok(()),
        Some(cut) => out.write_all(&season.rest(cut)),
    }
}

/// What is wrong with a record.
#[derive(Clone, Copy, Debug, PartialEq, Eq)]
enum Kind {
    /// Nothing.
    Clean,
    /// One to three flips in some words.
    Light,
    /// Three flips in every word.
    ThreeEverywhere,
    /// Up to 42 neighbouring air bits: all of them, or each by chance.
    Burst,
    /// 43 to 120 neighbouring air bits.
    LongBurst,
    /// Four to eleven flips in one to three words. Some of these words come out as another valid word.
    Beyond,
    /// 210 bits by chance.
    Noise,
    /// An element above 1, or several.
    Element,
    /// A wrong CRC5 in consistent words.
    Crc5,
    /// SrcId 8 to 127. The corrected edition allows them, and has the CRC5 of the flown one in their place.
    Source,
    /// AiTypeSrc 4 to 15.
    AirType,
    /// A PduLength that is not the payload's length.
    Length,
    /// A wrong CRC13, or one bit of the payload changed.
    Crc13,
    /// The record before, again.
    Echo,
}

/// The kinds with their weights.
const MIXTURE: [(Kind, u32); 14] = [
    (Kind::Clean, 24),
    (Kind::Light, 20),
    (Kind::ThreeEverywhere, 6),
    (Kind::Burst, 10),
    (Kind::LongBurst, 4),
    (Kind::Beyond, 6),
    (Kind::Noise, 2),
    (Kind::Element, 4),
    (Kind::Crc5, 4),
    (Kind::Source, 4),
    (Kind::AirType, 4),
    (Kind::Length, 5),
    (Kind::Crc13, 5),
    (Kind::Echo, 2),
];

/// The mixture of a clean season.
const CLEAN_MIXTURE: [(Kind, u32); 2] = [(Kind::Clean, 1), (Kind::Light, 1)];

/// The numbers that a row of a season has: `width` of them, from `least` on.
#[derive(Clone, Copy)]
struct Band {
    least: i32,
    width: u32,
}

impl Band {
    /// Most bands are narrow, so that the smallest and the largest number come again; one in three ends at -32,768 or at 32,767.
    fn new(rng: &mut Rng) -> Band {
        let width = rng.pick(&[(1, 1), (2, 4), (5, 4), (40, 4), (1_000, 2), (65_536, 2)]);
        let room = 65_536 - width;
        let above = match rng.below(6) {
            0 => 0,
            1 => room,
            _ => rng.within(0..=room),
        };
        let least = i32::from(i16::MIN) + above as i32;
        Band { least, width }
    }

    fn number(&self, rng: &mut Rng) -> i16 {
        // No band goes past 32,767.
        (self.least + rng.below(self.width) as i32) as i16
    }
}

/// Sets TimeTagged and FrameLength of a payload with so many user bytes.
fn set_lengths(payload: &mut [u8], tagged: bool, user: usize) {
    payload[6] = payload[6] & 0xF8 | u8::from(tagged) << 2 | (user >> 8) as u8;
    payload[7] = user as u8;
}

/// The state between records.
struct Season {
    rng: Rng,
    edition: Edition,
    payload: Option<usize>,
    pages: bool,
    /// The bands of the rows, where all payloads are pages.
    bands: Option<[Band; ROWS]>,
    clean: bool,
    short: bool,
    /// "One frame counter as caller and another as responder", for each source: that of the Caller bit 0 stands first. A
    /// frame that is refused uses one up too.
    counters: Vec<[u32; 2]>,
    last: Option<Record>,
}

impl Season {
    fn new(options: &Options) -> Season {
        let mut rng = Rng::new(options.seed);
        let mut counters = vec![[0; 2]; options.edition.sources()];
        counters.fill_with(|| {
            let both = rng.below(16 * 16);
            [both % 16, both / 16]
        });
        let bands = options
            .rows
            .then(|| [(); ROWS].map(|()| Band::new(&mut rng)));
        Season {
            rng,
            edition: options.edition,
            payload: options.payload,
            pages: options.pages,
            bands,
            clean: options.clean,
            short: options.full.is_some(),
            counters,
            last: None,
        }
    }

    fn next_record(&mut self) -> Record {
        let mixture: &[(Kind, u32)] = if self.clean { &CLEAN_MIXTURE } else { &MIXTURE };
        let mut kinds = vec![self.rng.pick(mixture)];
        if !self.clean && self.rng.one_in(6) {
            kinds.push(self.rng.pick(mixture));
        }
        let record = match &self.last {
            Some(last) if kinds.contains(&Kind::Echo) => last.clone(),
            _ => self.fresh(&kinds),
        };
        self.last = Some(record.clone());
        record
    }

    /// A record that was not there before.
    fn fresh(&mut self, kinds: &[Kind]) -> Record {
        let mut payload = self.fresh_payload();
        let mut header = self.fresh_header(&payload);
        for &kind in kinds {
            self.spoil_fields(kind, &mut header, &mut payload);
        }
        header[Field::Crc5] = header.crc5(self.edition);
        if self.edition == Edition::Corrected && kinds.contains(&Kind::Source) {
            header[Field::Crc5] = header.crc5(Edition::Flown);
        }
        if kinds.contains(&Kind::Crc5) {
            header[Field::Crc5] ^= self.rng.within(1..=31) as u16;
        }
        let mut record = Record::new(&header, payload);
        for &kind in kinds {
            self.spoil_air(kind, &mut record.header);
        }
        if kinds.contains(&Kind::Element) {
            for _ in 0..self.rng.within(1..=3) {
                let at = self.rng.below(AIR_BITS as u32) as usize;
                record.header[at] = self.rng.within(2..=255) as u8;
            }
        }
        record
    }

    fn fresh_payload(&mut self) -> Vec<u8> {
        if let Some(bands) = self.bands {
            return self.fresh_rows(&bands);
        }
        if self.pages && !self.short {
            return self.fresh_page();
        }
        let length = match self.payload {
            Some(length) => length,
            None if self.short => self.rng.below(4) as usize,
            None => match self.rng.below(16) {
                0 => 0,
                1 => LONGEST_PAYLOAD,
                2 => self.rng.within(1..=16) as usize,
                // EPS and ADCS standard telemetry: 12 bytes and 50 or 57 user bytes
                3..=8 => 62,
                9 | 10 => 69,
                _ => self.rng.below(LONGEST_PAYLOAD as u32 + 1) as usize,
            },
        };
        let mut payload = self.rng.bytes(length);
        match self.rng.below(16) {
            0 => payload.fill(0x00),
            1 => payload.fill(0xFF),
            2..=9 if length >= 12 => dress_as_page(&mut payload),
            _ => {}
        }
        payload
    }

    /// A payload that is a power page, with or without a time tag; some have too few user bytes, end early, or have another FrameLength.
    fn fresh_page(&mut self) -> Vec<u8> {
        let tagged = self.rng.one_in(2);
        let head = if tagged { TAGGED_HEADER } else { PLAIN_HEADER };
        let user = match self.rng.below(16) {
            0 => self.rng.below(ROW_BYTES as u32) as usize,
            1 => LONGEST_PAYLOAD - head,
            2..=4 => ROW_BYTES,
            // EPS standard telemetry
            _ => 50,
        };
        let mut payload = self.rng.bytes(head + user);
        for row in payload[head..].chunks_exact_mut(2).take(ROWS) {
            match self.rng.below(16) {
                0 => row.copy_from_slice(&i16::MIN.to_le_bytes()),
                1 => row.copy_from_slice(&i16::MAX.to_le_bytes()),
                2 => row.fill(0x00),
                // small numbers of either sign
                3..=6 => row[1] = row[0] % 2 * 0xFF,
                _ => {}
            }
        }
        set_lengths(&mut payload, tagged, user);
        match self.rng.below(16) {
            0 => payload.truncate(self.rng.below(PLAIN_HEADER as u32) as usize),
            1 => payload.truncate(self.rng.within(8..=11) as usize),
            2 => payload[7] ^= 1 << self.rng.below(8),
            _ => {}
        }
        payload
    }

    /// A payload that is a power page, with or without a time tag and later user bytes, each row with a number of its band.
    fn fresh_rows(&mut self, bands: &[Band; ROWS]) -> Vec<u8> {
        let tagged = self.rng.one_in(2);
        let head = if tagged { TAGGED_HEADER } else { PLAIN_HEADER };
        let user = if self.rng.one_in(4) { 50 } else { ROW_BYTES };
        let mut payload = self.rng.bytes(head + user);
        for (row, band) in payload[head..].chunks_exact_mut(2).zip(bands) {
            row.copy_from_slice(&band.number(&mut self.rng).to_le_bytes());
        }
        set_lengths(&mut payload, tagged, user);
        payload
    }

    /// A header in range for this payload, from one of the edition's sources.
    fn fresh_header(&mut self, payload: &[u8]) -> Header {
        let mut header = Header::default();
        for field in 0..GIVEN {
            header.values[field] =
                self.rng.within(0..=u32::from(largest(self.edition, field))) as u16;
        }
        // Most frames follow the one before them; some repeat its counter, some leave a gap.
        let lanes = &mut self.counters[usize::from(header[Field::SrcId])];
        let counter = &mut lanes[usize::from(header[Field::Caller])];
        *counter += match self.rng.below(20) {
            0 => 0,
            1 => self.rng.within(2..=15),
            _ => 1,
        };
        *counter %= 16;
        header[Field::FrCntTx] = *counter as u16;
        seal(self.edition, &mut header, payload);
        header
    }

    /// The troubles that stand in the header's fields or in the payload, under a right CRC5.
    fn spoil_fields(&mut self, kind: Kind, header: &mut Header, payload: &mut [u8]) {
        let rng = &mut self.rng;
        match kind {
            Kind::Source if self.edition == Edition::Flown => {
                header[Field::SrcId] = rng.within(8..=127) as u16;
            }
            Kind::AirType => header[Field::AiTypeSrc] = rng.within(4..=15) as u16,
            Kind::Length => {
                let other = match rng.below(4) {
                    0 => payload.len() as u32 + 1,
                    1 => payload.len() as u32 + 1_023,
                    _ => payload.len() as u32 + rng.within(1..=1_023),
                };
                header[Field::PduLength] = (other % 1_024) as u16;
            }
            Kind::Crc13 => {
                if payload.is_empty() || rng.one_in(2) {
                    header[Field::Crc13] ^= rng.within(1..=0x1FFF) as u16;
                } else {
                    let at = rng.below(payload.len() as u32) as usize;
                    payload[at] ^= 1 << rng.below(8);
                }
            }
            _ => {}
        }
    }

    /// The troubles of the way through the air.
    fn spoil_air(&mut self, kind: Kind, air: &mut [u8; AIR_BITS]) {
        let rng = &mut self.rng;
        match kind {
            Kind::Light => {
                for word in 0..WORDS {
                    if rng.one_in(3) {
                        let count = rng.within(1..=3);
                        flip_some(rng, air, word, count);
                    }
                }
            }
            Kind::ThreeEverywhere => {
                for word in 0..WORDS {
                    flip_some(rng, air, word, 3);
                }
            }
            Kind::Burst => {
                let length = match rng.below(3) {
                    0 => LONGEST_BURST,
                    _ => rng.within(1..=LONGEST_BURST as u32) as usize,
                };
                let start = rng.within(0..=(AIR_BITS - length) as u32) as usize;
                if rng.one_in(2) {
                    burst(air, start, length);
                } else {
                    for bit in &mut air[start..start + length] {
                        *bit ^= rng.below(2) as u8;
                    }
                }
            }
            Kind::LongBurst => {
                let length = rng.within(LONGEST_BURST as u32 + 1..=120) as usize;
                let start = rng.within(0..=(AIR_BITS - length) as u32) as usize;
                burst(air, start, length);
            }
            Kind::Beyond => {
                for _ in 0..rng.within(1..=3) {
                    let word = rng.below(WORDS as u32) as usize;
                    let count = rng.within(4..=11);
                    flip_some(rng, air, word, count);
                }
            }
            Kind::Noise => air.fill_with(|| rng.below(2) as u8),
            _ => {}
        }
    }

    /// The bytes after the last whole record.
    fn rest(&mut self, cut: Cut) -> Vec<u8> {
        let length = match cut {
            Cut::Length => self.rng.within(LONGEST_PAYLOAD as u32 + 1..=65_535),
            _ => self.rng.within(1..=LONGEST_PAYLOAD as u32),
        };
        let payload = self.rng.bytes(length as usize);
        let header = self.fresh_header(&payload);
        let mut bytes = Vec::new();
        bytes.extend((length as u16).to_be_bytes());
        bytes.extend(header.to_air());
        bytes.extend(payload);
        let head = 2 + AIR_BITS as u32;
        let kept = match cut {
            Cut::Length => head + length,
            Cut::Lone => 1,
            Cut::Header => self.rng.within(2..=head - 1),
            Cut::Payload => self.rng.within(head..=head + length - 1),
        };
        bytes.truncate(kept as usize);
        bytes
    }
}
