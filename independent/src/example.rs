//! A small pass to show what the listing tells: four satellites, what the air did to their frames, and
//! one frame for each refusal that a recording can have.

use std::io::{self, Write};

use crate::header::{Field, Header};
use crate::rules::Edition;
use crate::sample::{burst, dress_as_page, flip_pattern, seal, Record};

/// The four satellites are S-NET's.
const EDITION: Edition = Edition::Flown;

/// Writes the example pass.
pub fn write_example(out: &mut impl Write) -> io::Result<()> {
    example().iter().try_for_each(|record| record.write_to(out))
}

/// The header of a frame to the ground, ready for a payload.
fn header(src_id: u16, fr_cnt_tx: u16) -> Header {
    let mut header = Header::default();
    header[Field::SrcId] = src_id;
    header[Field::DstId] = 100;
    header[Field::FrCntTx] = fr_cnt_tx;
    header[Field::FrCntRx] = 3;
    header[Field::Snr] = 11;
    header[Field::AiTypeSrc] = 2;
    header[Field::AiTypeDst] = 1;
    header[Field::Caller] = 1;
    header
}

/// A payload of this length that looks like an EPS page where there is room for one.
fn payload(length: usize) -> Vec<u8> {
    let mut payload: Vec<u8> = (0..length).map(|k| (k * 37 + 11) as u8).collect();
    if length >= 12 {
        dress_as_page(&mut payload);
    }
    payload
}

/// A frame as it was sent.
fn sent(src_id: u16, fr_cnt_tx: u16, length: usize) -> Record {
    with(src_id, fr_cnt_tx, length, |_| {})
}

/// A frame with its header changed before CRC5 is worked out.
fn with(src_id: u16, fr_cnt_tx: u16, length: usize, change: impl Fn(&mut Header)) -> Record {
    let payload = payload(length);
    let mut header = header(src_id, fr_cnt_tx);
    seal(EDITION, &mut header, &payload);
    change(&mut header);
    header[Field::Crc5] = header.crc5(EDITION);
    Record::new(&header, payload)
}

/// The records of the example pass.
pub fn example() -> Vec<Record> {
    // Seven bits flipped. Words 4 and 9 have three each, and those of word 4 are all parity bits; word 0
    // has the pattern of the largest value.
    let mut light = sent(3, 5, 42);
    flip_pattern(&mut light.header, 0, 0b100_0000_0000_0000);
    flip_pattern(&mut light.header, 4, 0b000_0010_0010_0001);
    flip_pattern(&mut light.header, 9, 0b011_0000_0000_0100);

    // 42 neighbouring bits: three in each word.
    let mut faded = sent(4, 8, 62);
    burst(&mut faded.header, 100, 42);

    // The same frame again, through a better sky.
    let again = sent(4, 8, 62);

    let mut lost = sent(0, 1, 62);
    burst(&mut lost.header, 60, 90);

    let mut garbled = sent(0, 2, 62);
    garbled.header[77] = 255;

    let mut wrong_crc5 = sent(6, 12, 0);
    flip_pattern(&mut wrong_crc5.header, 13, 0x537);

    let mut short = sent(7, 1, 69);
    short.payload.pop();

    let mut noisy = sent(7, 2, 69);
    noisy.payload[40] ^= 0x10;

    vec![
        sent(0, 14, 62),
        sent(0, 15, 62),
        sent(7, 0, 69),
        light,
        sent(0, 0, 62),
        faded,
        again,
        lost,
        garbled,
        // Counters 1 and 2 of this radio were not read.
        sent(0, 3, 62),
        wrong_crc5,
        with(2, 6, 62, |header| header[Field::SrcId] = 97),
        with(2, 7, 62, |header| header[Field::AiTypeSrc] = 9),
        short,
        noisy,
        sent(5, 0, 0),
    ]
}
