//! Records of power pages whose rows are told in lines of text: for cases that are made by hand.

use std::fmt;
use std::io::{BufRead, Write};

use crate::header::{Field, Header};
use crate::listing::Failure;
use crate::page::{write_page, ROWS, ROW_BYTES, TAGGED_HEADER};
use crate::rules::Edition;
use crate::sample::{dress_as_page, seal, Record};

/// The number, from 1, of a line that does not tell the rows of a page.
#[derive(Clone, Copy, Debug, PartialEq, Eq)]
pub struct NoRows(pub u64);

impl fmt::Display for NoRows {
    fn fmt(&self, f: &mut fmt::Formatter) -> fmt::Result {
        let NoRows(line) = self;
        let (least, most) = (i16::MIN, i16::MAX);
        write!(
            f,
            "line {line} is not {ROWS} numbers from {least} to {most}"
        )
    }
}

/// Writes the record of each line of `input`, up to the first that does not tell the rows of a page, which is told.
pub fn write_pages(
    input: &mut impl BufRead,
    output: &mut impl Write,
) -> Result<Option<NoRows>, Failure> {
    for (number, line) in (0..).zip(input.lines()) {
        let line = line.map_err(Failure::Read)?;
        let Some(rows) = rows_of(&line) else {
            return Ok(Some(NoRows(number + 1)));
        };
        let record = page_record(number, &rows);
        record.write_to(output).map_err(Failure::Write)?;
    }
    Ok(None)
}

/// The rows that a line tells: 17 numbers with white space between them.
fn rows_of(line: &str) -> Option<[i16; ROWS]> {
    let numbers = line.split_whitespace().map(|word| word.parse().ok());
    let numbers: Option<Vec<i16>> = numbers.collect();
    numbers?.try_into().ok()
}

/// A clean flown record with a time tagged power page of these rows and no later user bytes. The number, from 0, goes into its source
/// and its frame counter: the eight sources take turns, and the frames of each follow one another.
pub fn page_record(number: u64, rows: &[i16; ROWS]) -> Record {
    let mut payload = vec![0; TAGGED_HEADER + ROW_BYTES];
    dress_as_page(&mut payload);
    write_page(rows, &mut payload[TAGGED_HEADER..]).expect("there is room for the rows");
    let mut header = Header::default();
    header[Field::SrcId] = (number % 8) as u16;
    header[Field::FrCntTx] = (number / 8 % 16) as u16;
    seal(Edition::Flown, &mut header, &payload);
    Record::new(&header, payload)
}
