//! Records as lines of text, and back: what the commands `unpack` and `pack` make of their input.
//!
//! A record's line is its header as 210 letters `0` or `1`, or as 420 hex digits where a header byte is above 1; then, where
//! there is a payload, a space and two hex digits for each of its bytes.

use std::fmt;
use std::io::{BufRead, BufReader, Read, Write};

use crate::air::AIR_BITS;
use crate::header::LONGEST_PAYLOAD;
use crate::listing::{read_full, Failure};

/// The most letters of a line before its line feed.
pub const LONGEST_LINE: usize = 4095;

/// Why what is left of an input is no record.
#[derive(Clone, Copy, Debug, PartialEq, Eq)]
pub enum Why {
    /// It ends early.
    Short,
    /// Its length is over 1,023.
    Long,
}

/// Where an input was cut: the place of its first byte that belongs to no record.
#[derive(Clone, Copy, Debug, PartialEq, Eq)]
pub struct Cut {
    /// The byte, from 0.
    pub place: u64,
    /// Why it was cut there.
    pub why: Why,
}

impl fmt::Display for Cut {
    fn fmt(&self, f: &mut fmt::Formatter) -> fmt::Result {
        let why = match self.why {
            Why::Short => "too few bytes for a record",
            Why::Long => "the length there is over 1,023",
        };
        write!(f, "cut at byte {}: {why}", self.place)
    }
}

/// Writes a line for each record of `input`; tells where it is cut, if it is.
pub fn unpack(input: &mut impl Read, output: &mut impl Write) -> Result<Option<Cut>, Failure> {
    let mut place = 0;
    loop {
        let record = next_record(input).map_err(Failure::Read)?;
        match record {
            Found::End => return output.flush().map(|()| None).map_err(Failure::Write),
            Found::None(why) => {
                output.flush().map_err(Failure::Write)?;
                return Ok(Some(Cut { place, why }));
            }
            Found::Record { header, payload } => {
                place += (2 + header.len() + payload.len()) as u64;
                let line = line_of(&header, &payload);
                output.write_all(line.as_bytes()).map_err(Failure::Write)?;
            }
        }
    }
}

/// What stands at the input's present place.
enum Found {
    End,
    None(Why),
    Record { header: Vec<u8>, payload: Vec<u8> },
}

fn next_record(input: &mut impl Read) -> std::io::Result<Found> {
    let mut length = [0; 2];
    match read_full(input, &mut length)? {
        0 => return Ok(Found::End),
        1 => return Ok(Found::None(Why::Short)),
        _ => {}
    }
    let length = usize::from(u16::from_be_bytes(length));
    if length > LONGEST_PAYLOAD {
        return Ok(Found::None(Why::Long));
    }
    let mut header = vec![0; AIR_BITS];
    let mut payload = vec![0; length];
    if read_full(input, &mut header)? < AIR_BITS || read_full(input, &mut payload)? < length {
        return Ok(Found::None(Why::Short));
    }
    Ok(Found::Record { header, payload })
}

/// The line of a record, with its line feed.
fn line_of(header: &[u8], payload: &[u8]) -> String {
    let mut line = if header.iter().all(|&byte| byte <= 1) {
        header.iter().map(|byte| byte.to_string()).collect()
    } else {
        hex(header)
    };
    if !payload.is_empty() {
        line.push(' ');
        line.push_str(&hex(payload));
    }
    line.push('\n');
    line
}

fn hex(bytes: &[u8]) -> String {
    bytes.iter().map(|byte| format!("{byte:02x}")).collect()
}

/// What is wrong with a line.
#[derive(Clone, Copy, Debug, PartialEq, Eq)]
pub enum Fault {
    /// What stands before the first space is neither 210 nor 420 letters long.
    NoHeader,
    /// A letter of 210 is no bit.
    NoBit,
    /// A letter of the header's 420, or of the payload, is no hex digit.
    NoHexDigit,
    /// More than 1,023 payload bytes.
    ManyBytes,
    /// An odd number of payload digits.
    OddDigits,
    /// More than 4,095 letters.
    LongLine,
}

/// The line that is wrong, and where; both from 1.
#[derive(Clone, Copy, Debug, PartialEq, Eq)]
pub struct Wrong {
    /// The line's number.
    pub line: u64,
    /// The letter's.
    pub column: usize,
    /// What is wrong there.
    pub fault: Fault,
}

impl fmt::Display for Wrong {
    fn fmt(&self, f: &mut fmt::Formatter) -> fmt::Result {
        let (line, column) = (self.line, self.column);
        let cause = match self.fault {
            Fault::NoHeader => {
                "the header ends here and is not 210 bits; write 210 digits 0 or 1, \
                 or 420 hex digits, and a space before the payload"
            }
            Fault::NoBit => "no bit; write 0 or 1",
            Fault::NoHexDigit => "no hex digit; write 0 to 9 or a to f",
            Fault::ManyBytes => {
                "the payload has more than 1,023 bytes; write at most 2,046 hex digits"
            }
            Fault::OddDigits => {
                "the payload ends in the middle of a byte; write two hex digits for each"
            }
            Fault::LongLine => {
                "the line is longer than 4,095 letters, and no record is; end it with a line feed"
            }
        };
        write!(f, "line {line} column {column}: {cause}")
    }
}

/// Writes the record of each line of `input`, up to the first that is wrong, which is told.
pub fn pack(input: &mut impl Read, output: &mut impl Write) -> Result<Option<Wrong>, Failure> {
    let mut input = BufReader::new(input);
    let mut letters = Vec::new();
    for line in 1.. {
        letters.clear();
        let room = LONGEST_LINE as u64 + 1;
        let came = input
            .by_ref()
            .take(room)
            .read_until(b'\n', &mut letters)
            .map_err(Failure::Read)?;
        if came == 0 {
            break;
        }
        match record_of(&letters) {
            Ok(record) => output.write_all(&record).map_err(Failure::Write)?,
            Err((column, fault)) => {
                output.flush().map_err(Failure::Write)?;
                return Ok(Some(Wrong {
                    line,
                    column,
                    fault,
                }));
            }
        }
    }
    output.flush().map(|()| None).map_err(Failure::Write)
}

/// The bytes of the record that a line says, with or without its line feed: none where it is passed over.
fn record_of(line: &[u8]) -> Result<Vec<u8>, (usize, Fault)> {
    let line = line.strip_suffix(b"\n").unwrap_or(line);
    if line.len() > LONGEST_LINE {
        return Err((LONGEST_LINE + 1, Fault::LongLine));
    }
    let line = line.strip_suffix(b"\r").unwrap_or(line);
    if line.is_empty() || line[0] == b'#' {
        return Ok(Vec::new());
    }
    let mut parts = line.splitn(2, |&letter| letter == b' ');
    let head = parts.next().unwrap_or_default();
    let tail = parts.next().unwrap_or_default();
    let header = if head.len() == AIR_BITS {
        digits(head, 2, 1, Fault::NoBit)?
    } else if head.len() == 2 * AIR_BITS {
        pairs(&digits(head, 16, 1, Fault::NoHexDigit)?)
    } else {
        return Err((head.len() + 1, Fault::NoHeader));
    };
    let column = head.len() + 2;
    if tail.len() > 2 * LONGEST_PAYLOAD {
        return Err((column + 2 * LONGEST_PAYLOAD, Fault::ManyBytes));
    }
    let payload = digits(tail, 16, column, Fault::NoHexDigit)?;
    if payload.len() % 2 == 1 {
        return Err((column + payload.len(), Fault::OddDigits));
    }
    let payload = pairs(&payload);
    let length = payload.len() as u16;
    Ok([length.to_be_bytes().to_vec(), header, payload].concat())
}

/// The values of letters, the first of which stands at a column.
fn digits(
    letters: &[u8],
    base: u32,
    column: usize,
    fault: Fault,
) -> Result<Vec<u8>, (usize, Fault)> {
    let value = |(at, &letter): (usize, &u8)| match char::from(letter).to_digit(base) {
        Some(value) => Ok(value as u8),
        None => Err((column + at, fault)),
    };
    letters.iter().enumerate().map(value).collect()
}

fn pairs(digits: &[u8]) -> Vec<u8> {
    digits
        .chunks(2)
        .map(|pair| pair[0] * 16 + pair[1])
        .collect()
}

#[cfg(test)]
mod tests {
    use super::*;

    fn packed(text: &[u8]) -> (Vec<u8>, Option<Wrong>) {
        let mut out = Vec::new();
        let wrong = pack(&mut &text[..], &mut out).unwrap();
        (out, wrong)
    }

    #[test]
    fn every_record_comes_back() {
        for header in [[0; AIR_BITS], [1; AIR_BITS], [255; AIR_BITS]] {
            for length in [0, 1, LONGEST_PAYLOAD] {
                let payload: Vec<u8> = (0..length).map(|k| k as u8).collect();
                let size = (length as u16).to_be_bytes();
                let record = [&size[..], &header[..], &payload[..]].concat();
                let mut text = Vec::new();
                assert_eq!(unpack(&mut &record[..], &mut text).unwrap(), None);
                assert_eq!(packed(&text), (record, None));
            }
        }
    }

    #[test]
    fn cuts_are_told() {
        let mut record = vec![0; 212];
        record.push(0);
        let cut = unpack(&mut &record[..], &mut Vec::new()).unwrap();
        assert_eq!(
            cut.unwrap().to_string(),
            "cut at byte 212: too few bytes for a record"
        );
        let cut = unpack(&mut &[4, 0, 0][..], &mut Vec::new()).unwrap();
        assert_eq!(
            cut.unwrap().to_string(),
            "cut at byte 0: the length there is over 1,023"
        );
    }

    #[test]
    fn lines_are_passed_over_and_ends_taken() {
        let bits = "01".repeat(105);
        let text = format!("# made by hand\r\n\n\r\n{bits} 0aFf\r\n{bits}");
        let (records, wrong) = packed(text.as_bytes());
        assert_eq!(wrong, None);
        assert_eq!(records.len(), 214 + 212);
        assert_eq!(&records[..4], &[0, 2, 0, 1]);
        assert_eq!(&records[212..214], &[10, 255]);
    }

    #[test]
    fn wrong_lines_are_told() {
        let (bits, digits) = ("0".repeat(210), "a".repeat(420));
        for (line, column, fault) in [
            (String::from("01"), 3, Fault::NoHeader),
            (String::from(" 00"), 1, Fault::NoHeader),
            (format!("2{}", &bits[1..]), 1, Fault::NoBit),
            (format!("{}g", &digits[1..]), 420, Fault::NoHexDigit),
            (format!("{bits} 0x"), 213, Fault::NoHexDigit),
            (format!("{bits} 000"), 215, Fault::OddDigits),
            (
                format!("{bits} {}", "0".repeat(2047)),
                2258,
                Fault::ManyBytes,
            ),
            (format!("#{}", "0".repeat(4095)), 4096, Fault::LongLine),
        ] {
            let (records, wrong) = packed(format!("{bits}\n{line}\n{bits}\n").as_bytes());
            assert_eq!(records.len(), 212);
            let line = 2;
            assert_eq!(
                wrong,
                Some(Wrong {
                    line,
                    column,
                    fault
                })
            );
        }
    }
}
