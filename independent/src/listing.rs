//! The listing of a pass: records in, a line for each out.

use std::fmt;
use std::io::{self, ErrorKind, Read, Write};

use crate::air::AIR_BITS;
use crate::header::{Field, Heard, LONGEST_PAYLOAD};
use crate::refusal::Refusal;
use crate::rules::{Edition, Rules, LARGEST_LIMIT};
use crate::sheet::Sheet;

/// What can fail in a listing; no input can.
#[derive(Debug)]
pub enum Failure {
    /// The input could not be read on.
    Read(io::Error),
    /// The output could not be written on.
    Write(io::Error),
}

/// Lists the records of `input`, frames of this edition, to `output`, one record in memory at a time.
///
/// Both should be buffered. Where reading fails, the lines up to there are written and no last line.
pub fn list(
    edition: Edition,
    input: &mut impl Read,
    output: &mut impl Write,
) -> Result<(), Failure> {
    let listed = list_records(edition, input, output);
    let flushed = output.flush().map_err(Failure::Write);
    listed.and(flushed)
}

fn list_records(
    edition: Edition,
    input: &mut impl Read,
    output: &mut impl Write,
) -> Result<(), Failure> {
    writeln!(output, "pass sheet").map_err(Failure::Write)?;
    let (sheet, cut) = offer_all(edition, input, |number, bytes, answer| {
        list_record(edition, number, bytes, answer, output)
    })?;
    write_last(&sheet, cut, output).map_err(Failure::Write)
}

/// Offers the records of `input`, frames of this edition, to a new sheet in turn, and hands over each one's number,
/// its payload's length and its answer. Gives the sheet, and whether the input was cut.
pub(crate) fn offer_all(
    edition: Edition,
    input: &mut impl Read,
    mut each: impl FnMut(u64, usize, &Result<Heard, Refusal>) -> io::Result<()>,
) -> Result<(Sheet, bool), Failure> {
    // "The listing names 42 and prints what it did." A record has no call sign bits.
    let rules = Rules {
        edition,
        limit: LARGEST_LIMIT,
    };
    let mut sheet = Sheet::new(edition);
    let mut record = RecordBuffer::new();
    for number in 0.. {
        match record.read_from(input).map_err(Failure::Read)? {
            Next::End => break,
            Next::Cut => return Ok((sheet, true)),
            Next::Whole => {}
        }
        let payload = record.payload();
        let answer = sheet.offer(rules, None, &record.header, payload);
        // "A further record for a full sheet does the same" as one that ends early.
        if matches!(answer, Err(Refusal { number: 17, .. })) {
            return Ok((sheet, true));
        }
        each(number, payload.len(), &answer).map_err(Failure::Write)?;
    }
    Ok((sheet, false))
}

/// "Prints `cut`, then the last line with the counts so far."
pub(crate) fn write_last(sheet: &Sheet, cut: bool, output: &mut impl Write) -> io::Result<()> {
    if cut {
        writeln!(output, "cut")?;
    }
    let (heard, accepted, refused) = (
        sheet.offered(),
        sheet.accepted_total(),
        sheet.refused_total(),
    );
    writeln!(
        output,
        "heard {heard} accepted {accepted} refused {refused}"
    )
}

/// Writes a record's line.
fn list_record(
    edition: Edition,
    number: u64,
    bytes: usize,
    answer: &Result<Heard, Refusal>,
    output: &mut impl Write,
) -> io::Result<()> {
    let heard = match answer {
        Ok(heard) => heard,
        Err(refusal) => return writeln!(output, "{number} {refusal}"),
    };
    let sender = Sender {
        edition,
        src_id: heard.header[Field::SrcId],
    };
    let tx = heard.header[Field::FrCntTx];
    let (flips, worst) = (heard.flips(), heard.worst());
    writeln!(
        output,
        "{number} accepted {sender} tx {tx} \
         repaired {flips} worst {worst} bytes {bytes}"
    )
}

/// Who sent a frame, as a line writes it.
pub struct Sender {
    /// The edition that the frame was read under.
    pub edition: Edition,
    /// Its SrcId, at most 7 under the flown edition.
    pub src_id: u16,
}

/// A corrected frame "is given to no S-NET satellite: the listing writes `source 97` where it wrote `B radio 2`".
impl fmt::Display for Sender {
    fn fmt(&self, f: &mut fmt::Formatter) -> fmt::Result {
        let src_id = self.src_id;
        match self.edition {
            Edition::Flown => {
                let satellite = ['A', 'B', 'C', 'D'][usize::from(src_id / 2)];
                let radio = src_id % 2 + 1;
                write!(f, "{satellite} radio {radio}")
            }
            Edition::Corrected => write!(f, "source {src_id}"),
        }
    }
}

/// What stood at the input's present place.
#[derive(Debug, PartialEq, Eq)]
pub(crate) enum Next {
    /// A whole record, now in the buffer.
    Whole,
    /// Nothing.
    End,
    /// "A length over 1,023 or a record that ends early."
    Cut,
}

/// Room for one record.
pub(crate) struct RecordBuffer {
    pub(crate) header: [u8; AIR_BITS],
    payload: [u8; LONGEST_PAYLOAD],
    length: usize,
}

impl RecordBuffer {
    pub(crate) fn new() -> RecordBuffer {
        RecordBuffer {
            header: [0; AIR_BITS],
            payload: [0; LONGEST_PAYLOAD],
            length: 0,
        }
    }

    pub(crate) fn payload(&self) -> &[u8] {
        &self.payload[..self.length]
    }

    /// "A two-byte length, high byte first, 210 header bytes, that many payload bytes."
    pub(crate) fn read_from(&mut self, input: &mut impl Read) -> io::Result<Next> {
        let mut length = [0; 2];
        match read_full(input, &mut length)? {
            0 => return Ok(Next::End),
            1 => return Ok(Next::Cut),
            _ => self.length = usize::from(u16::from_be_bytes(length)),
        }
        let Some(payload) = self.payload.get_mut(..self.length) else {
            return Ok(Next::Cut);
        };
        if read_full(input, &mut self.header)? < self.header.len()
            || read_full(input, payload)? < payload.len()
        {
            return Ok(Next::Cut);
        }
        Ok(Next::Whole)
    }
}

/// Reads until the buffer is full or the input ends, and tells how many bytes came.
pub(crate) fn read_full(input: &mut impl Read, buffer: &mut [u8]) -> io::Result<usize> {
    let mut filled = 0;
    while filled < buffer.len() {
        match input.read(&mut buffer[filled..]) {
            Ok(0) => break,
            Ok(count) => filled += count,
            Err(error) if error.kind() == ErrorKind::Interrupted => {}
            Err(error) => return Err(error),
        }
    }
    Ok(filled)
}

#[cfg(test)]
mod tests {
    use super::*;

    /// Gives one byte a time, is interrupted before each, and fails at the end if told to.
    struct Trickle<'a> {
        bytes: &'a [u8],
        interrupted: bool,
        fails: bool,
    }

    impl Read for Trickle<'_> {
        fn read(&mut self, buffer: &mut [u8]) -> io::Result<usize> {
            self.interrupted = !self.interrupted;
            if self.interrupted {
                return Err(ErrorKind::Interrupted.into());
            }
            match self.bytes.split_first() {
                None if self.fails => Err(ErrorKind::TimedOut.into()),
                None => Ok(0),
                Some((first, rest)) => {
                    buffer[0] = *first;
                    self.bytes = rest;
                    Ok(1)
                }
            }
        }
    }

    fn trickle(bytes: &[u8], fails: bool) -> (Result<(), Failure>, String) {
        let mut input = Trickle {
            bytes,
            interrupted: false,
            fails,
        };
        let mut output = Vec::new();
        let result = list(Edition::Flown, &mut input, &mut output);
        (result, String::from_utf8(output).unwrap())
    }

    #[test]
    fn a_trickling_input_is_listed_like_any_other() {
        let (result, lines) = trickle(&[0; 212], false);
        assert!(result.is_ok());
        assert_eq!(
            lines,
            "pass sheet\n0 refused 4 6\nheard 1 accepted 0 refused 1\n"
        );
    }

    #[test]
    fn a_failed_read_is_no_cut() {
        let (result, lines) = trickle(&[0; 300], true);
        assert!(matches!(result, Err(Failure::Read(e)) if e.kind() == ErrorKind::TimedOut));
        assert_eq!(lines, "pass sheet\n0 refused 4 6\n");
    }

    #[test]
    fn a_failed_write_is_told() {
        struct Closed;
        impl Write for Closed {
            fn write(&mut self, _: &[u8]) -> io::Result<usize> {
                Err(ErrorKind::BrokenPipe.into())
            }
            fn flush(&mut self) -> io::Result<()> {
                Ok(())
            }
        }
        let result = list(Edition::Flown, &mut io::empty(), &mut Closed);
        assert!(matches!(result, Err(Failure::Write(e)) if e.kind() == ErrorKind::BrokenPipe));
    }
}
