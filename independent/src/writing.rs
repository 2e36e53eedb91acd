//! One record written from its fields and its payload, and cases by chance to write.
//!
//! A case is a line: the edition, the fourteen fields' numbers, and the payload in hexadecimal, or `-` where it is empty. Its answer
//! is a line too: the record in hexadecimal, or the refusal.

use std::fmt::Write as _;
use std::io::{self, BufRead, Write};

use crate::air::AIR_BITS;
use crate::header::{largest, write_header, GIVEN, LONGEST_PAYLOAD};
use crate::refusal::Refusal;
use crate::rng::Rng;
use crate::rules::{Edition, EDITIONS};
use crate::sample::Record;

/// What is to be written. Any numbers may be asked for.
#[derive(Clone, Debug, PartialEq, Eq)]
pub struct Case {
    /// The edition that the record is written under.
    pub edition: Edition,
    /// Fields 0 to 13.
    pub given: [u32; GIVEN],
    /// The payload, of any length.
    pub payload: Vec<u8>,
}

/// The record of a payload under the header of its fields.
pub fn write_record(case: &Case) -> Result<Record, Refusal> {
    // No field takes as much as 65,535, so more is refused as that is.
    let given = case
        .given
        .map(|number| u16::try_from(number).unwrap_or(u16::MAX));
    let mut header = [0; AIR_BITS];
    write_header(case.edition, &given, &case.payload, &mut header)?;
    Ok(Record {
        header,
        payload: case.payload.clone(),
    })
}

/// The record's bytes.
pub fn bytes_of(record: &Record) -> Vec<u8> {
    let mut bytes = Vec::new();
    record
        .write_to(&mut bytes)
        .expect("a vector takes all bytes");
    bytes
}

/// Writes so many cases by chance, each a line.
pub fn write_cases(seed: u64, cases: u64, out: &mut impl Write) -> io::Result<()> {
    let rng = &mut Rng::new(seed);
    for _ in 0..cases {
        writeln!(out, "{}", line_of(&chance(rng)))?;
    }
    Ok(())
}

/// Answers the cases of some lines, up to the first that is none; whether all were cases.
pub fn answer_cases(input: impl BufRead, out: &mut impl Write) -> io::Result<bool> {
    for line in input.lines() {
        let Some(case) = case_of(&line?) else {
            return Ok(false);
        };
        match write_record(&case) {
            Ok(record) => writeln!(out, "{}", hex_of(&bytes_of(&record)))?,
            Err(refusal) => writeln!(out, "{refusal}")?,
        }
    }
    Ok(true)
}

/// An edition by its name.
pub fn edition_named(name: &str) -> Option<Edition> {
    match name {
        "flown" => Some(Edition::Flown),
        "corrected" => Some(Edition::Corrected),
        _ => None,
    }
}

/// Numbers within their bounds; in one case of four one or two of them at the bound, past it, or far past it. Payloads of all lengths
/// up to 1,023, and about one in eight longer.
fn chance(rng: &mut Rng) -> Case {
    let edition = EDITIONS[rng.below(2) as usize];
    let mut given = [0; GIVEN];
    for (field, number) in given.iter_mut().enumerate() {
        *number = rng.within(0..=largest(edition, field).into());
    }
    if rng.one_in(4) {
        for _ in 0..rng.within(1..=2) {
            let field = rng.below(GIVEN as u32) as usize;
            let most = u32::from(largest(edition, field));
            given[field] = rng.pick(&[
                (most, 2),
                (most + 1, 4),
                (255, 1),
                (256, 1),
                (65_536, 1),
                (u32::MAX, 1),
            ]);
        }
    }
    let longest = LONGEST_PAYLOAD as u32;
    let any = rng.within(0..=longest);
    let length = rng.pick(&[
        (any, 6),
        (0, 2),
        (1, 1),
        (62, 4),
        (longest, 1),
        (longest + 1, 1),
        (4_095 + any % 3, 1),
    ]);
    Case {
        edition,
        given,
        payload: rng.bytes(length as usize),
    }
}

fn line_of(case: &Case) -> String {
    let mut line = String::from(match case.edition {
        Edition::Flown => "flown",
        Edition::Corrected => "corrected",
    });
    for number in case.given {
        let _ = write!(line, " {number}");
    }
    line.push(' ');
    line.push_str(&hex_of(&case.payload));
    line
}

fn case_of(line: &str) -> Option<Case> {
    let words: Vec<&str> = line.split(' ').collect();
    let [edition, numbers @ .., payload] = words.as_slice() else {
        return None;
    };
    let numbers: Option<Vec<u32>> = numbers.iter().map(|word| word.parse().ok()).collect();
    Some(Case {
        edition: edition_named(edition)?,
        given: numbers?.try_into().ok()?,
        payload: from_hex(payload)?,
    })
}

/// Two digits a byte; `-` for none.
fn hex_of(bytes: &[u8]) -> String {
    if bytes.is_empty() {
        return String::from("-");
    }
    bytes.iter().fold(String::new(), |mut text, byte| {
        let _ = write!(text, "{byte:02x}");
        text
    })
}

fn from_hex(text: &str) -> Option<Vec<u8>> {
    if text == "-" {
        return Some(Vec::new());
    }
    let pairs = text.as_bytes().chunks_exact(2);
    if text.is_empty() || !pairs.remainder().is_empty() {
        return None;
    }
    pairs
        .map(|pair| {
            let digit = |k: usize| char::from(pair[k]).to_digit(16);
            Some((digit(0)? * 16 + digit(1)?) as u8)
        })
        .collect()
}

#[cfg(test)]
mod tests {
    use super::*;
    use crate::header::Field;
    use crate::listing::list;

    fn plain(edition: Edition, payload: &[u8]) -> Case {
        Case {
            edition,
            given: [0; GIVEN],
            payload: payload.to_vec(),
        }
    }

    fn refused(case: &Case) -> Option<Refusal> {
        write_record(case).err()
    }

    #[test]
    fn a_record_is_length_header_and_payload() {
        let record = bytes_of(&write_record(&plain(Edition::Flown, &[7; 258])).unwrap());
        assert_eq!(record.len(), 2 + 210 + 258);
        assert_eq!(record[..2], [1, 2]);
        assert!(record[2..212].iter().all(|&bit| bit < 2));
        assert_eq!(record[212..], [7; 258]);
    }

    #[test]
    fn what_is_written_is_accepted_under_its_edition() {
        let rng = &mut Rng::new(4);
        let mut written = 0;
        for _ in 0..300 {
            let case = chance(rng);
            let Ok(record) = write_record(&case) else {
                continue;
            };
            written += 1;
            let mut text = Vec::new();
            list(case.edition, &mut bytes_of(&record).as_slice(), &mut text).unwrap();
            let text = String::from_utf8(text).unwrap();
            assert!(text.ends_with("heard 1 accepted 1 refused 0\n"), "{text}");
            assert!(text.contains(" repaired 0 worst 0 "), "{text}");
        }
        assert!(written > 100);
    }

    #[test]
    fn refusals_by_their_order() {
        for edition in EDITIONS {
            for field in 0..GIVEN {
                let mut case = plain(edition, &[0; LONGEST_PAYLOAD + 1]);
                assert_eq!(refused(&case), Some(Refusal::new(15, 1_024_usize)));
                case.given[field] = u32::from(largest(edition, field)) + 1;
                assert_eq!(refused(&case), Some(Refusal::new(14, field)));
                case.given[field] = u32::MAX;
                case.given[13] = u32::MAX;
                assert_eq!(refused(&case), Some(Refusal::new(14, field)));
            }
        }
        let mut case = plain(Edition::Corrected, &[]);
        case.given[Field::SrcId as usize] = 127;
        assert_eq!(refused(&case), None);
        case.edition = Edition::Flown;
        assert_eq!(refused(&case), Some(Refusal::new(14, 0_usize)));
    }

    #[test]
    fn cases_are_lines_and_come_back() {
        let rng = &mut Rng::new(5);
        for _ in 0..100 {
            let case = chance(rng);
            assert_eq!(case_of(&line_of(&case)), Some(case));
        }
        let fields = "0 ".repeat(GIVEN);
        assert!(case_of(&format!("flown {fields}-")).is_some());
        for wrong in ["", "flown", "flown -", "new -"] {
            assert_eq!(case_of(wrong), None);
        }
        for payload in ["", "0", "zz", "00-"] {
            assert_eq!(case_of(&format!("flown {fields}{payload}")), None);
        }
    }
}
