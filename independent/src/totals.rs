//! The text of a pass sheet, after the records of an input.

use std::fmt;
use std::io::{self, Read, Write};

use crate::listing::{offer_all, write_last, Failure, Sender};
use crate::rules::Edition;
use crate::sheet::{Lane, Sheet, Source, COUNTED};

/// Writes the sheet of the records of `input`, frames of this edition, to `output`. Where reading fails, the title stands alone.
pub fn write_sheet(
    edition: Edition,
    input: &mut impl Read,
    output: &mut impl Write,
) -> Result<(), Failure> {
    let written = write_totals(edition, input, output);
    let flushed = output.flush().map_err(Failure::Write);
    written.and(flushed)
}

fn write_totals(
    edition: Edition,
    input: &mut impl Read,
    output: &mut impl Write,
) -> Result<(), Failure> {
    writeln!(output, "pass sheet totals").map_err(Failure::Write)?;
    let (sheet, cut) = offer_all(edition, input, |_, _, _| Ok(()))?;
    write_lines(&sheet, output)
        .and_then(|()| write_last(&sheet, cut, output))
        .map_err(Failure::Write)
}

/// A line for each source that was heard, by SrcId; then one for each refusal that was given, by number.
fn write_lines(sheet: &Sheet, output: &mut impl Write) -> io::Result<()> {
    for (src_id, source) in (0..).zip(&sheet.sources) {
        if source.accepted() > 0 {
            let sender = Sender {
                edition: sheet.edition,
                src_id,
            };
            writeln!(output, "{sender} {}", Totals(source))?;
        }
    }
    for (number, frames) in COUNTED.iter().zip(&sheet.refused) {
        if *frames > 0 {
            writeln!(output, "refused {number} frames {frames}")?;
        }
    }
    Ok(())
}

/// The numbers of a source: both lanes added, and each by itself.
struct Totals<'a>(&'a Source);

impl fmt::Display for Totals<'_> {
    fn fmt(&self, f: &mut fmt::Formatter) -> fmt::Result {
        let Totals(source) = self;
        let (frames, repaired) = (source.accepted(), source.repaired());
        write!(f, "frames {frames} repaired {repaired} caller ")?;
        write_lane(f, &source.caller)?;
        write!(f, " responder ")?;
        write_lane(f, &source.responder)
    }
}

/// A lane that was never heard has `-` in place of a last counter.
fn write_lane(f: &mut fmt::Formatter, lane: &Lane) -> fmt::Result {
    let (frames, repaired) = (lane.accepted, lane.repaired);
    let (missed, repeats) = (lane.missed, lane.repeats);
    write!(
        f,
        "frames {frames} repaired {repaired} missed {missed} repeats {repeats} last "
    )?;
    match lane.last {
        Some(last) => write!(f, "{last}"),
        None => write!(f, "-"),
    }
}

#[cfg(test)]
mod tests {
    use super::*;

    fn sheet_of(edition: Edition, mut input: &[u8]) -> String {
        let mut output = Vec::new();
        write_sheet(edition, &mut input, &mut output).unwrap();
        String::from_utf8(output).unwrap()
    }

    #[test]
    fn an_input_without_records() {
        for edition in [Edition::Flown, Edition::Corrected] {
            let text = "pass sheet totals\nheard 0 accepted 0 refused 0\n";
            assert_eq!(sheet_of(edition, &[]), text);
        }
    }

    #[test]
    fn a_refusal_and_a_cut() {
        let mut input = vec![0; 2 * 212];
        input.push(0);
        assert_eq!(
            sheet_of(Edition::Flown, &input),
            "pass sheet totals\nrefused 4 frames 2\ncut\nheard 2 accepted 0 refused 2\n"
        );
    }

    #[test]
    fn both_lanes_of_a_source() {
        let mut sheet = Sheet::new(Edition::Flown);
        sheet.sources[3].caller = Lane {
            accepted: 8,
            repaired: 3,
            missed: 2,
            repeats: 1,
            last: Some(14),
        };
        let mut output = Vec::new();
        write_lines(&sheet, &mut output).unwrap();
        assert_eq!(
            String::from_utf8(output).unwrap(),
            "B radio 2 frames 8 repaired 3 caller frames 8 repaired 3 missed 2 repeats 1 last 14 \
             responder frames 0 repaired 0 missed 0 repeats 0 last -\n"
        );
    }

    #[test]
    fn the_last_source_of_a_corrected_sheet() {
        let mut sheet = Sheet::new(Edition::Corrected);
        sheet.sources[127].responder.accepted = 1;
        let mut output = Vec::new();
        write_lines(&sheet, &mut output).unwrap();
        assert!(output.starts_with(b"source 127 frames 1 repaired 0 caller frames 0 "));
    }
}
