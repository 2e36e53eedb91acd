//! Headers out of a recording (request a of paper 02): bits in, one a byte, and a line for each marker that 210 more bits follow.
//!
//! The bits go through a register of 32, 210 of them behind those that were taken. So where the marker stands in the register, its
//! window stands in the buffer, and nothing else is kept between pieces.

use std::io::{self, Read, Write};

use crate::air::AIR_BITS;
use crate::header::Field;
use crate::listing::{Failure, Sender};
use crate::pieces::{next_piece, PIECE};
use crate::refusal::Refusal;
use crate::rules::Edition;
use crate::window::judge_window;

/// "The 32-bit marker 0x20F3FA13 (its lowest bit sent first)."
pub const MARKER: u32 = 0x20F3_FA13;

/// The bits of the marker.
pub const MARKER_BITS: usize = u32::BITS as usize;

/// The most bits of a recording.
pub const MOST_BITS: u64 = 4_294_967_295;

/// Searches a recording and writes what it finds.
///
/// A line is handed on before more input is waited for. Where reading fails, the lines up to there are written and no last line.
pub fn search(
    edition: Edition,
    input: &mut impl Read,
    output: &mut impl Write,
) -> Result<(), Failure> {
    Search::new(edition, MOST_BITS).run(input, output)
}

/// A search, as far as it has come.
struct Search {
    edition: Edition,
    /// The most bits that are taken.
    most: u64,
    /// Bits that were taken.
    taken: u64,
    /// The last of them wait here for the register: so many at the buffer's start, at most 210 between pieces.
    buffer: Vec<u8>,
    waiting: usize,
    /// The last bits that went through, the latest the lowest.
    register: u32,
    accepted: u64,
    refused: u64,
}

impl Search {
    fn new(edition: Edition, most: u64) -> Search {
        Search {
            edition,
            most,
            taken: 0,
            buffer: vec![0; AIR_BITS + PIECE],
            waiting: 0,
            register: 0,
            accepted: 0,
            refused: 0,
        }
    }

    fn run(mut self, input: &mut impl Read, output: &mut impl Write) -> Result<(), Failure> {
        writeln!(output, "recording").map_err(Failure::Write)?;
        let mut stopped = None;
        while stopped.is_none() {
            output.flush().map_err(Failure::Write)?;
            let room = &mut self.buffer[self.waiting..][..PIECE];
            let came = next_piece(input, room).map_err(Failure::Read)?;
            if came == 0 {
                break;
            }
            let piece = &self.buffer[self.waiting..][..came];
            let (taken, why) = take(piece, self.taken, self.most);
            self.taken += taken as u64;
            self.waiting += taken;
            stopped = why;
            self.scan(output).map_err(Failure::Write)?;
        }
        self.write_end(stopped, output).map_err(Failure::Write)?;
        output.flush().map_err(Failure::Write)
    }

    /// Lets the bits through that have 210 others behind them, and writes a line for each marker.
    fn scan(&mut self, output: &mut impl Write) -> io::Result<()> {
        let ready = self.waiting.saturating_sub(AIR_BITS);
        let first = self.taken - self.waiting as u64;
        let mut through = 0;
        while let Some(more) = to_marker(&mut self.register, &self.buffer[through..ready]) {
            through += more;
            let place = first + through as u64 - MARKER_BITS as u64;
            let mut window = [0; AIR_BITS];
            window.copy_from_slice(&self.buffer[through..][..AIR_BITS]);
            self.report(place, &window, output)?;
        }
        self.buffer.copy_within(ready..self.waiting, 0);
        self.waiting -= ready;
        Ok(())
    }

    /// Writes the line of a marker at this place, and counts its header.
    fn report(
        &mut self,
        place: u64,
        window: &[u8; AIR_BITS],
        output: &mut impl Write,
    ) -> io::Result<()> {
        let heard = match judge_window(self.edition, window) {
            Ok(heard) => heard,
            Err(refusal) => {
                self.refused += 1;
                return writeln!(output, "{place} {refusal}");
            }
        };
        self.accepted += 1;
        let sender = Sender {
            edition: self.edition,
            src_id: heard.header[Field::SrcId],
        };
        let tx = heard.header[Field::FrCntTx];
        let (flips, worst) = (heard.flips(), heard.worst());
        let length = heard.header[Field::PduLength];
        writeln!(
            output,
            "{place} accepted {sender} tx {tx} repaired {flips} worst {worst} length {length}"
        )
    }

    fn write_end(&self, stopped: Option<Refusal>, output: &mut impl Write) -> io::Result<()> {
        if let Some(Refusal { number, place }) = stopped {
            writeln!(output, "stopped {number} {place}")?;
        }
        let (bits, accepted, refused) = (self.taken, self.accepted, self.refused);
        let headers = accepted + refused;
        writeln!(
            output,
            "bits {bits} headers {headers} accepted {accepted} refused {refused}"
        )
    }
}

/// The register where the marker has just gone through: its lowest bit, which was sent first, is the highest. That is 1, and zeros
/// stand in the register at first, so it takes 32 bits to make a marker.
const GONE_THROUGH: u32 = MARKER.reverse_bits();

/// Shifts bits in until the marker has gone through, and tells how many that took; none where it has not at the end.
fn to_marker(register: &mut u32, bits: &[u8]) -> Option<usize> {
    let mut shifted = *register;
    let last = bits.iter().position(|&bit| {
        shifted = shifted << 1 | u32::from(bit);
        shifted == GONE_THROUGH
    });
    *register = shifted;
    last.map(|last| last + 1)
}

/// How many bits of a piece are taken behind so many others, and why no more are. The place is that of the first byte which is
/// not taken, in the recording.
fn take(piece: &[u8], before: u64, most: u64) -> (usize, Option<Refusal>) {
    let room = (most - before).min(piece.len() as u64) as usize;
    // 19: "an element above 1"
    if let Some(index) = first_above_1(&piece[..room]) {
        return (index, Some(Refusal::new(19, before as usize + index)));
    }
    // 37: "past 4,294,967,295 bits"
    let over = room < piece.len();
    (room, over.then(|| Refusal::new(37, most as usize)))
}

/// The lowest index of an element above 1.
fn first_above_1(piece: &[u8]) -> Option<usize> {
    // Almost no piece has one: all elements together tell so at once.
    if piece.iter().fold(0, |all, &element| all | element) <= 1 {
        return None;
    }
    piece.iter().position(|&element| element > 1)
}

#[cfg(test)]
mod tests {
    use super::*;
    use crate::pieces::testing::{Trickle, Watched, Watching};
    use crate::recording::{write_recording, Options, SENT_BITS, USUAL_GAP};
    use std::io::ErrorKind;

    /// So many zeros, a marker, and the 210 zeros of a header that is refused 4 6.
    fn behind(zeros: usize) -> Vec<u8> {
        let marker: Vec<u8> = (0..32).map(|i| (MARKER >> i & 1) as u8).collect();
        [vec![0; zeros], marker, vec![0; AIR_BITS]].concat()
    }

    fn recording(seed: u64, bits: u64) -> Vec<u8> {
        let mut bytes = Vec::new();
        let options = Options {
            seed,
            bits,
            gap: USUAL_GAP,
            bad: false,
        };
        write_recording(&options, &mut bytes).unwrap();
        bytes
    }

    fn searched_up_to(most: u64, mut bytes: &[u8]) -> String {
        let mut output = Vec::new();
        let search = Search::new(Edition::Flown, most);
        search.run(&mut bytes, &mut output).unwrap();
        String::from_utf8(output).unwrap()
    }

    #[test]
    fn a_recording_grows_to_so_many_bits_and_is_then_stopped_37() {
        let found = |bits: u64, why: &str| {
            format!("recording\n58 refused 4 6\n{why}bits {bits} headers 1 accepted 0 refused 1\n")
        };
        let mut bytes = behind(58);
        assert_eq!(bytes.len(), 300);
        // "Equal is allowed."
        assert_eq!(searched_up_to(300, &bytes), found(300, ""));
        // One byte more is not, "whatever that byte is"; nothing after it is read.
        for byte in [0, 1, 2, 255] {
            let bytes = [&bytes[..], &[byte], &behind(7)].concat();
            assert_eq!(
                searched_up_to(300, &bytes),
                found(300, "stopped 37 300\n"),
                "{byte}"
            );
        }
        // A byte above 1 before that is 19.
        bytes.extend([0; 5]);
        bytes[301] = 2;
        assert_eq!(searched_up_to(302, &bytes), found(301, "stopped 19 301\n"));
        assert_eq!(searched_up_to(301, &bytes), found(301, "stopped 37 301\n"));
        // The 242nd bit is not taken.
        assert_eq!(
            searched_up_to(299, &bytes),
            "recording\nstopped 37 299\nbits 299 headers 0 accepted 0 refused 0\n"
        );
    }

    #[test]
    fn a_recording_of_several_pieces_is_stopped_too() {
        let bytes = recording(6, 3 * PIECE as u64);
        for most in [1, PIECE - 1, PIECE, PIECE + 1, 2 * PIECE + 77] {
            let whole = searched_up_to(MOST_BITS, &bytes[..most]);
            let stopped = whole.replace("bits ", &format!("stopped 37 {most}\nbits "));
            assert_eq!(searched_up_to(most as u64, &bytes), stopped);
        }
        assert_eq!(MOST_BITS, u64::from(u32::MAX));
    }

    #[test]
    fn however_the_recording_is_cut_the_lines_are_those_of_the_whole() {
        let bytes = recording(7, PIECE as u64 + 3_000);
        let whole = searched_up_to(MOST_BITS, &bytes);
        assert!(whole.lines().count() > 80);
        for step in [
            1,
            2,
            31,
            32,
            33,
            209,
            210,
            211,
            241,
            242,
            243,
            1_000,
            PIECE - 1,
            PIECE,
        ] {
            let mut output = Vec::new();
            let mut input = Trickle::new(&bytes, step, false);
            search(Edition::Flown, &mut input, &mut output).unwrap();
            assert_eq!(String::from_utf8(output).unwrap(), whole, "{step}");
        }
    }

    #[test]
    fn a_line_is_there_as_soon_as_its_242nd_bit_has_come() {
        let bytes = [behind(3), behind(0)].concat();
        let first = 3 + SENT_BITS;
        let ends = [0, first - 1, first, bytes.len() - 1, bytes.len()];
        let pieces = ends.windows(2).map(|end| &bytes[end[0]..end[1]]).collect();
        let output = Watched::default();
        let mut input = Watching::new(pieces, &output);
        search(Edition::Flown, &mut input, &mut &output).unwrap();
        assert_eq!(input.lines, [1, 1, 2, 2, 3]);
        assert_eq!(output.text(), searched_up_to(MOST_BITS, &bytes));
    }

    #[test]
    fn a_failed_read_leaves_the_lines_so_far() {
        let bytes = behind(9);
        let mut output = Vec::new();
        let result = search(
            Edition::Flown,
            &mut Trickle::new(&bytes, 50, true),
            &mut output,
        );
        assert!(matches!(result, Err(Failure::Read(e)) if e.kind() == ErrorKind::TimedOut));
        assert_eq!(output, b"recording\n9 refused 4 6\n");
    }
}
