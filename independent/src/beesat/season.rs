//! A made-up season of BEESAT-1 frames: telemetry and idle ones, and each refusal of a frame, alone and with another.
//!
//! The stream depends on the options alone. Refusal 25 is not there: what is left of a last frame is no frame.

use std::io::{self, Write};

use super::sample::{
    fresh_frame, put, seal, spoil_fixed, spoil_marker, spoil_sum, MCFC, PSC, VCFC, VCID,
};
use super::FRAME_BYTES;
use crate::rng::Rng;

/// What a season is made by.
#[derive(Clone, Debug)]
pub struct Options {
    /// The seed of all chances.
    pub seed: u64,
    /// The number of whole frames.
    pub frames: u64,
    /// Only frames that read well.
    pub clean: bool,
    /// So many bytes of one more frame stand after the whole ones.
    pub cut: usize,
}

/// Writes a season.
pub fn write_season(options: &Options, out: &mut impl Write) -> io::Result<()> {
    let mut season = Season::new(options);
    for _ in 0..options.frames {
        out.write_all(&season.next_frame())?;
    }
    out.write_all(&season.next_frame()[..options.cut])
}

/// What is wrong with a frame.
#[derive(Clone, Copy, Debug, PartialEq, Eq)]
enum Trouble {
    /// Another marker.
    Marker,
    /// Another error field, or a bit changed under it.
    Sum,
    /// A fixed header value that is another.
    Fixed,
}

/// The troubles of a frame, with their weights: none, each alone, each two and all at once.
const MIXTURE: [(&[Trouble], u32); 8] = [
    (&[], 16),
    (&[Trouble::Marker], 3),
    (&[Trouble::Sum], 4),
    (&[Trouble::Fixed], 4),
    (&[Trouble::Marker, Trouble::Sum], 1),
    (&[Trouble::Marker, Trouble::Fixed], 1),
    (&[Trouble::Sum, Trouble::Fixed], 2),
    (&[Trouble::Marker, Trouble::Sum, Trouble::Fixed], 1),
];

/// The state between frames.
struct Season {
    rng: Rng,
    clean: bool,
    /// The frames that were sent so far: over all, in each virtual channel, and with telemetry.
    sent: u32,
    sent_in: [u32; 8],
    sent_with: u32,
}

impl Season {
    fn new(options: &Options) -> Season {
        let mut rng = Rng::new(options.seed);
        Season {
            sent: rng.below(256),
            sent_in: [(); 8].map(|()| rng.below(256)),
            sent_with: rng.below(1 << 14),
            clean: options.clean,
            rng,
        }
    }

    fn next_frame(&mut self) -> [u8; FRAME_BYTES] {
        let idle = self.rng.one_in(5);
        let mut frame = fresh_frame(&mut self.rng, idle);
        self.count(&mut frame, idle);
        if self.clean {
            return frame;
        }
        // One frame in so many is no frame at all.
        if self.rng.one_in(40) {
            self.rng.fill(&mut frame);
            return frame;
        }
        let troubles = self.rng.pick(&MIXTURE);
        if troubles.contains(&Trouble::Fixed) {
            spoil_fixed(&mut self.rng, &mut frame);
        }
        if troubles.contains(&Trouble::Sum) {
            spoil_sum(&mut self.rng, &mut frame);
        }
        if troubles.contains(&Trouble::Marker) {
            spoil_marker(&mut self.rng, &mut frame);
        }
        frame
    }

    /// Numbers the frame in its channels; some frames before it were not heard.
    fn count(&mut self, frame: &mut [u8; FRAME_BYTES], idle: bool) {
        let lost = if self.rng.one_in(8) {
            self.rng.within(1..=300)
        } else {
            0
        };
        let channel = self.rng.below(8);
        let sent_in = &mut self.sent_in[channel as usize];
        self.sent = self.sent.wrapping_add(1 + lost);
        *sent_in = sent_in.wrapping_add(1 + lost);
        self.sent_with = self.sent_with.wrapping_add(u32::from(!idle) + lost);
        // A field takes the low bits: the counters wrap.
        put(frame, VCID, channel);
        put(frame, MCFC, self.sent);
        put(frame, VCFC, *sent_in);
        put(frame, PSC, self.sent_with);
        seal(frame);
    }
}
