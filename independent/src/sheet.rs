//! The pass sheet (refusals 17 and 22).

use crate::frame::read_frame;
use crate::header::{Field, Heard};
use crate::refusal::Refusal;
use crate::rules::{Edition, Rules};

/// "A count for each of the refusals 1 to 8"; of 20 and 21, "the sheet counts both"; 23 and 24, "both are counted by the
/// sheet".
pub const COUNTED: [u8; COUNTS] = [1, 2, 3, 4, 5, 6, 7, 8, 20, 21, 23, 24];

/// The number of counts.
pub const COUNTS: usize = 12;

/// "After 65,535 offered frames the sheet is full."
pub const FULL: usize = 65_535;

/// Frame counters "wrap from 15 to 0".
const COUNTER_VALUES: u8 = 16;

/// What the sheet keeps of one lane of a source.
#[derive(Clone, Copy, Debug, Default, PartialEq, Eq)]
pub struct Lane {
    /// Frames accepted.
    pub accepted: u32,
    /// Bits repaired.
    pub repaired: u32,
    /// Frames missed.
    pub missed: u32,
    /// Repeats.
    pub repeats: u32,
    /// Last FrCntTx, if any frame was accepted.
    pub last: Option<u8>,
}

impl Lane {
    /// Adds an accepted frame. "A count that would pass 4,294,967,295 stays there."
    fn accept(&mut self, fr_cnt_tx: u8, flips: u32) {
        self.accepted = self.accepted.saturating_add(1);
        self.repaired = self.repaired.saturating_add(flips);
        match self.last {
            None => {}
            Some(last) if last == fr_cnt_tx => self.repeats = self.repeats.saturating_add(1),
            Some(last) => {
                // "(new - last - 1) mod 16 is added to missed": 256 is a multiple of 16.
                let missed = fr_cnt_tx.wrapping_sub(last).wrapping_sub(1) % COUNTER_VALUES;
                self.missed = self.missed.saturating_add(u32::from(missed));
            }
        }
        self.last = Some(fr_cnt_tx);
    }
}

/// What the sheet keeps of one source: "two lanes by the Caller bit".
#[derive(Clone, Copy, Debug, Default, PartialEq, Eq)]
pub struct Source {
    /// What it sent as caller, with the Caller bit 1.
    pub caller: Lane,
    /// What it sent as responder, with the Caller bit 0.
    pub responder: Lane,
}

impl Source {
    /// The lane of a frame with this Caller bit.
    fn lane(&mut self, caller: u16) -> &mut Lane {
        if caller == 1 {
            &mut self.caller
        } else {
            &mut self.responder
        }
    }

    /// Frames accepted; "accepted and repaired stay per lane and are added for display". The sum is exact.
    pub fn accepted(&self) -> u64 {
        u64::from(self.caller.accepted) + u64::from(self.responder.accepted)
    }

    /// Bits repaired, in both lanes.
    pub fn repaired(&self) -> u64 {
        u64::from(self.caller.repaired) + u64::from(self.responder.repaired)
    }
}

/// The pass sheet. "A new sheet is the only reset."
#[derive(Clone, Debug, PartialEq, Eq)]
pub struct Sheet {
    /// "A sheet belongs to one edition."
    pub edition: Edition,
    /// A record for each SrcId: "eight records for flown, 128 for corrected".
    pub sources: Vec<Source>,
    /// How often each refusal was given, in the order of [`COUNTED`].
    pub refused: [u32; COUNTS],
}

impl Sheet {
    /// A sheet that was offered nothing.
    pub fn new(edition: Edition) -> Sheet {
        Sheet {
            edition,
            sources: vec![Source::default(); edition.sources()],
            refused: [0; COUNTS],
        }
    }

    /// The numbers of a source for display. Any number may be handed in: one without a record was never heard.
    pub fn source(&self, number: usize) -> Source {
        self.sources.get(number).copied().unwrap_or_default()
    }

    /// Frames accepted over all sources.
    pub fn accepted_total(&self) -> u64 {
        self.sources.iter().map(Source::accepted).sum()
    }

    /// Frames refused over all numbers.
    pub fn refused_total(&self) -> u64 {
        self.refused.iter().map(|&count| u64::from(count)).sum()
    }

    /// Frames offered: accepted and refused. The sum is exact for made-up sheets too.
    pub fn offered(&self) -> u64 {
        self.accepted_total() + self.refused_total()
    }

    /// "It is full when that sum is 65,535 or more."
    pub fn is_full(&self) -> bool {
        self.offered() >= FULL as u64
    }

    /// Adds one to the count of this refusal, which is one of those that are counted.
    fn refuse(&mut self, number: u8) {
        if let Some(place) = COUNTED.iter().position(|&counted| counted == number) {
            self.refused[place] = self.refused[place].saturating_add(1);
        }
    }

    /// Offers a frame: what the reader says of it is counted, and answered.
    pub fn offer(
        &mut self,
        rules: Rules,
        call: Option<&[u8]>,
        air: &[u8],
        payload: &[u8],
    ) -> Result<Heard, Refusal> {
        // 17: "sheet full, checked before anything else, sheet unchanged", place 65,535
        if self.is_full() {
            return Err(Refusal::new(17, FULL));
        }
        // 22: "a frame offered to a sheet of the other edition, after 17 and before 20", place 0; "sheet unchanged, and the
        // frame isn't in its total"
        if rules.edition != self.edition {
            return Err(Refusal::new(22, 0usize));
        }
        let answer = read_frame(rules, call, air, payload);
        match &answer {
            Ok(heard) => {
                let source = &mut self.sources[usize::from(heard.header[Field::SrcId])];
                let lane = source.lane(heard.header[Field::Caller]);
                // FrCntTx has four bits.
                lane.accept(heard.header[Field::FrCntTx] as u8, heard.flips());
            }
            Err(refusal) => self.refuse(refusal.number),
        }
        answer
    }
}

#[cfg(test)]
mod tests {
    use super::*;
    use crate::rules::usual;

    /// A lane after frames with these counters and no flips.
    fn after(counters: &[u8]) -> Lane {
        let mut lane = Lane::default();
        for &counter in counters {
            lane.accept(counter, 0);
        }
        lane
    }

    #[test]
    fn marked_examples() {
        assert_eq!(after(&[14, 1]).missed, 2);
        assert_eq!(after(&[15, 0]).missed, 0);
    }

    #[test]
    fn first_frame_misses_nothing() {
        let first = Lane {
            accepted: 1,
            last: Some(9),
            ..Lane::default()
        };
        assert_eq!(after(&[9]), first);
    }

    #[test]
    fn a_repeat_is_no_miss() {
        let lane = after(&[9, 9, 9, 10]);
        assert_eq!((lane.accepted, lane.repeats, lane.missed), (4, 2, 0));
    }

    #[test]
    fn every_pair_of_counters() {
        for last in 0..16 {
            for new in 0..16 {
                let lane = after(&[last, new]);
                let steps = (0..16).find(|s| (last + s) % 16 == new).unwrap();
                assert_eq!(lane.repeats, u32::from(steps == 0));
                assert_eq!(lane.missed, u32::from(steps.max(1) - 1));
                assert_eq!(lane.last, Some(new));
            }
        }
    }

    #[test]
    fn made_up_counts_stay_at_the_largest() {
        let mut lane = Lane {
            accepted: u32::MAX,
            repaired: u32::MAX - 2,
            missed: u32::MAX - 1,
            repeats: u32::MAX,
            last: Some(3),
        };
        lane.accept(3, 1);
        assert_eq!((lane.accepted, lane.repeats), (u32::MAX, u32::MAX));
        assert_eq!(lane.repaired, u32::MAX - 1);
        lane.accept(0, 42);
        assert_eq!((lane.repaired, lane.missed), (u32::MAX, u32::MAX));
    }

    #[test]
    fn made_up_last_counters_are_equal_as_they_stand() {
        let step = |last, new| {
            let mut lane = Lane {
                last: Some(last),
                ..Lane::default()
            };
            lane.accept(new, 0);
            (lane.repeats, lane.missed)
        };
        assert_eq!(step(21, 5), (0, 15));
        assert_eq!(step(16, 1), (0, 0));
        assert_eq!(step(255, 15), (0, 15));
        assert_eq!(step(255, 0), (0, 0));
    }

    #[test]
    fn a_made_up_sheet_is_full_by_its_exact_sum() {
        let mut sheet = Sheet::new(Edition::Flown);
        sheet.sources[2].caller.accepted = 1;
        sheet.sources[2].responder.accepted = 64_999;
        sheet.refused[7] = 534;
        assert!(!sheet.is_full());
        sheet.refused[0] = 1;
        assert!(sheet.is_full());
        for source in &mut sheet.sources {
            source.caller.accepted = u32::MAX;
            source.responder.accepted = u32::MAX;
        }
        sheet.refused = [u32::MAX; COUNTS];
        assert_eq!(sheet.offered(), 28 * u64::from(u32::MAX));
        let before = sheet.clone();
        assert_eq!(
            sheet.offer(usual(Edition::Flown), None, &[], &[]),
            Err(Refusal::new(17, FULL))
        );
        assert_eq!(sheet, before);
    }

    #[test]
    fn a_source_is_shown_with_exact_sums_over_its_lanes() {
        let mut sheet = Sheet::new(Edition::Flown);
        let lane = |accepted, repaired| Lane {
            accepted,
            repaired,
            ..Lane::default()
        };
        sheet.sources[7] = Source {
            caller: lane(u32::MAX, 3),
            responder: lane(2, u32::MAX),
        };
        let shown = sheet.source(7);
        assert_eq!(shown, sheet.sources[7]);
        assert_eq!(shown.accepted(), u64::from(u32::MAX) + 2);
        assert_eq!(shown.repaired(), u64::from(u32::MAX) + 3);
    }

    #[test]
    fn a_source_without_a_record_was_never_heard() {
        let mut sheet = Sheet::new(Edition::Flown);
        for source in &mut sheet.sources {
            source.caller.accept(4, 1);
            source.responder.accept(5, 2);
        }
        for number in [8, 9, 127, 128, 255, usize::MAX] {
            assert_eq!(sheet.source(number), Source::default());
        }
        assert_eq!(sheet.source(0).caller.last, Some(4));
    }

    #[test]
    fn a_corrected_sheet_has_128_records() {
        let mut sheet = Sheet::new(Edition::Corrected);
        assert_eq!(sheet.sources.len(), 128);
        sheet.sources[127].caller.accept(4, 1);
        assert_eq!(sheet.source(127).caller.last, Some(4));
        for number in [128, 129, 255, usize::MAX] {
            assert_eq!(sheet.source(number), Source::default());
        }
    }

    #[test]
    fn the_sum_of_a_made_up_corrected_sheet_is_exact_too() {
        let mut sheet = Sheet::new(Edition::Corrected);
        for source in &mut sheet.sources {
            source.caller.accepted = u32::MAX;
            source.responder.accepted = u32::MAX;
        }
        assert_eq!(sheet.offered(), 256 * u64::from(u32::MAX));
        assert!(sheet.is_full());
    }
}
