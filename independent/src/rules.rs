//! How a frame is read: what a caller names with each read and each offer.

/// Which of the two rules a satellite follows: "each read, search, listing and write now names an edition".
#[derive(Clone, Copy, Debug, PartialEq, Eq)]
pub enum Edition {
    /// S-NET.
    Flown,
    /// SALSAT.
    Corrected,
}

/// Both editions.
pub const EDITIONS: [Edition; 2] = [Edition::Flown, Edition::Corrected];

impl Edition {
    /// The largest SrcId: under the corrected edition "all 128 are allowed".
    pub const fn largest_src_id(self) -> u16 {
        match self {
            Edition::Flown => 7,
            Edition::Corrected => 127,
        }
    }

    /// The sources of a sheet: "eight records for flown, 128 for corrected".
    pub const fn sources(self) -> usize {
        self.largest_src_id() as usize + 1
    }

    /// The other one.
    pub const fn other(self) -> Edition {
        match self {
            Edition::Flown => Edition::Corrected,
            Edition::Corrected => Edition::Flown,
        }
    }
}

/// "The reader gets a limit from 0 to 42."
pub const LARGEST_LIMIT: u32 = 42;

/// "A caller that names none had 42 and now gets 28."
pub const USUAL_LIMIT: u32 = 28;

/// The value that travels from the caller down to the header.
#[derive(Clone, Copy, Debug, PartialEq, Eq)]
pub struct Rules {
    /// The edition that the frame is read under.
    pub edition: Edition,
    /// The most flipped bits of a header that is believed. Any number may be named; one above 42 is refused (20).
    pub limit: u32,
}

/// The rules of a caller that names no limit.
pub const fn usual(edition: Edition) -> Rules {
    Rules {
        edition,
        limit: USUAL_LIMIT,
    }
}

#[cfg(test)]
mod tests {
    use super::*;
    use crate::air::WORDS;
    use crate::word::MOST_FLIPS;

    #[test]
    fn the_largest_limit_is_three_flips_in_every_word() {
        assert_eq!(LARGEST_LIMIT, WORDS as u32 * MOST_FLIPS);
    }

    #[test]
    fn a_caller_that_names_no_limit_gets_28() {
        for edition in EDITIONS {
            assert_eq!(usual(edition), Rules { edition, limit: 28 });
        }
    }

    #[test]
    fn eight_sources_for_flown_and_128_for_corrected() {
        assert_eq!(EDITIONS.map(Edition::sources), [8, 128]);
        assert_eq!(EDITIONS.map(Edition::largest_src_id), [7, 127]);
    }
}
