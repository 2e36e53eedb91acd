//! The answer to what is not accepted.

use std::fmt;

/// "A refusal carries number and place only."
#[derive(Clone, Copy, Debug, PartialEq, Eq)]
pub struct Refusal {
    /// The number of the paper's tables, from 1.
    pub number: u8,
    /// What the table calls place: a length, an index, a field's value or a checksum.
    pub place: usize,
}

impl Refusal {
    /// The refusal of this number at this place.
    pub fn new(number: u8, place: impl Into<usize>) -> Refusal {
        Refusal {
            number,
            place: place.into(),
        }
    }
}

/// As the listing and the vectors write it: `refused 4 6`.
impl fmt::Display for Refusal {
    fn fmt(&self, f: &mut fmt::Formatter<'_>) -> fmt::Result {
        write!(f, "refused {} {}", self.number, self.place)
    }
}
