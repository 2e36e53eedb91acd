//! The replies of another program, held against those that are worked out here.

use std::fmt;

use super::lines::line;
use super::replies::reply;
use super::{records, Kind};

/// What came of a comparison.
#[derive(Debug, PartialEq, Eq)]
pub struct Comparison {
    /// How many records were compared.
    pub records: usize,
    /// What is told of each reply that is another or is missing, and of bytes after the last reply.
    pub differences: Vec<String>,
}

/// Compares the replies to these inputs; none where the inputs are no whole records of the kind.
pub fn compare(kind: Kind, inputs: &[u8], replies: &[u8]) -> Option<Comparison> {
    let records = records(kind, inputs)?;
    let mut rest = replies;
    let mut differences = Vec::new();
    for (number, &(kind, record)) in records.iter().enumerate() {
        let own = reply(kind, record);
        let (other, after) = rest.split_at(own.len().min(rest.len()));
        if own != other {
            differences.push(difference(number, kind, &own, other));
        }
        rest = after;
    }
    if !rest.is_empty() {
        differences.push(format!("{} bytes after the last reply", rest.len()));
    }
    Some(Comparison {
        records: records.len(),
        differences,
    })
}

/// The record's number, from 0, the first byte that differs, and both lines. A reply may differ where its line shows
/// nothing of it, as beside a refusal.
fn difference(number: usize, kind: Kind, own: &[u8], other: &[u8]) -> String {
    let byte = own.iter().zip(other).take_while(|(a, b)| a == b).count();
    let expected = line(kind, own);
    let found = if other.len() == own.len() {
        line(kind, other)
    } else {
        format!("{} of {} bytes", other.len(), own.len())
    };
    let name = kind.name();
    format!("record {number} ({name}), byte {byte}\n  expected: {expected}\n  found:    {found}")
}

impl fmt::Display for Comparison {
    fn fmt(&self, f: &mut fmt::Formatter) -> fmt::Result {
        for difference in &self.differences {
            writeln!(f, "{difference}")?;
        }
        let differ = self.differences.len();
        write!(f, "{} records compared, {differ} differ", self.records)
    }
}
