//! What the checksums alone catch: which changes of a header CRC5 does not see, and which of a payload CRC13 does not.
//!
//! A change is a set of flipped bits. "Take a header whose CRC5 is right, change .. its 70 bits before coding, check bits
//! included": the change is seen where "the CRC5 worked out afresh differs from the one it then carries". A checksum of a
//! sum is the sum of checksums but for its start, so which header it was does not matter.

use std::io::{self, Write};

use crate::air::WORDS;
use crate::crc::{Crc, CRC13, CRC5};
use crate::header::{crc5, HEADER_BITS};
use crate::rules::{Edition, EDITIONS};
use crate::word::DATA_BITS;

/// Header bit n alone, as the paper numbers them.
pub fn header_bit(n: usize) -> u128 {
    1 << (HEADER_BITS - 1 - n)
}

/// What the CRC5 worked out afresh and the one that is then carried differ by, after this change of a header whose CRC5
/// was right.
pub fn difference(edition: Edition, change: u128) -> u16 {
    let right = u128::from(crc5(edition, 0));
    let changed = right ^ change;
    crc5(edition, changed) ^ (changed & 0x1F) as u16
}

/// Whether CRC5 sees this change.
pub fn is_seen(edition: Edition, change: u128) -> bool {
    difference(edition, change) != 0
}

/// The header bits that are not seen when they are changed alone.
pub fn bits_not_seen(edition: Edition) -> Vec<usize> {
    (0..HEADER_BITS)
        .filter(|&n| !is_seen(edition, header_bit(n)))
        .collect()
}

/// All pairs of header bits, the lower one first.
pub fn pairs() -> impl Iterator<Item = (usize, usize)> {
    (0..HEADER_BITS).flat_map(|low| (low + 1..HEADER_BITS).map(move |high| (low, high)))
}

/// The pairs of header bits that are not seen when both are changed.
pub fn pairs_not_seen(edition: Edition) -> Vec<(usize, usize)> {
    pairs()
        .filter(|&(low, high)| !is_seen(edition, header_bit(low) | header_bit(high)))
        .collect()
}

/// Header bits of which any two are not seen together, each set in ascending order.
pub fn bits_that_cancel(edition: Edition) -> Vec<Vec<usize>> {
    let mut sets: Vec<Vec<usize>> = Vec::new();
    for n in 0..HEADER_BITS {
        let with = |set: &Vec<usize>| !is_seen(edition, header_bit(n) | header_bit(set[0]));
        match sets.iter().position(with) {
            Some(place) => sets[place].push(n),
            None => sets.push(vec![n]),
        }
    }
    sets
}

/// How many of the 31 wrong outcomes of a word are not seen: its five data bits become any others, and all other words
/// are right.
pub fn outcomes_not_seen(edition: Edition, word: usize) -> usize {
    let after = HEADER_BITS - DATA_BITS * (word + 1);
    (1..1 << DATA_BITS)
        .filter(|&data: &u128| !is_seen(edition, data << after))
        .count()
}

/// Of so many changes one is not seen, that of no bit among them: the differences of single bits make up all their sums,
/// and each sum comes from equally many changes.
pub fn one_in(edition: Edition) -> usize {
    let mut sums = vec![0];
    for n in 0..HEADER_BITS {
        let one = difference(edition, header_bit(n));
        if !sums.contains(&one) {
            let more: Vec<u16> = sums.iter().map(|sum| sum ^ one).collect();
            sums.extend(more);
        }
    }
    sums.len()
}

/// Whether a checksum sees every change of an odd number of bits that it is worked out over: its polynomial has the
/// factor x + 1, which is so where it has an even number of terms, the implied one among them.
pub fn sees_odd(crc: Crc) -> bool {
    let beside_the_implied = crc.polynomial.count_ones();
    beside_the_implied % 2 == 1
}

/// The smallest k for which x^k is 1 modulo the checksum's polynomial: two flipped bits that go in k places apart are not
/// seen, nor are two that go in a multiple of k apart.
pub fn order(crc: Crc) -> usize {
    let mask = u16::MAX >> (u16::BITS - crc.width);
    let mut power: u16 = 1;
    for k in 1.. {
        let over = power >> (crc.width - 1) & 1 == 1;
        power = power << 1 & mask;
        if over {
            power ^= crc.polynomial;
        }
        if power == 1 {
            return k;
        }
    }
    unreachable!("a polynomial with the term 1 has an order")
}

/// Flips a bit of a payload, by its place in the order in which the bits go into CRC13: "payload bytes from the last to
/// the first, each most significant bit first".
pub fn flip_as_it_goes_in(payload: &mut [u8], place: usize) {
    let byte = payload.len() - 1 - place / 8;
    payload[byte] ^= 0x80 >> (place % 8);
}

/// How many pairs of bits of a payload of so many bytes CRC13 does not see, and how many pairs there are.
pub fn payload_pairs_not_seen(bytes: usize) -> (usize, usize) {
    let bits = 8 * bytes;
    let pairs = bits * bits.saturating_sub(1) / 2;
    let apart = (1..).map(|times| times * order(CRC13));
    let not_seen = apart.take_while(|&k| k < bits).map(|k| bits - k).sum();
    (not_seen, pairs)
}

/// The payloads whose pairs are counted: the standard telemetry of EPS and ADCS, and the longest.
const PAYLOADS: [usize; 3] = [62, 69, 1_023];

/// Tells all of it.
pub fn write_catches(out: &mut impl Write) -> io::Result<()> {
    for edition in EDITIONS {
        write_crc5(edition, out)?;
    }
    writeln!(
        out,
        "wrong outcomes of one word that crc5 does not see, of 31"
    )?;
    writeln!(out, "word bits flown corrected")?;
    for word in 0..WORDS {
        let first = DATA_BITS * word;
        let last = first + DATA_BITS - 1;
        let [flown, corrected] = EDITIONS.map(|edition| outcomes_not_seen(edition, word));
        writeln!(out, "{word} {first}-{last} {flown} {corrected}")?;
    }
    writeln!(out, "crc13")?;
    writeln!(out, "every odd change seen: {}", yes(sees_odd(CRC13)))?;
    let order = order(CRC13);
    writeln!(out, "two bits not seen where they go in {order} apart")?;
    for bytes in PAYLOADS {
        let (not_seen, pairs) = payload_pairs_not_seen(bytes);
        writeln!(
            out,
            "pairs not seen in a payload of {bytes}: {not_seen} of {pairs}"
        )?;
    }
    Ok(())
}

fn write_crc5(edition: Edition, out: &mut impl Write) -> io::Result<()> {
    let (name, but) = match edition {
        Edition::Flown => ("flown", ", of the bits but 32 to 35"),
        Edition::Corrected => ("corrected", ""),
    };
    let singles = bits_not_seen(edition);
    let not_seen = pairs_not_seen(edition);
    writeln!(out, "crc5 {name}")?;
    writeln!(out, "every odd change seen{but}: {}", yes(sees_odd(CRC5)))?;
    let count = singles.len();
    writeln!(
        out,
        "bits not seen alone, {count} of {HEADER_BITS}: {}",
        listed(&singles)
    )?;
    let (count, all) = (not_seen.len(), pairs().count());
    writeln!(out, "pairs not seen: {count} of {all}")?;
    if let Some((low, high)) = not_seen.first() {
        writeln!(
            out,
            "smallest even change not seen: 2 bits, first {low} {high}"
        )?;
    }
    let neighbours = not_seen.iter().filter(|(low, high)| low + 1 == *high);
    let neighbours: Vec<String> = neighbours.map(|(a, b)| format!("{a}-{b}")).collect();
    writeln!(out, "neighbours not seen: {}", listed(&neighbours))?;
    let lost = (1..16_u128).filter(|four| !is_seen(edition, four << (HEADER_BITS - 36)));
    writeln!(
        out,
        "changes of bits 32 to 35 alone not seen: {} of 15",
        lost.count()
    )?;
    writeln!(out, "of all changes not seen: 1 in {}", one_in(edition))?;
    writeln!(out, "bits of which no two are seen together")?;
    for set in bits_that_cancel(edition) {
        writeln!(out, "{}", listed(&set))?;
    }
    Ok(())
}

/// What there is, with one space between.
fn listed(items: &[impl ToString]) -> String {
    if items.is_empty() {
        return String::from("none");
    }
    let items: Vec<String> = items.iter().map(ToString::to_string).collect();
    items.join(" ")
}

fn yes(is_so: bool) -> &'static str {
    if is_so {
        "yes"
    } else {
        "no"
    }
}
