//! Sorts of flip patterns that show a wrong worst word or a wrong pattern, to see whether a stream has them all.

use independent::air::WORDS;

/// The fourteen patterns of a header.
type Patterns = [u16; WORDS];

/// Positions 10 to 14 of a word, its five data bits.
const DATA: u16 = 0b111_1100_0000_0000;

/// The name of a sort, and what belongs to it.
type Sort = (&'static str, fn(&Patterns) -> bool);

const SORTS: [Sort; 7] = [
    ("nothing flipped", |p| *p == [0; WORDS]),
    ("the worst word is not the first", |p| worst(p) > 0),
    ("a tie", |p| most(p) > 0 && tied(p).count() > 1),
    ("parity positions alone", |p| {
        most(p) > 0 && p.iter().all(|pattern| pattern & DATA == 0)
    }),
    ("another worst word without parity positions", |p| {
        worst(p) != worst(&p.map(|pattern| pattern & DATA))
    }),
    ("larger with fewer flips in an earlier word", |p| {
        p[..worst(p)].iter().any(|&earlier| is_larger(earlier, p))
    }),
    ("larger with fewer flips in a later word", |p| {
        p[worst(p)..].iter().any(|&later| is_larger(later, p))
    }),
];

fn most(patterns: &Patterns) -> u32 {
    patterns.iter().map(|p| p.count_ones()).max().unwrap()
}

/// The words with the most flips.
fn tied(patterns: &Patterns) -> impl Iterator<Item = usize> + '_ {
    let most = most(patterns);
    (0..WORDS).filter(move |&word| patterns[word].count_ones() == most)
}

fn worst(patterns: &Patterns) -> usize {
    tied(patterns).next().unwrap()
}

/// Whether a pattern is larger than that of the worst word, and has fewer ones.
fn is_larger(pattern: u16, patterns: &Patterns) -> bool {
    pattern.count_ones() < most(patterns) && pattern > patterns[worst(patterns)]
}

/// Holds that each sort is there.
pub fn all_sorts_in(headers: &[Patterns]) {
    for (name, belongs) in SORTS {
        assert!(headers.iter().any(belongs), "{name}");
    }
}
