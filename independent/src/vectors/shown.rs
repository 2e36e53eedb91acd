//! The inputs of `shown`: coefficients c0, c1, c2, a spread and x.

use crate::page::EPS_ROWS;
use crate::rng::Rng;

/// c0, c1 and c2 of the 17 rows.
const PLAIN: [f64; 3] = [0.0, 1.0, 0.0];

const NO_NUMBER: f64 = f64::from_bits(0x7FF8_0000_0000_0000);
const SMALLEST: f64 = f64::from_bits(1);

/// Coefficients of every sort.
const SORTS: [f64; 17] = [
    0.0,
    -0.0,
    1.0,
    -1.0,
    0.1,
    -1.0 / 3.0,
    1e6,
    9_007_199_254_740_993.0,
    f64::MAX,
    f64::MIN,
    1e304,
    f64::MIN_POSITIVE,
    1e-310,
    SMALLEST,
    f64::INFINITY,
    f64::NEG_INFINITY,
    NO_NUMBER,
];

/// x at its limits and around 0.
const TELLING_X: [i16; 5] = [0, 1, i16::MAX, i16::MIN, -1];

/// One input.
fn input(coefficients: [f64; 3], spread: u16, x: i16) -> Vec<u8> {
    of_bits(coefficients.map(f64::to_bits), spread, x)
}

/// One input, of the coefficients' bits.
fn of_bits(coefficients: [u64; 3], spread: u16, x: i16) -> Vec<u8> {
    let mut record = coefficients.map(u64::to_be_bytes).concat();
    record.extend(spread.to_be_bytes());
    record.extend(x.to_be_bytes());
    record
}

/// The spreads of the 17 rows, each once.
fn spreads() -> Vec<u16> {
    let mut spreads: Vec<u16> = EPS_ROWS.iter().map(|row| row.spread as u16).collect();
    spreads.sort_unstable();
    spreads.dedup();
    spreads
}

/// Every x for the 17 rows.
pub(super) fn every_x() -> Vec<Vec<u8>> {
    let mut inputs = Vec::new();
    for spread in spreads() {
        inputs.extend((i16::MIN..=i16::MAX).map(|x| input(PLAIN, spread, x)));
    }
    inputs
}

/// Some x for the 17 rows; all triples of sorts; coefficients by chance.
pub(super) fn mixture(rng: &mut Rng) -> Vec<Vec<u8>> {
    let mut inputs = Vec::new();
    for spread in spreads() {
        for x in (i16::MIN..=i16::MAX).step_by(1_009).chain(TELLING_X) {
            inputs.push(input(PLAIN, spread, x));
        }
    }
    for c0 in SORTS {
        for c1 in SORTS {
            for c2 in SORTS {
                for (spread, x) in [(1, 0), (3, 1), (3, -1), (50, i16::MAX), (32_767, i16::MIN)] {
                    inputs.push(input([c0, c1, c2], spread, x));
                }
            }
        }
    }
    // Coefficients of everyday size, then any bits at all.
    for _ in 0..10_000 {
        let coefficients = [(); 3].map(|()| f64::from(rng.next_u64() as i32) / 1_000.0);
        let spread = rng.within(1..=32_767) as u16;
        inputs.push(input(coefficients, spread, any_x(rng)));
    }
    for _ in 0..10_000 {
        let coefficients = [(); 3].map(|()| rng.next_u64());
        let spread = rng.below(40_000) as u16;
        inputs.push(of_bits(coefficients, spread, any_x(rng)));
    }
    inputs
}

fn any_x(rng: &mut Rng) -> i16 {
    rng.below(65_536) as u16 as i16
}

/// Spreads at their limits, and inputs that tell a right third term from wrong ones.
pub(super) fn telling() -> Vec<Vec<u8>> {
    let mut inputs = Vec::new();
    // 16, and the spreads beside it
    for spread in [0, 1, 32_766, 32_767, 32_768, 32_769, 65_535] {
        for coefficients in [PLAIN, [0.5, -3.0, 7.0]] {
            inputs.extend(TELLING_X.map(|x| input(coefficients, spread, x)));
        }
    }
    for spread in [1, 50, 32_767] {
        // Where x is 0, +0 is added whatever c2 is: c2 * (1 / 0) would be seen, and no term at all.
        for c2 in SORTS {
            for [c0, c1] in [[5.0, 2.0], [-0.0, -1.0], [-0.0, -0.0], [-0.0, 1.0]] {
                inputs.push(input([c0, c1, c2], spread, 0));
            }
        }
        // A third term of +0 or -0 after a sum of -0, whose product is -0 or too small for another number.
        for c1 in [0.0, -0.0, SMALLEST, -SMALLEST, 1.0, -1.0] {
            for c2 in [0.0, -0.0] {
                inputs.extend(TELLING_X.map(|x| input([-0.0, c1, c2], spread, x)));
            }
        }
    }
    // From right to left 2^-53 + 2^-53 is not lost, and twice the largest number is infinite.
    let half_a_step = f64::EPSILON / 2.0;
    for (sign, x) in [(1.0, 1), (-1.0, -1)] {
        inputs.push(input([1.0, sign * half_a_step, sign * half_a_step], 1, x));
        inputs.push(input([f64::MIN, sign * f64::MAX, sign * f64::MAX], 1, x));
    }
    // 49 * (1 / 49) is below 49 / 49, and 1 / (7 / 50) below 50 / 7; beside -1 a product that is not rounded by itself
    // is seen.
    for c0 in [0.0, -1.0] {
        for c2 in [1.0, 3.0, 49.0] {
            for (spread, x) in [(1, 49), (1, -49), (50, 7), (50, -7), (3, 11)] {
                inputs.push(input([c0, 0.0, c2], spread, x));
            }
        }
    }
    inputs
}

/// Whether `stored` takes an input of the mixture in any case: the rows', and those of whose coefficients one or two
/// are zero, subnormal, infinite or no number beside the rows' own.
pub(super) fn is_limit(record: &[u8]) -> bool {
    let special = |k: usize| {
        let bits = eight(&record[8 * k..]);
        (bits != PLAIN[k].to_bits()).then(|| !f64::from_bits(bits).is_normal())
    };
    let others: Vec<bool> = (0..3).filter_map(special).collect();
    others.len() < 3 && others.iter().all(|&special| special)
}

/// The first eight bytes as one number.
fn eight(bytes: &[u8]) -> u64 {
    bytes[..8]
        .iter()
        .fold(0, |number, &byte| number << 8 | u64::from(byte))
}
