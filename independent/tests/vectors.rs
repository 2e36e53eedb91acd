//! Vectors: their sizes, some lines that the paper gives, replies and their comparison.

use std::array;
use std::collections::BTreeSet;
use std::sync::OnceLock;

use independent::air::WORDS;
use independent::header::{Field, Header};
use independent::rules::Edition;
use independent::sample::seal;
use independent::vectors::{
    compare, write_inputs, write_lines, write_replies, Kind, DEFAULT_SEED, KINDS,
};
use independent::word::repair;
use telling::all_sorts_in;

mod telling;

fn inputs(kind: Kind, seed: u64) -> Vec<u8> {
    let mut bytes = Vec::new();
    write_inputs(kind, seed, &mut bytes).unwrap();
    bytes
}

fn replies(kind: Kind) -> Vec<u8> {
    let mut bytes = Vec::new();
    write_replies(kind, DEFAULT_SEED, &mut bytes).unwrap();
    bytes
}

fn lines(kind: Kind) -> Vec<String> {
    let mut bytes = Vec::new();
    write_lines(kind, DEFAULT_SEED, &mut bytes).unwrap();
    let text = String::from_utf8(bytes).unwrap();
    assert!(text.ends_with('\n'));
    text.lines().map(String::from).collect()
}

/// The kinds but for the stored ones.
const OTHERS: usize = 17;

/// The size of a record of each kind, and of a reply.
const SIZES: [usize; OTHERS] = [
    2, 1, 2_049, 66, 263, 21, 267, 1_102, 36, 28, 622, 337, 304, 286, 1, 162, 170,
];
const REPLY_SIZES: [usize; OTHERS] = [
    12, 3, 4, 1, 60, 267, 60, 80, 75, 17, 396, 52, 153, 60, 48, 66, 171,
];

#[test]
fn every_input_has_its_size_its_reply_and_its_line() {
    for ((name, kind), (size, reply_size)) in
        KINDS.into_iter().zip(SIZES.into_iter().zip(REPLY_SIZES))
    {
        assert_eq!(Kind::named(name), Some(kind));
        assert_eq!(kind.name(), name);
        let count = lines(kind).len();
        assert_eq!(inputs(kind, DEFAULT_SEED).len(), size * count, "{name}");
        assert_eq!(replies(kind).len(), reply_size * count, "{name}");
    }
    assert_eq!(Kind::named("word"), None);
}

#[test]
fn a_seed_changes_what_is_left_to_chance() {
    for (_, kind) in KINDS {
        let same = inputs(kind, 1) == inputs(kind, 2);
        assert_eq!(
            same,
            matches!(kind, Kind::Words | Kind::Encode | Kind::Calls)
        );
    }
}

#[test]
fn marked_examples_are_among_the_lines() {
    let words = lines(Kind::Words);
    assert_eq!(words[0], "0 0 0000");
    assert_eq!(words[0x537], "1335 1335 0000");
    assert_eq!(words[0x7FFF], "32767 32767 0000");
    assert_eq!(words[0x0007], "7 0 0007");
    assert_eq!(words[0x0017], "23 1335 0520");
    assert_eq!(words[0x000F], "15 beyond");
    assert_eq!(words[0x8000], "32768 beyond");
    let beyond = words.iter().filter(|line| line.ends_with("beyond"));
    assert_eq!(beyond.count(), 32_768 + 448 * 32);

    assert_eq!(lines(Kind::Encode)[1], "1 1335");
    let crc13 = lines(Kind::Crc13);
    assert_eq!(crc13[0], format!("0 {}", 0x1FFF));
    assert!(crc13.contains(&format!("1 {}", 0x1F00)));
    assert!(crc13.contains(&format!("2 {}", 0x13D4)));
    let crc5 = lines(Kind::Crc5);
    // No bit; then bit 0 alone, and so on: bit 32 is on line 33.
    assert_eq!((crc5[0].as_str(), crc5[33].as_str()), ("6", "6"));
    // The same under the corrected edition, 132 lines later.
    let corrected = &crc5[132..];
    assert_eq!((corrected[0].as_str(), corrected[33].as_str()), ("6", "28"));
}

#[test]
fn every_answer_is_among_the_lines() {
    let has = |kind: Kind, starts: &[&str]| {
        let lines = lines(kind);
        for start in starts {
            let found = lines.iter().any(|line| line.starts_with(start));
            assert!(found, "{kind:?} {start}");
        }
    };
    let frame = [
        "accepted ",
        "refused 1 ",
        "refused 2 ",
        "refused 3 ",
        "refused 4 ",
        "refused 5 ",
        "refused 6 ",
        "refused 20 ",
        "refused 21 ",
        "refused 7 ",
        "refused 8 ",
    ];
    has(Kind::Headers, &frame[..9]);
    has(Kind::Frames, &frame);
    has(
        Kind::Sheets,
        &[
            "accepted ",
            "refused 2 ",
            "refused 8 ",
            "refused 17 65535 ",
            "refused 20 43 ",
            "refused 21 ",
            "refused 22 0 ",
            "refused 23 ",
            "refused 24 ",
        ],
    );
    has(
        Kind::Signs,
        &[
            "accepted ",
            "refused 23 47",
            "refused 23 49",
            "refused 24 7",
        ],
    );
    has(
        Kind::Wides,
        &[
            "accepted 127 ",
            "refused 6 ",
            "refused 17 65535 ",
            "refused 20 43 ",
            "refused 21 ",
            "refused 22 0 ",
        ],
    );
    has(
        Kind::Writes,
        &[
            "written ",
            "refused 13 0 -",
            "refused 14 ",
            "refused 15 1024 777",
        ],
    );
    has(
        Kind::Pages,
        &[
            "page ",
            "refused 9 ",
            "refused 10 ",
            "refused 11 ",
            "refused 12 ",
        ],
    );
    has(
        Kind::Rows,
        &["written ", "refused 18 0 -", "refused 18 33 a7a7"],
    );
    has(Kind::Shown, &["0000000000000000", "nan", "refused 16 0"]);
}

/// A record, its reply and its line.
#[derive(PartialEq)]
struct Vector {
    record: Vec<u8>,
    reply: Vec<u8>,
    line: String,
}

impl Vector {
    fn new(record: &[u8], reply: &[u8], line: String) -> Vector {
        Vector {
            record: record.to_vec(),
            reply: reply.to_vec(),
            line,
        }
    }
}

/// The vectors of a kind.
fn vectors(kind: Kind) -> Vec<Vector> {
    let (inputs, replies) = (inputs(kind, DEFAULT_SEED), replies(kind));
    let records = inputs.chunks(SIZES[kind as usize]);
    let replies = replies.chunks(REPLY_SIZES[kind as usize]);
    let both = records.zip(replies).zip(lines(kind));
    both.map(|((record, reply), line)| Vector::new(record, reply, line))
        .collect()
}

/// The stored streams: each kind is in one of them.
const STREAMS: [Kind; 3] = [Kind::Stored, Kind::StoredSheets, Kind::StoredBeesat];

/// The vectors of the stored streams, for each kind.
fn stored() -> &'static [Vec<Vector>; OTHERS] {
    static STORED: OnceLock<[Vec<Vector>; OTHERS]> = OnceLock::new();
    STORED.get_or_init(made_stored)
}

fn made_stored() -> [Vec<Vector>; OTHERS] {
    let mut vectors: [Vec<Vector>; OTHERS] = Default::default();
    for stream in STREAMS {
        let mut kinds = BTreeSet::new();
        let (inputs, replies) = (inputs(stream, DEFAULT_SEED), replies(stream));
        let (mut records, mut replies) = (inputs.as_slice(), replies.as_slice());
        for line in lines(stream) {
            let kind = usize::from(records[0]);
            let (record, later_records) = records[1..].split_at(SIZES[kind]);
            let (reply, later_replies) = replies.split_at(REPLY_SIZES[kind]);
            (records, replies) = (later_records, later_replies);
            assert!(kinds.contains(&kind) || vectors[kind].is_empty());
            kinds.insert(kind);
            vectors[kind].push(Vector::new(record, reply, line));
        }
        assert!(records.is_empty() && replies.is_empty());
    }
    vectors
}

#[test]
fn stored_records_are_those_of_the_other_streams_in_their_order() {
    for ((_, kind), records) in KINDS.into_iter().zip(stored()) {
        let mut others = vectors(kind).into_iter();
        assert!(!records.is_empty());
        for record in records {
            let found = others.any(|other| other == *record);
            assert!(found, "{kind:?} {}", record.line);
        }
    }
}

#[test]
fn stored_records_have_every_answer_of_their_kind() {
    let stored = stored();
    let has = |kind: Kind, start: String| {
        let mut lines = stored[kind as usize].iter().map(|v| &v.line);
        assert!(
            lines.any(|line| line.starts_with(&start)),
            "{kind:?} {start}"
        );
    };
    assert_eq!(stored[Kind::Words as usize].len(), 65_536);
    assert_eq!(stored[Kind::Encode as usize].len(), 32);
    for (kind, accepted, refusals) in [
        (Kind::Headers, "accepted ", 1..=6),
        (Kind::Headers, "accepted ", 20..=21),
        (Kind::Frames, "accepted ", 1..=8),
        (Kind::Frames, "accepted ", 20..=21),
        (Kind::Sheets, "accepted ", 2..=8),
        (Kind::Sheets, "accepted ", 17..=17),
        (Kind::Sheets, "accepted ", 20..=22),
        (Kind::Sheets, "accepted ", 23..=24),
        (Kind::Signs, "accepted ", 2..=8),
        (Kind::Signs, "accepted ", 20..=21),
        (Kind::Signs, "accepted ", 23..=24),
        (Kind::Wides, "accepted ", 2..=4),
        (Kind::Wides, "accepted ", 6..=8),
        (Kind::Wides, "accepted ", 17..=17),
        (Kind::Wides, "accepted ", 20..=22),
        (Kind::Pages, "page ", 9..=12),
        (Kind::Writes, "written ", 13..=15),
        (Kind::Shown, "nan", 16..=16),
        (Kind::Rows, "written ", 18..=18),
    ] {
        has(kind, String::from(accepted));
        for number in refusals {
            has(kind, format!("refused {number} "));
        }
    }
    // Every place of a header alone, of the header writer's fields and of the page writer.
    for (number, places) in [(3, 0..=13), (4, 0..=31), (5, 8..=127), (6, 4..=15)] {
        for place in places {
            let line = format!("refused {number} {place}");
            assert!(
                stored[Kind::Headers as usize]
                    .iter()
                    .any(|v| v.line == line),
                "{line}"
            );
        }
    }
    for field in 0..14 {
        has(Kind::Writes, format!("refused 14 {field} "));
    }
    for room in 0..34 {
        has(Kind::Rows, format!("refused 18 {room} "));
    }
}

#[test]
fn stored_records_have_the_limits_of_their_kind() {
    let stored = stored();
    let has = |kind: Kind, at: usize, bytes: &[u8]| {
        let mut records = stored[kind as usize].iter();
        let found = records.any(|v| v.record[at..].starts_with(bytes));
        assert!(found, "{kind:?} {at} {bytes:?}");
    };
    for length in [0u16, 1_023, 1_024] {
        has(Kind::Crc13, 0, &length.to_be_bytes());
        has(Kind::Writes, 17, &length.to_be_bytes());
        has(Kind::Frames, 263, &length.to_be_bytes());
        has(Kind::Pages, 0, &length.to_be_bytes());
    }
    for spread in [0u16, 1, 32_767, 32_768, 65_535] {
        has(Kind::Shown, 24, &spread.to_be_bytes());
    }
    let telling = [
        f64::from_bits(0x7FF8_0000_0000_0000),
        f64::INFINITY,
        f64::NEG_INFINITY,
        -0.0,
        1e-310,
        f64::from_bits(1),
    ];
    for coefficient in telling {
        for at in [0, 8, 16] {
            has(Kind::Shown, at, &coefficient.to_bits().to_be_bytes());
        }
    }
    // Light damage in one word; a burst of 42, or three flips in every word.
    let repaired = |flips: u32| {
        let mut lines = stored[Kind::Headers as usize].iter().map(|v| &v.line);
        // `accepted`, seventeen values, the flips
        lines.any(|line| line.split(' ').nth(18) == Some(&flips.to_string()))
    };
    assert!([0, 1, 2, 3, 42].into_iter().all(repaired));
}

/// Coefficients, spread and x of a record of `shown`.
fn scaling_of(record: &[u8]) -> ([f64; 3], f64, i16) {
    let eight = |at: usize| u64::from_be_bytes(record[at..][..8].try_into().unwrap());
    let two = |at: usize| u16::from_be_bytes([record[at], record[at + 1]]);
    let coefficients = [0, 8, 16].map(|at| f64::from_bits(eight(at)));
    (coefficients, two(24).into(), two(26) as i16)
}

#[test]
fn shown_has_every_x_of_the_17_rows() {
    let mut seen = BTreeSet::new();
    for record in inputs(Kind::Shown, DEFAULT_SEED).chunks(28) {
        let (coefficients, spread, x) = scaling_of(record);
        if coefficients.map(f64::to_bits) == [0.0, 1.0, 0.0].map(f64::to_bits) {
            seen.insert((spread as u16, x));
        }
    }
    for spread in [50, 1, 2, 12, 6, 8, 5, 256] {
        assert!((i16::MIN..=i16::MAX).all(|x| seen.contains(&(spread, x))));
    }
}

/// A wrong rule of the shown value, over coefficients, spread and x.
type WrongRule = fn([f64; 3], f64, i16) -> f64;

const WRONG_RULES: [(&str, WrongRule); 9] = [
    ("c2 / y", |[c0, c1, c2], s, x| {
        let y = f64::from(x) / s;
        c0 + c1 * y + if x == 0 { 0.0 } else { c2 / y }
    }),
    ("c2 * (S / x)", |[c0, c1, c2], s, x| {
        let x = f64::from(x);
        c0 + c1 * (x / s) + if x == 0.0 { 0.0 } else { c2 * (s / x) }
    }),
    ("no third term at x = 0", |[c0, c1, c2], s, x| {
        let y = f64::from(x) / s;
        let two = c0 + c1 * y;
        if x == 0 {
            return two;
        }
        two + c2 * (1.0 / y)
    }),
    (
        "the third term as it comes at x = 0",
        |[c0, c1, c2], s, x| {
            let y = f64::from(x) / s;
            c0 + c1 * y + c2 * (1.0 / y)
        },
    ),
    ("c2 * 0 at x = 0", |[c0, c1, c2], s, x| {
        let y = f64::from(x) / s;
        c0 + c1 * y + c2 * if x == 0 { 0.0 } else { 1.0 / y }
    }),
    ("from right to left", |[c0, c1, c2], s, x| {
        let y = f64::from(x) / s;
        c0 + (c1 * y + if x == 0 { 0.0 } else { c2 * (1.0 / y) })
    }),
    ("no third term where c2 is 0", |[c0, c1, c2], s, x| {
        let y = f64::from(x) / s;
        let two = c0 + c1 * y;
        if c2 == 0.0 {
            return two;
        }
        two + if x == 0 { 0.0 } else { c2 * (1.0 / y) }
    }),
    (
        "the third product and sum rounded as one",
        |[c0, c1, c2], s, x| {
            let y = f64::from(x) / s;
            let two = c0 + c1 * y;
            if x == 0 {
                return two + 0.0;
            }
            c2.mul_add(1.0 / y, two)
        },
    ),
    ("the rule of paper 01", |[c0, c1, _], s, x| {
        c0 + c1 * (f64::from(x) / s)
    }),
];

#[test]
fn stored_records_tell_the_shown_value_from_wrong_ones() {
    let stored = stored();
    let accepted = stored[Kind::Shown as usize]
        .iter()
        .filter(|v| v.reply[0] == 0);
    let accepted: Vec<&Vector> = accepted.collect();
    for (name, rule) in WRONG_RULES {
        let differs = |vector: &&Vector| {
            let (coefficients, spread, x) = scaling_of(&vector.record);
            let value = rule(coefficients, spread, x);
            let bits = if value.is_nan() {
                u64::MAX
            } else {
                value.to_bits()
            };
            vector.reply[9..] != bits.to_be_bytes()
        };
        assert!(accepted.iter().any(differs), "{name}");
    }
}

/// The limit that a record of `headers`, `frames`, `sheets` or `wides` names, behind its edition.
fn limit_of(record: &[u8]) -> u32 {
    u32::from_be_bytes(record[1..5].try_into().unwrap())
}

/// The header bytes of a record of these kinds and of `signs`: behind rules, call sign (67 bytes) and sheet, or behind rules
/// and length.
fn header_of(kind: Kind, record: &[u8]) -> &[u8] {
    match kind {
        Kind::Sheets => &record[5 + 67 + 336..][..210],
        Kind::Signs => &record[5 + 67..][..210],
        Kind::Wides => &record[5 + 1 + 36 + 48..][..210],
        _ => {
            let length = u16::from_be_bytes([record[5], record[6]]);
            &record[7..][..usize::from(length)]
        }
    }
}

/// The fourteen patterns behind answer, fields and flips.
fn patterns_of(reply: &[u8]) -> [u16; WORDS] {
    array::from_fn(|word| u16::from_be_bytes([reply[32 + 2 * word], reply[33 + 2 * word]]))
}

/// The patterns of a header's words, 0 for those beyond repair.
fn patterns_on_air(header: &[u8]) -> [u16; WORDS] {
    array::from_fn(|word| {
        let received = (0..15).map(|i| u16::from(header[14 * i + word] & 1) << i);
        repair(received.sum()).map_or(0, |repaired| repaired.pattern)
    })
}

#[test]
fn accepted_replies_have_the_pattern_of_every_word_and_their_ones_in_all() {
    let stored = stored();
    for kind in [
        Kind::Headers,
        Kind::Frames,
        Kind::Sheets,
        Kind::Wides,
        Kind::Signs,
    ] {
        let mut all = Vec::new();
        for vector in stored[kind as usize].iter().filter(|v| v.reply[0] == 0) {
            let patterns = patterns_of(&vector.reply);
            assert_eq!(patterns, patterns_on_air(header_of(kind, &vector.record)));
            let flips: u32 = patterns.iter().map(|p| p.count_ones()).sum();
            assert_eq!(vector.reply[28..32], flips.to_be_bytes());
            // `accepted`, seventeen values, the flips, the patterns
            let words: Vec<&str> = vector.line.split(' ').collect();
            assert_eq!(words[18], flips.to_string());
            assert_eq!(words[19..][..WORDS], patterns.map(|p| format!("{p:04x}")));
            all.push(patterns);
        }
        if !matches!(kind, Kind::Wides | Kind::Signs) {
            all_sorts_in(&all);
        }
    }
}

#[test]
fn beside_a_refusal_everything_else_is_0_although_bits_were_flipped() {
    let stored = stored();
    for (kind, numbers) in [
        (Kind::Headers, vec![1, 2, 3, 4, 5, 6, 20, 21]),
        (Kind::Frames, vec![1, 2, 3, 4, 5, 6, 7, 8, 20, 21]),
        (
            Kind::Sheets,
            vec![2, 3, 4, 5, 6, 7, 8, 17, 20, 21, 22, 23, 24],
        ),
        (Kind::Signs, vec![2, 3, 4, 5, 6, 7, 8, 20, 21, 23, 24]),
        (Kind::Wides, vec![2, 3, 4, 6, 7, 8, 17, 20, 21, 22]),
    ] {
        let mut flipped = BTreeSet::new();
        for vector in stored[kind as usize].iter().filter(|v| v.reply[0] != 0) {
            // fields, flips and patterns, behind number and place and before a sheet
            assert_eq!(vector.reply[9..60], [0; 51]);
            let header = header_of(kind, &vector.record);
            if header.len() >= 210 && patterns_on_air(header) != [0; WORDS] {
                flipped.insert(vector.reply[0]);
            }
        }
        assert!(flipped.into_iter().eq(numbers), "{kind:?}");
    }
}

/// Number and place of a reply's refusal, 0 and 0 where there is none.
fn answer_of(reply: &[u8]) -> (u8, u64) {
    (
        reply[0],
        u64::from_be_bytes(reply[1..9].try_into().unwrap()),
    )
}

#[test]
fn every_limit_is_named_with_totals_below_at_and_above_it() {
    let stored = stored();
    let mut named = BTreeSet::new();
    let mut judged = BTreeSet::new();
    for vector in &stored[Kind::Headers as usize] {
        let (limit, answer) = (limit_of(&vector.record), answer_of(&vector.reply));
        named.insert(limit);
        if limit > 42 {
            assert_eq!(answer, (20, limit.into()));
        } else if [0, 21].contains(&answer.0) {
            let patterns = patterns_on_air(header_of(Kind::Headers, &vector.record));
            let total: u32 = patterns.iter().map(|p| p.count_ones()).sum();
            let expected = if total > limit {
                (21, total.into())
            } else {
                (0, 0)
            };
            assert_eq!(answer, expected);
            judged.insert((limit, total));
        }
    }
    let above = [43, 44, 255, 256, 65_535, 65_536, 1 << 31, u32::MAX];
    assert!((0..=42).chain(above).all(|limit| named.contains(&limit)));
    for limit in 0..=42_u32 {
        for total in limit.saturating_sub(1)..=(limit + 1).min(42) {
            assert!(judged.contains(&(limit, total)), "{limit} {total}");
        }
        assert!(judged.contains(&(limit, 42)));
    }
}

#[test]
fn limits_above_42_and_totals_above_the_limit_come_with_every_other_refusal() {
    let stored = stored();
    for kind in [Kind::Headers, Kind::Frames, Kind::Sheets] {
        // What is given where nothing but the limit is another one, and what is given as it stands.
        let mut together = BTreeSet::new();
        for vector in &stored[kind as usize] {
            let mut widest = vector.record.clone();
            widest[1..5].copy_from_slice(&42_u32.to_be_bytes());
            let told = compare(kind, &widest, &vector.reply).unwrap();
            if !told.differences.is_empty() {
                let text = told.to_string();
                let words: Vec<&str> = text.split_whitespace().collect();
                let at = words.iter().position(|&word| word == "expected:").unwrap();
                let otherwise = words[at + 1..at + 3].join(" ");
                together.insert((vector.reply[0], otherwise));
            }
        }
        let numbers = match kind {
            Kind::Headers => 1..=6,
            Kind::Frames => 1..=8,
            _ => 2..=8,
        };
        for number in numbers {
            let other = format!("refused {number}");
            assert!(together.contains(&(20, other.clone())), "{kind:?} {number}");
            // 1 to 3 come before 21, so they are what is given.
            assert_eq!(
                together.contains(&(21, other)),
                number > 3,
                "{kind:?} {number}"
            );
        }
    }
}

#[test]
fn sheets_that_are_full_or_nearly_so_are_offered_frames_for_20_and_21() {
    let stored = stored();
    let mut seen = BTreeSet::new();
    for vector in &stored[Kind::Sheets as usize] {
        let counts = &vector.record[5 + 67 + 288..][..48];
        let total: u64 = counts
            .chunks_exact(4)
            .map(|count| u64::from(u32::from_be_bytes(count.try_into().unwrap())))
            .sum();
        if vector.record[..1] == [0]
            && vector.record[5..][..67 + 288] == [0; 67 + 288]
            && total >= 65_534
        {
            seen.insert((total, limit_of(&vector.record), vector.reply[0]));
        }
    }
    for expected in [
        (65_534, 43, 20),
        (65_534, 0, 21),
        (65_535, 43, 17),
        (65_535, 0, 17),
    ] {
        assert!(seen.contains(&expected), "{expected:?}");
    }
}

/// The reply number `number` of a kind.
fn reply(kind: Kind, number: usize) -> Vec<u8> {
    let size = REPLY_SIZES[kind as usize];
    replies(kind)[size * number..][..size].to_vec()
}

#[test]
fn replies_stand_byte_for_byte_as_told() {
    // 7 becomes 0 with pattern 7, by the table and by the search; 0x17 becomes 0x537 with 0x520; 15 is beyond repair.
    let seven = [0, 7, 1, 0, 0, 0, 7, 1, 0, 0, 0, 7];
    assert_eq!(reply(Kind::Words, 7), seven);
    let another = [0, 0x17, 1, 5, 0x37, 5, 0x20, 1, 5, 0x37, 5, 0x20];
    assert_eq!(reply(Kind::Words, 0x17), another);
    let beyond = [0, 15, 0, 0, 0, 0, 0, 0, 0, 0, 0, 0];
    assert_eq!(reply(Kind::Words, 15), beyond);
    assert_eq!(reply(Kind::Encode, 1), [1, 0x05, 0x37]);
    assert_eq!(reply(Kind::Crc13, 0), [0, 0, 0x1F, 0xFF]);
    assert_eq!(reply(Kind::Crc5, 0), [6]);
    // 1: no element at all; 4: 210 zeros, whose CRC5 is 6
    let number = |line: &str| {
        let lines = lines(Kind::Headers);
        lines.iter().position(|l| l == line).unwrap()
    };
    let mut refused = vec![0; 60];
    refused[0] = 1;
    assert_eq!(reply(Kind::Headers, number("refused 1 0")), refused);
    (refused[0], refused[8]) = (4, 6);
    assert_eq!(reply(Kind::Headers, number("refused 4 6")), refused);
    // 18: no room; rows of zeros into a room of 34, of which nothing else is left
    let mut rows = vec![0; 75];
    rows[0] = 18;
    assert_eq!(reply(Kind::Rows, 0), rows);
    (rows[0], rows[10]) = (0, 34);
    assert_eq!(reply(Kind::Rows, 34 * 8), rows);
    // one byte more keeps what it held
    (rows[10], rows[11 + 34]) = (35, 0xA7);
    assert_eq!(reply(Kind::Rows, 35 * 8), rows);
}

#[test]
fn shown_values_stand_byte_for_byte_as_told() {
    // c0 = 1, c1 = 3, c2 = 5, S = 4, x = 8: y = 2, and 1 + 6 + 2.5 is 9.5
    let mut record = [1.0f64, 3.0, 5.0]
        .map(|c| c.to_bits().to_be_bytes())
        .concat();
    record.extend([0, 4, 0, 8]);
    let mut value = vec![0; 9];
    value.extend(9.5f64.to_bits().to_be_bytes());
    let compared = compare(Kind::Shown, &record, &value).unwrap();
    assert_eq!(compared.differences, Vec::<String>::new());
    // 16: S = 0
    record[25] = 0;
    let refused = [&[16][..], &[0; 16]].concat();
    let compared = compare(Kind::Shown, &record, &refused).unwrap();
    assert_eq!(compared.differences, Vec::<String>::new());
}

#[test]
fn patterns_stand_byte_for_byte_as_told() {
    // 65 zero bits have the CRC5 6, and 0x1B85 is the valid word that carries it as word 13. Flipped are positions 0 to 2
    // of word 0 and 14 and 0 of word 1.
    let mut air = [0; 210];
    let words = [(0, 0x0007), (1, 0x4001), (13, 0x1B85)];
    for (word, received) in words {
        (0..15).for_each(|i| air[14 * i + word] = (received >> i & 1) as u8);
    }
    let mut header = [&[0, 0, 0, 0, 5, 0, 210][..], &air, &[0; 46]].concat();
    let patterns = [&[0x00, 0x07, 0x40, 0x01][..], &[0; 24]].concat();
    let accepted = [&[0; 27][..], &[6, 0, 0, 0, 5], &patterns].concat();
    let agrees = |kind: Kind, record: &[u8], reply: &[u8]| {
        let differences = compare(kind, record, reply).unwrap().differences;
        assert_eq!(differences, Vec::<String>::new());
    };
    agrees(Kind::Headers, &header, &accepted);
    // CRC13 of nothing is 0x1FFF, and the header has 0: no pattern stands beside the refusal. It is the sheet's first of 8.
    let refused = [&[8, 0, 0, 0, 0, 0, 0, 0x1F, 0xFF][..], &[0; 51]].concat();
    header.extend([0; 4]);
    agrees(Kind::Frames, &header, &refused);
    let mut offered = [&[0, 0, 0, 0, 5][..], &[0; 67 + 336], &air, &[0; 4]].concat();
    let counted = [&refused[..], &[0; 288 + 31], &[1], &[0; 16]].concat();
    agrees(Kind::Sheets, &offered, &counted);
    // A limit of 4: the five flips are too many. A limit of 43: it is itself refused. They are counted after 1 to 8.
    for (limit, number, place, at) in [(4, 21, 5, 39), (43, 20, 43, 35)] {
        let mut refused = vec![0; 60];
        (refused[0], refused[8]) = (number, place);
        (header[4], offered[4]) = (limit, limit);
        agrees(Kind::Headers, &header[..263], &refused);
        agrees(Kind::Frames, &header, &refused);
        let mut counted = [&refused[..], &[0; 336]].concat();
        counted[60 + 288 + at] = 1;
        agrees(Kind::Sheets, &offered, &counted);
    }
}

#[test]
fn sources_stand_byte_for_byte_as_told() {
    // Source 1: a caller with 1, 2, 3, 4 and last counter 5, a responder with 6, 7, 8, 9, not heard. Two counts follow.
    let numbers = |numbers: [u32; 4]| numbers.map(u32::to_be_bytes).concat();
    let caller = [&numbers([1, 2, 3, 4])[..], &[1, 5]].concat();
    let responder = [&numbers([6, 7, 8, 9])[..], &[0, 0]].concat();
    let sheet = [&[0; 36][..], &caller, &responder, &[0; 6 * 36 + 48]].concat();
    let shown = |source: u8, reply: &[u8]| {
        let record = [&sheet[..], &[source]].concat();
        let compared = compare(Kind::Sources, &record, reply).unwrap();
        assert_eq!(compared.differences, Vec::<String>::new());
    };
    let sums = [7u64, 9].map(u64::to_be_bytes).concat();
    shown(1, &[&caller[..], &responder, &sums].concat());
    for source in [0, 2, 7, 8, 9, 128, 255] {
        shown(source, &[0; 52]);
    }
    let told = compare(Kind::Sources, &[&sheet[..], &[1]].concat(), &[0; 52]).unwrap();
    let text = told.to_string();
    assert!(text.contains("expected: source 1 2 3 4 5 6 7 8 9 - 7 9\n"));
    assert!(text.contains("found:    source 0 0 0 0 - 0 0 0 0 - 0 0\n"));
}

#[test]
fn sources_with_a_record_and_without_one_are_asked_for() {
    let stored = &stored()[Kind::Sources as usize];
    let asked: BTreeSet<u8> = stored.iter().map(|v| v.record[336]).collect();
    assert!((0..=9)
        .chain([127, 128, 255])
        .all(|source| asked.contains(&source)));
    for vector in stored {
        assert!(vector.record[336] < 8 || vector.reply == [0; 52]);
    }
    // a sum past 32 bits
    let most = 2 * u64::from(u32::MAX);
    let sums = [most, most].map(u64::to_be_bytes).concat();
    assert!(stored.iter().any(|v| v.reply.ends_with(&sums)));
}

#[test]
fn every_source_number_is_read_under_the_corrected_edition() {
    let accepted: BTreeSet<u8> = stored()[Kind::Headers as usize]
        .iter()
        .filter(|v| v.record[0] == 1 && v.reply[0] == 0)
        .map(|v| v.reply[9])
        .collect();
    assert!(accepted.into_iter().eq(0..128));
}

#[test]
fn frames_of_each_edition_are_read_under_each() {
    // Header bits 32 to 35, the edition it is read under, and the number that is given.
    let mut seen = BTreeSet::new();
    for vector in &stored()[Kind::Headers as usize] {
        let header = header_of(Kind::Headers, &vector.record);
        if header.len() == 210 && patterns_on_air(header) == [0; WORDS] {
            // Bits 32 to 34 stand at positions 12 to 10 of word 6, bit 35 at position 14 of word 7.
            let places = [12 * 14 + 6, 11 * 14 + 6, 10 * 14 + 6, 14 * 14 + 7];
            let four = places.map(|place| header[place]);
            seen.insert((four, vector.record[0], vector.reply[0]));
        }
    }
    for n in 0..16_u8 {
        let four = [n >> 3 & 1, n >> 2 & 1, n >> 1 & 1, n & 1];
        for edition in [0, 1] {
            assert!(seen.contains(&(four, edition, 0)), "{four:?} {edition}");
            assert!(
                n == 0 || seen.contains(&(four, edition, 4)),
                "{four:?} {edition}"
            );
        }
    }
}

#[test]
fn every_edition_byte_above_0_is_corrected() {
    let stored = stored();
    for kind in [
        Kind::Crc5,
        Kind::Headers,
        Kind::Writes,
        Kind::Frames,
        Kind::Wides,
    ] {
        let vectors = stored[kind as usize].iter().filter(|v| v.record[0] == 1);
        for (vector, edition) in vectors.zip(2..=255) {
            let mut record = vector.record.clone();
            record[0] = edition;
            let compared = compare(kind, &record, &vector.reply).unwrap();
            assert_eq!(compared.differences, Vec::<String>::new());
        }
    }
}

#[test]
fn wides_stand_byte_for_byte_as_told() {
    // Source 97 as caller, counter 5, clean; on the sheet source 3 was heard, or 97 itself.
    let mut header = Header::default();
    header[Field::SrcId] = 97;
    header[Field::FrCntTx] = 5;
    header[Field::Caller] = 1;
    seal(Edition::Corrected, &mut header, &[]);
    let lane = |accepted, missed, last| {
        let numbers = [accepted, 0, missed, 0].map(u32::to_be_bytes).concat();
        [&numbers[..], &[1, last]].concat()
    };
    let silent = [0; 18];
    let heard = [lane(2, 0, 1), lane(10, 0, 9)].concat();
    let counts: Vec<u8> = (1..=12_u32).flat_map(u32::to_be_bytes).collect();
    let wide = |edition: u8, source: u8| {
        let rules = [edition, 0, 0, 0, 28];
        let sheet = [&[source][..], &heard, &counts].concat();
        [&rules[..], &sheet, &header.to_air(), &[0; 4]].concat()
    };
    let mut accepted = vec![0; 60];
    (accepted[9], accepted[9 + 2], accepted[9 + 8]) = (97, 5, 1);
    accepted[9 + 16..9 + 18].copy_from_slice(&[0x1F, 0xFF]);
    accepted[9 + 18] = header[Field::Crc5] as u8;
    let agrees = |record: &[u8], answer: &[u8], source: &[u8], heard: u64| {
        let reply = [answer, source, &counts, &heard.to_be_bytes()].concat();
        let differences = compare(Kind::Wides, record, &reply).unwrap().differences;
        assert_eq!(differences, Vec::<String>::new());
    };
    // 78 refused and 12 accepted before; three counters were missed where it was heard.
    let first = [&[97][..], &lane(1, 0, 5), &silent].concat();
    agrees(&wide(1, 3), &accepted, &first, 91);
    let third = [&[97][..], &lane(3, 3, 5), &lane(10, 0, 9)].concat();
    agrees(&wide(1, 97), &accepted, &third, 91);
    // 22: nothing changes, and the source is that of the record; one above 127 counts as 127.
    let mut refused = vec![0; 60];
    refused[0] = 22;
    for (source, told) in [(3, 3), (97, 97), (127, 127), (128, 127), (255, 127)] {
        let unchanged = [&[told][..], &heard].concat();
        agrees(&wide(0, source), &refused, &unchanged, 90);
    }
}

/// The call sign bits of a record of `signs` or `sheets`, where they are given.
fn call_of(record: &[u8]) -> Option<&[u8]> {
    let length = u16::from_be_bytes([record[6], record[7]]);
    (record[5] == 1).then_some(&record[8..][..usize::from(length)])
}

/// The 48 bits of the text, spelled out.
fn spelled(text: &str) -> Vec<u8> {
    let bits = |character: u8| (0..8).map(move |i| character >> i & 1);
    text.bytes().flat_map(bits).collect()
}

const CALL_SIGNS: [&str; 4] = ["DP0TBB", "DP0TBC", "DP0TBD", "DP0TBE"];

#[test]
fn call_signs_stand_as_they_are_spelled() {
    for (satellite, text) in CALL_SIGNS.into_iter().enumerate() {
        assert_eq!(reply(Kind::Calls, satellite), spelled(text));
    }
    for satellite in 4..256 {
        assert_eq!(reply(Kind::Calls, satellite), [0; 48]);
    }
    let lines = lines(Kind::Calls);
    assert_eq!(lines[0], "001000100000101000001100001010100100001001000010");
    assert_eq!(lines[4], "0".repeat(48));
}

#[test]
fn frames_come_with_every_sort_of_call_sign() {
    let vectors = &stored()[Kind::Signs as usize];
    let of = |edition: u8| vectors.iter().filter(move |v| v.record[0] == edition);
    // each source with each call sign and with none, under both editions
    for (satellite, text) in CALL_SIGNS.into_iter().enumerate() {
        for src_id in 0..8 {
            let number = if src_id / 2 == satellite { 0 } else { 24 };
            let has = |edition: u8, call: Option<&[u8]>, start: &str| {
                let mut vectors = of(edition).filter(|v| call_of(&v.record) == call);
                assert!(
                    vectors.any(|v| v.line.starts_with(start)),
                    "{edition} {start}"
                );
            };
            let call = spelled(text);
            let accepted = format!("accepted {src_id} ");
            let answer = if number == 0 {
                accepted.clone()
            } else {
                format!("refused 24 {src_id}")
            };
            has(0, Some(&call), &answer);
            has(1, Some(&call), &accepted);
            has(0, None, &accepted);
            has(1, None, &accepted);
        }
    }
    // each wrong bit alone; lengths; elements above 1
    let given: BTreeSet<(u8, &[u8])> = vectors
        .iter()
        .filter_map(|v| Some((v.record[0], call_of(&v.record)?)))
        .collect();
    for at in 0..48 {
        let wrong = |text: &&str| {
            let mut call = spelled(text);
            call[at] ^= 1;
            given.contains(&(0, &call[..]))
        };
        assert!(CALL_SIGNS.iter().any(wrong), "{at}");
    }
    for edition in [0, 1] {
        for length in [0, 47, 49] {
            let mut calls = given.iter().filter(|(e, _)| *e == edition);
            assert!(calls.any(|(_, call)| call.len() == length));
        }
        for at in [0, 47] {
            let mut calls = given.iter().filter(|(e, c)| *e == edition && c.len() == 48);
            assert!(calls.any(|(_, call)| call[at] > 1));
        }
    }
    // under the corrected edition they are not looked at
    assert!(of(1).all(|v| ![23, 24].contains(&v.reply[0])));
}

#[test]
fn call_signs_come_with_every_other_refusal() {
    let mut together = BTreeSet::new();
    for vector in &stored()[Kind::Signs as usize] {
        if call_of(&vector.record).is_some() {
            let mut without = vector.record.clone();
            without[5] = 0;
            let told = compare(Kind::Signs, &without, &[]).unwrap().to_string();
            let expected = told.split("expected: ").nth(1).unwrap();
            let words: Vec<&str> = expected.split_whitespace().collect();
            let number = if words[0] == "refused" { words[1] } else { "0" };
            together.insert((number.parse::<u8>().unwrap(), vector.reply[0]));
        }
    }
    // Without the call sign, and with it: 23 comes after 20 and 2, 24 after 20, 2, 3, 21, 4 and 5.
    for (otherwise, given) in [
        (0, 23),
        (0, 24),
        (3, 23),
        (21, 23),
        (4, 23),
        (5, 23),
        (6, 23),
        (6, 24),
        (7, 23),
        (7, 24),
        (8, 23),
        (8, 24),
    ] {
        assert!(
            together.contains(&(otherwise, given)),
            "{otherwise} {given}"
        );
    }
    for first in [20, 2] {
        assert!(!together.contains(&(first, 23)) && together.contains(&(first, first)));
    }
    for first in [20, 2, 3, 21, 4, 5] {
        assert!(!together.contains(&(first, 24)) && together.contains(&(first, first)));
    }
}

#[test]
fn signs_stand_byte_for_byte_as_told() {
    // The header of 65 zero bits and the CRC5 6, which is A's; its CRC13 is not that of nothing.
    let mut air = [0; 210];
    (0..15).for_each(|i| air[14 * i + 13] = (0x1B85 >> i & 1) as u8);
    let record = |rules: [u8; 5], given: u8, call: &[u8]| {
        let length = (call.len() as u16).to_be_bytes();
        let mut record = [&rules[..], &[given], &length, call].concat();
        record.resize(5 + 1 + 2 + 64, 0);
        [&record[..], &air, &[0; 4]].concat()
    };
    let agrees = |record: &[u8], number: u8, place: u64| {
        let reply = [&[number][..], &place.to_be_bytes(), &[0; 51]].concat();
        let differences = compare(Kind::Signs, record, &reply).unwrap().differences;
        assert_eq!(differences, Vec::<String>::new());
    };
    let flown = [0, 0, 0, 0, 28];
    let (right, other) = (spelled("DP0TBB"), spelled("DP0TBC"));
    agrees(&record(flown, 0, &[]), 8, 0x1FFF);
    agrees(&record(flown, 0, &other), 8, 0x1FFF);
    agrees(&record(flown, 1, &right), 8, 0x1FFF);
    agrees(&record(flown, 1, &other), 24, 0);
    agrees(&record(flown, 1, &right[..47]), 23, 47);
    agrees(&record(flown, 1, &[2; 48]), 23, 0);
    agrees(&record(flown, 255, &[]), 23, 0);
    agrees(&record([0, 0, 0, 0, 43], 1, &[]), 20, 43);
    agrees(&record([1, 0, 0, 0, 28], 1, &[]), 8, 0x1FFF);
    // On a sheet, 23 and 24 are the last counts.
    for (call, number, place, at) in [(&right[..47], 23, 47, 43), (&other, 24, 0, 47)] {
        let signs = record(flown, 1, call);
        let sheets = [&signs[..72], &[0; 336], &signs[72..]].concat();
        let mut reply = vec![0; 60 + 336];
        (reply[0], reply[8], reply[60 + 288 + at]) = (number, place, 1);
        let compared = compare(Kind::Sheets, &sheets, &reply).unwrap();
        assert_eq!(compared.differences, Vec::<String>::new());
    }
}

/// The last counters of source and lane that a record of `sheets` is about, where its frame was accepted: that of the
/// frame's own lane and that of the other, each 255 where there is none.
fn last_counters(vector: &Vector) -> (u8, u8) {
    let (src_id, caller) = (vector.reply[9], vector.reply[9 + 8]);
    let source = &vector.record[5 + 67 + 36 * usize::from(src_id)..][..36];
    let last = |lane: &[u8]| if lane[16] == 1 { lane[17] } else { 255 };
    let (as_caller, as_responder) = (last(&source[..18]), last(&source[18..]));
    if caller == 1 {
        (as_caller, as_responder)
    } else {
        (as_responder, as_caller)
    }
}

#[test]
fn frames_repeat_their_own_lane_or_the_other_or_neither() {
    let mut seen = BTreeSet::new();
    for vector in &stored()[Kind::Sheets as usize] {
        if vector.reply[0] == 0 {
            let (own, other) = last_counters(vector);
            let (caller, fr_cnt_tx) = (vector.reply[9 + 8], vector.reply[9 + 2]);
            let of = |last: u8| match last {
                255 => "not heard",
                last if last == fr_cnt_tx => "repeated",
                _ => "another",
            };
            seen.insert((caller, of(own), of(other)));
        }
    }
    for caller in [0, 1] {
        for own in ["not heard", "repeated", "another"] {
            for other in ["not heard", "repeated", "another"] {
                assert!(
                    seen.contains(&(caller, own, other)),
                    "{caller} {own} {other}"
                );
            }
        }
    }
}

#[test]
fn own_replies_do_not_differ() {
    for (_, kind) in KINDS {
        let compared = compare(kind, &inputs(kind, DEFAULT_SEED), &replies(kind)).unwrap();
        assert_eq!(compared.records, lines(kind).len());
        assert_eq!(compared.differences, Vec::<String>::new());
        assert!(compared
            .to_string()
            .ends_with(" records compared, 0 differ"));
    }
}

#[test]
fn any_other_byte_is_found() {
    // one reply of each kind, every byte of it changed
    for ((_, kind), (size, reply_size)) in KINDS.into_iter().zip(SIZES.into_iter().zip(REPLY_SIZES))
    {
        let one = &inputs(kind, DEFAULT_SEED)[..size];
        let own = &replies(kind)[..reply_size];
        for byte in 0..reply_size {
            let mut other = own.to_vec();
            other[byte] ^= 0x10;
            let compared = compare(kind, one, &other).unwrap();
            assert_eq!(compared.differences.len(), 1, "{kind:?} {byte}");
            let place = format!("record 0 ({}), byte {byte}\n", kind.name());
            assert!(compared.differences[0].starts_with(&place));
        }
    }
}

#[test]
fn a_difference_tells_both_lines() {
    let inputs = [0, 7, 0, 15];
    let mut other = reply(Kind::Words, 7);
    other.extend(reply(Kind::Words, 14));
    let compared = compare(Kind::Words, &inputs, &other).unwrap();
    assert_eq!(
        compared.to_string(),
        "record 1 (words), byte 1\n  expected: 15 beyond\n  found:    14 0 000e\n2 records compared, 1 differ"
    );
    // the search says something else than the table
    other.truncate(12);
    other[11] = 3;
    let compared = compare(Kind::Words, &inputs[..2], &other).unwrap();
    assert!(compared.differences[0].ends_with("found:    7 by table 0 0007 by search 0 0003"));
}

#[test]
fn missing_and_further_replies_are_told() {
    let inputs = inputs(Kind::Encode, DEFAULT_SEED);
    let mut other = replies(Kind::Encode);
    other.truncate(31 * 3 + 1);
    let compared = compare(Kind::Encode, &inputs, &other).unwrap();
    assert_eq!(compared.records, 32);
    assert_eq!(compared.differences.len(), 1);
    assert!(compared.differences[0].ends_with("found:    1 of 3 bytes"));
    let mut other = replies(Kind::Encode);
    other.push(0);
    let compared = compare(Kind::Encode, &inputs, &other).unwrap();
    assert_eq!(compared.differences, ["1 bytes after the last reply"]);
}

#[test]
fn what_is_no_record_is_not_compared() {
    assert_eq!(compare(Kind::Words, &[0], &[]), None);
    assert_eq!(compare(Kind::Stored, &[15, 0], &[]), None);
    assert_eq!(compare(Kind::Stored, &[200], &[]), None);
    assert_eq!(compare(Kind::StoredBeesat, &[16, 0], &[]), None);
    assert_eq!(compare(Kind::Stored, &[0, 0], &[]), None);
    assert_eq!(compare(Kind::Stored, &[], &[]).map(|c| c.records), Some(0));
}

#[test]
fn lengths_past_their_room_and_more_data_are_cut() {
    let long = |size: usize| vec![0xFF; size];
    for ((_, kind), size) in KINDS.into_iter().zip(SIZES) {
        // whatever the bytes of a record are, it has a reply
        assert!(compare(kind, &long(size), &[]).is_some());
    }
    let first = compare(Kind::Encode, &[33], &[1, 0x05, 0x37]).unwrap();
    assert!(first.differences.is_empty());
}

/// FNV-1a of 64 bits.
fn hash(bytes: &[u8]) -> u64 {
    bytes.iter().fold(0xCBF2_9CE4_8422_2325, |hash, &byte| {
        (hash ^ u64::from(byte)).wrapping_mul(0x0100_0000_01B3)
    })
}

#[test]
fn stored_records_replies_and_lines_are_the_same_everywhere() {
    assert_eq!(hash(b"foobar"), 0x8594_4171_F739_67E8);
    for (stream, records, text, answers) in [
        (
            Kind::Stored,
            0xD7BE_0F3E_3BFA_6FB3,
            0x7EDA_213F_2EE8_EAAB,
            0xB4A8_DC65_DFD0_4FBF,
        ),
        (
            Kind::StoredSheets,
            0xB291_255C_0B95_6E75,
            0x8407_3232_54F5_A9B9,
            0x00AE_4422_FBC5_2981,
        ),
        (
            Kind::StoredBeesat,
            0x6794_3983_CD43_604A,
            0x6F66_6AAC_BFBC_F15E,
            0x1D22_9120_C69E_E8F6,
        ),
    ] {
        let bytes = inputs(stream, DEFAULT_SEED);
        let told = lines(stream).join("\n") + "\n";
        let replies = replies(stream);
        assert!(bytes.len() <= 1_000_000 && replies.len() <= 1_000_000);
        assert_eq!(hash(&bytes), records);
        assert_eq!(hash(told.as_bytes()), text);
        assert_eq!(hash(&replies), answers);
    }
}
