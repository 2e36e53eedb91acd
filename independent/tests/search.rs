//! Headers out of a recording: the sentences of paper 02, a), and recordings by chance against a plain search.

use std::collections::{BTreeMap, BTreeSet};

use independent::air::{AIR_BITS, WORDS};
use independent::header::{crc5, Field, Header};
use independent::listing::Sender;
use independent::recording::{write_recording, Options, BORDER, SENT_BITS, USUAL_GAP};
use independent::refusal::Refusal;
use independent::rng::Rng;
use independent::rules::{Edition, EDITIONS};
use independent::sample::{flip_pattern, flip_some};
use independent::search::search;
use independent::window::judge_window;
use running::run;

mod running;

/// 0x20F3FA13 is 00100000 11110011 11111010 00010011; "its lowest bit sent first".
const MARKER: &str = "11001000010111111100111100000100";

fn marker() -> Vec<u8> {
    MARKER.bytes().map(|digit| digit - b'0').collect()
}

fn searched(edition: Edition, mut bits: &[u8]) -> String {
    let mut output = Vec::new();
    search(edition, &mut bits, &mut output).unwrap();
    String::from_utf8(output).unwrap()
}

fn flown(bits: &[u8]) -> String {
    searched(Edition::Flown, bits)
}

/// Who sent a header, as a line writes it.
fn sender(edition: Edition, src_id: u16) -> String {
    Sender { edition, src_id }.to_string()
}

/// A header in range with a right CRC5 of the edition.
fn header(edition: Edition) -> Header {
    let mut header = Header::default();
    header[Field::DstId] = 100;
    header[Field::FrCntTx] = 14;
    header[Field::AiTypeSrc] = 2;
    header[Field::AiTypeDst] = 0b0101;
    header[Field::DfcId] = 0b10;
    header[Field::PduLength] = 62;
    header[Field::Crc13] = 0x0ABC;
    sealed(edition, header)
}

fn sealed(edition: Edition, mut header: Header) -> Header {
    header[Field::Crc5] = crc5(edition, header.to_bits());
    header
}

/// The bits of a marker and of a good header.
fn sent() -> Vec<u8> {
    [marker(), header(Edition::Flown).to_air().to_vec()].concat()
}

/// The line of a good header at this place.
fn line(place: usize) -> String {
    format!("{place} accepted A radio 1 tx 14 repaired 0 worst 0 length 62\n")
}

/// The listing of good headers at these places in so many bits.
fn listing(bits: usize, places: &[usize]) -> String {
    let lines: String = places.iter().map(|&place| line(place)).collect();
    let found = places.len();
    format!("recording\n{lines}bits {bits} headers {found} accepted {found} refused 0\n")
}

#[test]
fn empty_input() {
    let expected = "recording\nbits 0 headers 0 accepted 0 refused 0\n";
    assert_eq!(flown(&[]), expected);
}

#[test]
fn a_place_is_the_markers_first_bit() {
    for zeros in [0, 1, 31, 32, 1_042] {
        let bits = [vec![0; zeros], sent()].concat();
        assert_eq!(flown(&bits), listing(bits.len(), &[zeros]));
        // Bits behind it are not needed, and do not hurt.
        let more = [bits, vec![1; 500]].concat();
        assert_eq!(flown(&more), listing(more.len(), &[zeros]));
    }
}

#[test]
fn two_hundred_and_ten_more_bits_are_wanted() {
    for length in 0..sent().len() {
        assert_eq!(flown(&sent()[..length]), listing(length, &[]));
    }
    assert_eq!(flown(&sent()), listing(242, &[0]));
}

#[test]
fn another_marker_is_none() {
    let zeros = vec![0; 50];
    for n in 0..32 {
        let mut bits = [zeros.clone(), sent()].concat();
        bits[50 + n] ^= 1;
        assert_eq!(flown(&bits), listing(bits.len(), &[]), "bit {n}");
    }
    // Highest bit first.
    let mut bits = [zeros, sent()].concat();
    bits[50..82].reverse();
    assert_eq!(flown(&bits), listing(bits.len(), &[]));
    // A marker that lacks its first bits, where the recording starts.
    for n in 1..32 {
        let bits = &sent()[n..];
        assert_eq!(flown(bits), listing(bits.len(), &[]));
    }
}

#[test]
fn nothing_is_skipped_behind_a_good_header() {
    // A second marker in the place of the header's last 32 bits: two or three of each word, which are repaired.
    let mut bits = sent();
    bits.truncate(210);
    bits.extend(sent());
    let lines: Vec<String> = flown(&bits).lines().map(String::from).collect();
    assert!(lines[1].starts_with("0 accepted A radio 1 tx 14 repaired "));
    assert_eq!(lines[2], line(210).trim_end());
    assert_eq!(lines[3], "bits 452 headers 2 accepted 2 refused 0");
    // Every place inside: both markers are reported, the first with a header that is repaired.
    for place in 32..=210 {
        let mut bits = sent();
        bits[place..place + 32].copy_from_slice(&marker());
        bits.extend(vec![0; 210]);
        let lines = flown(&bits);
        assert!(lines.contains("\n0 accepted A radio 1 tx 14 "), "{place}");
        assert!(lines.contains(&format!("\n{place} refused ")), "{place}");
        assert!(lines.contains(" headers 2 accepted 1 refused 1\n"));
    }
}

#[test]
fn markers_one_behind_the_other_are_all_reported() {
    let bits = [marker().repeat(20), vec![0; 209]].concat();
    let lines = flown(&bits);
    let places: Vec<&str> = lines
        .lines()
        .map(|l| l.split(' ').next().unwrap())
        .collect();
    // The last one has 209 bits behind it.
    let expected: Vec<String> = (0..19).map(|n| (32 * n).to_string()).collect();
    assert_eq!(places[1..20], expected);
    assert_eq!(places.len(), 21);
}

#[test]
fn a_byte_above_1_stops_the_search() {
    let bits = [vec![0; 9], sent(), vec![0; 30], sent()].concat();
    for index in 0..bits.len() {
        for value in [2, 3, 128, 255] {
            let mut bits = bits.clone();
            bits[index] = value;
            let whole = flown(&bits[..index]);
            let stopped = whole.replace("bits", &format!("stopped 19 {index}\nbits"));
            assert_eq!(flown(&bits), stopped);
        }
    }
    // Its first bit is the first byte: nothing is taken.
    let expected = "recording\nstopped 19 0\nbits 0 headers 0 accepted 0 refused 0\n";
    assert_eq!(flown(&[7, 0, 1]), expected);
}

#[test]
fn the_search_takes_the_limit_28() {
    let mut rng = Rng::new(1);
    for edition in EDITIONS {
        for total in 0..=42u32 {
            let mut bits = header(edition).to_air();
            for word in 0..WORDS {
                let count = (total + word as u32) / WORDS as u32;
                flip_some(&mut rng, &mut bits, word, count);
            }
            let answer = judge_window(edition, &bits);
            if total <= 28 {
                let heard = answer.unwrap();
                assert_eq!((heard.flips(), heard.header), (total, header(edition)));
            } else {
                assert_eq!(answer, Err(Refusal::new(21, total as usize)));
            }
        }
    }
}

#[test]
fn refusals_3_21_4_5_6_in_this_order() {
    let three_everywhere = |bits: &mut [u8; AIR_BITS]| {
        (0..WORDS).for_each(|word| flip_pattern(bits, word, 0b1_0000_0000_0101));
    };
    let mut wrong = header(Edition::Flown);
    wrong[Field::SrcId] = 97;
    wrong[Field::AiTypeSrc] = 9;
    let right = crc5(Edition::Flown, wrong.to_bits());
    wrong[Field::Crc5] = right ^ 1;
    let mut bits = wrong.to_air();
    // 4 comes before 5 and 6, with the CRC5 worked out.
    let judged = |bits: &[u8; AIR_BITS]| judge_window(Edition::Flown, bits);
    assert_eq!(judged(&bits), Err(Refusal::new(4, right)));
    // 21 comes before 4; its place is the flips.
    three_everywhere(&mut bits);
    assert_eq!(judged(&bits), Err(Refusal::new(21, 42usize)));
    // 3 comes before 21, with the lowest word.
    flip_pattern(&mut bits, 5, 0b1_0000_0000_0101 ^ 0x000F);
    flip_pattern(&mut bits, 8, 0b1_0000_0000_0101 ^ 0x000F);
    assert_eq!(judged(&bits), Err(Refusal::new(3, 5usize)));
    // 5 comes before 6.
    let wrong = sealed(Edition::Flown, wrong);
    assert_eq!(judged(&wrong.to_air()), Err(Refusal::new(5, 97usize)));
    let mut source = wrong;
    source[Field::SrcId] = 7;
    let source = sealed(Edition::Flown, source);
    assert_eq!(judged(&source.to_air()), Err(Refusal::new(6, 9usize)));
    // Under the corrected edition "check 5 isn't made", and check 6 is.
    let wrong = sealed(Edition::Corrected, wrong);
    let judged = judge_window(Edition::Corrected, &wrong.to_air());
    assert_eq!(judged, Err(Refusal::new(6, 9usize)));
}

#[test]
fn header_bits_32_to_35_count_in_the_corrected_edition_only() {
    for n in 0..65 {
        let plain = header(Edition::Flown).to_bits();
        let changed = plain ^ 1 << (69 - n);
        for edition in EDITIONS {
            let lost = edition == Edition::Flown && (32..36).contains(&n);
            let same = crc5(edition, changed) == crc5(edition, plain);
            assert_eq!(same, lost, "{edition:?} {n}");
        }
    }
    // Where all four are 0 both editions say the same.
    let mut header = header(Edition::Flown);
    header[Field::AiTypeDst] &= 0b1100;
    header[Field::DfcId] = 0;
    let bits = header.to_bits();
    assert_eq!(crc5(Edition::Flown, bits), crc5(Edition::Corrected, bits));
}

#[test]
fn the_corrected_edition_names_all_128_sources() {
    for src_id in 0..128 {
        let mut header = header(Edition::Corrected);
        header[Field::SrcId] = src_id;
        let header = sealed(Edition::Corrected, header);
        let bits = [marker(), header.to_air().to_vec()].concat();
        let expected = format!(
            "recording\n0 accepted source {src_id} tx 14 repaired 0 worst 0 length 62\n\
             bits 242 headers 1 accepted 1 refused 0\n"
        );
        assert_eq!(searched(Edition::Corrected, &bits), expected);
        // The flown edition leaves four bits out that are not all 0 here, and counts another CRC5.
        assert!(flown(&bits).contains("\n0 refused 4 "));
    }
    let names = (0..8).map(|src_id| sender(Edition::Flown, src_id));
    let expected = [
        "A radio 1",
        "A radio 2",
        "B radio 1",
        "B radio 2",
        "C radio 1",
        "C radio 2",
        "D radio 1",
        "D radio 2",
    ];
    assert!(names.eq(expected));
}

#[test]
fn repaired_and_worst_are_those_of_the_listing() {
    let mut bits = header(Edition::Flown).to_air();
    flip_pattern(&mut bits, 3, 0x4000);
    flip_pattern(&mut bits, 4, 0x0007);
    flip_pattern(&mut bits, 13, 0x7000);
    let lines = flown(&[marker(), bits.to_vec()].concat());
    assert!(lines.contains("\n0 accepted A radio 1 tx 14 repaired 7 worst 4 length 62\n"));
}

fn options(seed: u64, bits: u64) -> Options {
    Options {
        seed,
        bits,
        gap: USUAL_GAP,
        bad: false,
    }
}

fn recording(options: &Options) -> Vec<u8> {
    let mut bytes = Vec::new();
    write_recording(options, &mut bytes).unwrap();
    bytes
}

/// The search as the paper's sentence has it, place by place.
fn by_the_sentence(edition: Edition, bits: &[u8]) -> String {
    let mut lines = String::from("recording\n");
    let (mut accepted, mut refused) = (0, 0);
    for (place, window) in bits.windows(SENT_BITS).enumerate() {
        if window[..32] != marker() {
            continue;
        }
        let answer = match judge_window(edition, window[32..].try_into().unwrap()) {
            Ok(heard) => {
                accepted += 1;
                format!(
                    "accepted {} tx {} repaired {} worst {} length {}",
                    sender(edition, heard.header[Field::SrcId]),
                    heard.header[Field::FrCntTx],
                    heard.flips(),
                    heard.worst(),
                    heard.header[Field::PduLength]
                )
            }
            Err(refusal) => {
                refused += 1;
                refusal.to_string()
            }
        };
        lines += &format!("{place} {answer}\n");
    }
    let (taken, headers) = (bits.len(), accepted + refused);
    lines + &format!("bits {taken} headers {headers} accepted {accepted} refused {refused}\n")
}

#[test]
fn recordings_by_chance_are_searched_as_the_sentence_says() {
    for seed in 0..6 {
        let gap = [0, 5, 300, 1_000, 1_000, 20_000][seed as usize];
        let bits = recording(&Options {
            gap,
            ..options(seed, 100_000)
        });
        for edition in EDITIONS {
            assert_eq!(searched(edition, &bits), by_the_sentence(edition, &bits));
        }
    }
    for seed in 0..200 {
        let bits = recording(&options(seed, 10 * seed));
        assert_eq!(flown(&bits), by_the_sentence(Edition::Flown, &bits));
    }
}

#[test]
fn a_recording_has_everything() {
    let bits = recording(&options(1, 600_000));
    assert_eq!(bits.len(), 600_000);
    for (edition, numbers) in [
        (Edition::Flown, vec![3, 4, 5, 6, 21]),
        (Edition::Corrected, vec![3, 4, 6, 21]),
    ] {
        let text = searched(edition, &bits);
        let mut answers: BTreeMap<u8, usize> = BTreeMap::new();
        let (mut places, mut flips) = (Vec::new(), BTreeSet::new());
        for line in text.lines().skip(1).filter(|l| !l.starts_with("bits")) {
            let words: Vec<&str> = line.split(' ').collect();
            places.push(words[0].parse::<u64>().unwrap());
            let number = match words[1] {
                "refused" => words[2].parse().unwrap(),
                _ => 0,
            };
            *answers.entry(number).or_default() += 1;
            let repaired = words.iter().position(|&word| word == "repaired");
            flips.extend(repaired.map(|at| words[at + 1].parse::<u32>().unwrap()));
        }
        assert!(answers.values().all(|&count| count > 10), "{answers:?}");
        assert!(answers.into_keys().eq([vec![0], numbers].concat()));
        assert!(places.is_sorted_by(|a, b| a < b));
        assert!([0, 27, 28].iter().all(|total| flips.contains(total)));
        // Windows that share bits, at many distances.
        let near = places.windows(2).filter(|p| p[1] - p[0] < 242).count();
        assert!(near > 50, "{near}");
        // A header across every border.
        for border in (1..600_000 / BORDER).map(|n| n * BORDER) {
            let across = |&&place: &&u64| (border - 242..=border).contains(&place);
            assert!(places.iter().find(across).is_some(), "{border}");
        }
    }
    // Markers that are not right: without the header's answer they look like the others.
    let near_marker = |window: &[u8]| {
        let pairs = window.iter().zip(marker());
        pairs.filter(|(bit, right)| *bit != right).count()
    };
    let distances: BTreeSet<usize> = bits.windows(32).map(near_marker).collect();
    assert!((0..=3).all(|flips| distances.contains(&flips)));
}

#[test]
fn the_end_of_a_recording_is_that_of_a_header_or_inside_of_one() {
    let (mut whole, mut cut) = (0, 0);
    for seed in 0..60 {
        let bits = recording(&options(seed, 3_000));
        let lines = flown(&bits);
        let last = format!("\n{} ", 3_000 - 242);
        if lines.contains(&last) {
            whole += 1;
        }
        let mut starts = 3_000 - 241..=3_000 - 32;
        if starts.any(|start| bits[start..start + 32] == marker()) {
            cut += 1;
        }
    }
    assert!(whole > 15 && cut > 15, "{whole} {cut}");
}

#[test]
fn a_bad_byte_ends_a_recording() {
    for seed in 0..20 {
        let good = options(seed, 5_000);
        let bad = Options {
            bad: true,
            ..good.clone()
        };
        let (good, bad) = (recording(&good), recording(&bad));
        assert!(bad.starts_with(&good) && bad[5_000] > 1);
        let stopped = flown(&good).replace("bits", "stopped 19 5000\nbits");
        assert_eq!(flown(&bad), stopped);
        // There would be more to report.
        assert_ne!(flown(&bad[5_001..]), listing(bad.len() - 5_001, &[]));
    }
}

/// FNV-1a of 64 bits.
fn hash(bytes: &[u8]) -> u64 {
    bytes.iter().fold(0xCBF2_9CE4_8422_2325, |hash, &byte| {
        (hash ^ u64::from(byte)).wrapping_mul(0x0100_0000_01B3)
    })
}

#[test]
fn a_recording_is_the_same_on_every_machine() {
    assert_eq!(
        hash(&recording(&options(1, 100_000))),
        0xA723_DC63_53F4_8A0B
    );
    assert_ne!(recording(&options(1, 500)), recording(&options(2, 500)));
}

#[test]
fn the_program_searches() {
    let bits = [sent(), vec![0; 10]].concat();
    let whole = listing(252, &[0]);
    let file = std::env::temp_dir().join(format!("independent-{}.bits", std::process::id()));
    std::fs::write(&file, &bits).unwrap();
    let name = file.to_str().unwrap();
    for (arguments, input) in [
        (&["search"][..], &bits[..]),
        (&["search", "-"], &bits),
        (&["search", "--edition", "flown"], &bits),
        (&["search", name], &[]),
        (&["search", name, "--edition", "flown"], &[]),
    ] {
        let output = run(arguments, input);
        assert_eq!(String::from_utf8(output.stdout).unwrap(), whole);
        assert!(output.stderr.is_empty() && output.status.success());
    }
    let corrected = run(&["search", "--edition", "corrected", name], &[]);
    let expected = searched(Edition::Corrected, &bits);
    assert_eq!(String::from_utf8(corrected.stdout).unwrap(), expected);
    let two = run(&["search", name, name], &[]);
    std::fs::remove_file(&file).unwrap();
    assert_eq!((two.status.code(), two.stdout.len()), (Some(2), 0));
    let missing = run(&["search", "no such file"], &[]);
    assert_eq!((missing.status.code(), missing.stdout.len()), (Some(1), 0));
    let stopped = run(&["search"], &[0, 1, 2, 0]);
    assert_eq!(
        stopped.stdout,
        b"recording\nstopped 19 2\nbits 2 headers 0 accepted 0 refused 0\n"
    );
    assert!(stopped.status.success() && stopped.stderr.is_empty());
}

#[test]
fn bad_arguments_are_told_with_status_2() {
    for arguments in [
        &["search", "--edition"][..],
        &["search", "--edition", "second"],
        &["search", "--loud"],
        &["search", "a", "b"],
        &["recording"],
        &["recording", "1"],
        &["recording", "1", "x"],
        &["recording", "1", "2", "--gap"],
        &["recording", "1", "2", "--gap", "60001"],
        &["recording", "1", "2", "3"],
    ] {
        let output = run(arguments, &[]);
        assert_eq!(output.status.code(), Some(2), "{arguments:?}");
        assert!(output.stdout.is_empty());
    }
    let made = run(&["recording", "3", "700", "--gap", "9", "--bad"], &[]);
    assert_eq!(made.stdout.len(), 700 + 1 + 40 + 242);
}
