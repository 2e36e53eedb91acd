//! Listings: the paper's own, cuts of every kind, the example pass, and seasons.

use std::collections::BTreeSet;

use independent::air::{AIR_BITS, WORDS};
use independent::example::{example, write_example};
use independent::frame::read_frame;
use independent::header::{Field, Header, Heard};
use independent::listing::list;
use independent::rng::Rng;
use independent::rules::{Edition, Rules};
use independent::sample::{flip_pattern, seal, Record};
use independent::season::{write_season, Cut, Full, Options};
use independent::sheet::Sheet;
use telling::all_sorts_in;

mod telling;

/// "The listing names 42 and prints what it did."
const LISTED: Rules = listed_as(Edition::Flown);

const fn listed_as(edition: Edition) -> Rules {
    Rules { edition, limit: 42 }
}

fn listed(input: &[u8]) -> String {
    listed_under(Edition::Flown, input)
}

fn listed_under(edition: Edition, mut input: &[u8]) -> String {
    let mut output = Vec::new();
    list(edition, &mut input, &mut output).unwrap();
    String::from_utf8(output).unwrap()
}

fn bytes_of(records: &[Record]) -> Vec<u8> {
    let mut bytes = Vec::new();
    for record in records {
        record.write_to(&mut bytes).unwrap();
    }
    bytes
}

fn record(src_id: u16, fr_cnt_tx: u16, payload: Vec<u8>) -> Record {
    let mut header = Header::default();
    header[Field::SrcId] = src_id;
    header[Field::FrCntTx] = fr_cnt_tx;
    seal(Edition::Flown, &mut header, &payload);
    Record::new(&header, payload)
}

#[test]
fn empty_input() {
    assert_eq!(listed(&[]), "pass sheet\nheard 0 accepted 0 refused 0\n");
}

#[test]
fn the_papers_listing() {
    let expected = "pass sheet\n0 refused 4 6\nheard 1 accepted 0 refused 1\n";
    assert_eq!(listed(&[0; 2 + AIR_BITS]), expected);
}

#[test]
fn the_papers_accepted_line() {
    let mut accepted = record(3, 5, vec![1; 42]);
    flip_pattern(&mut accepted.header, 3, 0x4000);
    flip_pattern(&mut accepted.header, 4, 0x0007);
    flip_pattern(&mut accepted.header, 13, 0x7000);
    let zeros = [0; 3 * (2 + AIR_BITS)];
    let bytes = [&zeros[..], &bytes_of(&[accepted])].concat();
    let lines = listed(&bytes);
    assert!(lines.contains("\n3 accepted B radio 2 tx 5 repaired 7 worst 4 bytes 42\n"));
    assert!(lines.ends_with("\nheard 4 accepted 1 refused 3\n"));
}

#[test]
fn satellites_and_radios() {
    let records: Vec<Record> = (0..8).map(|src_id| record(src_id, 15, vec![])).collect();
    let mut expected = String::from("pass sheet\n");
    for (number, name) in ["A", "A", "B", "B", "C", "C", "D", "D"].iter().enumerate() {
        let radio = number % 2 + 1;
        expected +=
            &format!("{number} accepted {name} radio {radio} tx 15 repaired 0 worst 0 bytes 0\n");
    }
    expected += "heard 8 accepted 8 refused 0\n";
    assert_eq!(listed(&bytes_of(&records)), expected);
}

#[test]
fn a_corrected_frame_is_given_to_no_satellite() {
    let mut records = Vec::new();
    let mut expected = String::from("pass sheet\n");
    for (number, src_id) in [97, 0, 1, 2, 7, 8, 127].into_iter().enumerate() {
        let mut header = Header::default();
        header[Field::SrcId] = src_id;
        header[Field::FrCntTx] = 5;
        header[Field::DfcId] = 2;
        seal(Edition::Corrected, &mut header, &[1; 42]);
        let mut record = Record::new(&header, vec![1; 42]);
        flip_pattern(&mut record.header, 3, 0x4000);
        flip_pattern(&mut record.header, 4, 0x0007);
        flip_pattern(&mut record.header, 13, 0x7000);
        records.push(record);
        expected +=
            &format!("{number} accepted source {src_id} tx 5 repaired 7 worst 4 bytes 42\n");
    }
    expected += "heard 7 accepted 7 refused 0\n";
    let bytes = bytes_of(&records);
    assert_eq!(listed_under(Edition::Corrected, &bytes), expected);
    // Under the flown rule bits 32 to 35 count as zero, so that CRC5 is another one.
    assert!(listed(&bytes).ends_with("heard 7 accepted 0 refused 7\n"));
}

#[test]
fn both_editions_list_what_has_no_frame_alike() {
    let zeros = [0; 2 + AIR_BITS];
    for bytes in [&[][..], &[0], &zeros, &zeros[1..], &[0xFF; 4], &[2; 300]] {
        assert_eq!(listed_under(Edition::Corrected, bytes), listed(bytes));
    }
}

#[test]
fn every_place_where_the_input_can_end() {
    let first = bytes_of(&[record(0, 1, vec![9; 5])]);
    let whole = bytes_of(&[record(0, 1, vec![9; 5]), record(0, 2, vec![9; 3])]);
    let one = "pass sheet\n0 accepted A radio 1 tx 1 repaired 0 worst 0 bytes 5\n";
    for end in 0..=whole.len() {
        let expected = if end == 0 {
            String::from("pass sheet\nheard 0 accepted 0 refused 0\n")
        } else if end < first.len() {
            String::from("pass sheet\ncut\nheard 0 accepted 0 refused 0\n")
        } else if end == first.len() {
            format!("{one}heard 1 accepted 1 refused 0\n")
        } else if end < whole.len() {
            format!("{one}cut\nheard 1 accepted 1 refused 0\n")
        } else {
            format!(
                "{one}1 accepted A radio 1 tx 2 repaired 0 worst 0 bytes 3\nheard 2 accepted 2 refused 0\n"
            )
        };
        assert_eq!(listed(&whole[..end]), expected, "ends after {end}");
    }
}

#[test]
fn a_length_over_1023_cuts_even_where_the_bytes_are_there() {
    let longest = record(0, 1, vec![0; 1_023]);
    let over = Record {
        payload: vec![0; 1_024],
        ..longest.clone()
    };
    let bytes = bytes_of(&[longest.clone(), over, longest]);
    let expected = "pass sheet\n0 accepted A radio 1 tx 1 repaired 0 worst 0 bytes 1023\ncut\n\
                    heard 1 accepted 1 refused 0\n";
    assert_eq!(listed(&bytes), expected);
    let cut = "pass sheet\ncut\nheard 0 accepted 0 refused 0\n";
    assert_eq!(listed(&[0xFF; 4]), cut);
    assert_eq!(listed(&[0x04, 0x00]), cut);
}

#[test]
fn a_full_sheet_cuts_at_one_byte_more() {
    // Records that are refused at their first element.
    let mut bytes = [&[0, 0, 2][..], &[0; AIR_BITS - 1]].concat().repeat(65_535);
    let full = listed(&bytes);
    let last = "\n65534 refused 2 0\nheard 65535 accepted 0 refused 65535\n";
    assert!(full.ends_with(last));
    assert!(!full.contains("cut"));
    let cut = full.replace("heard", "cut\nheard");
    bytes.push(0);
    assert_eq!(listed(&bytes), cut);
    bytes.resize(bytes.len() + 5 * (2 + AIR_BITS), 0);
    assert_eq!(listed(&bytes), cut);
}

#[test]
fn any_bytes_are_listed() {
    let mut rng = Rng::new(11);
    for length in (0..3_000).step_by(7) {
        let mut bytes = rng.bytes(length);
        // Small lengths, so that more than the first record is reached.
        if let Some(high) = bytes.first_mut() {
            *high = 0;
        }
        let lines = listed(&bytes);
        assert!(lines.starts_with("pass sheet\n") && lines.ends_with('\n'));
    }
}

#[test]
fn the_example_pass() {
    let mut bytes = Vec::new();
    write_example(&mut bytes).unwrap();
    let expected = "\
pass sheet
0 accepted A radio 1 tx 14 repaired 0 worst 0 bytes 62
1 accepted A radio 1 tx 15 repaired 0 worst 0 bytes 62
2 accepted D radio 2 tx 0 repaired 0 worst 0 bytes 69
3 accepted B radio 2 tx 5 repaired 7 worst 4 bytes 42
4 accepted A radio 1 tx 0 repaired 0 worst 0 bytes 62
5 accepted C radio 1 tx 8 repaired 42 worst 0 bytes 62
6 accepted C radio 1 tx 8 repaired 0 worst 0 bytes 62
7 refused 3 4
8 refused 2 77
9 accepted A radio 1 tx 3 repaired 0 worst 0 bytes 62
10 refused 4 8
11 refused 5 97
12 refused 6 9
13 refused 7 69
14 refused 8 6021
15 accepted C radio 2 tx 0 repaired 0 worst 0 bytes 0
heard 16 accepted 9 refused 7
";
    assert_eq!(listed(&bytes), expected);
    let mut sheet = Sheet::new(Edition::Flown);
    for record in example() {
        let _ = sheet.offer(LISTED, None, &record.header, &record.payload);
    }
    let (first, fifth) = (sheet.source(0), sheet.source(4));
    assert_eq!((first.caller.missed, fifth.caller.repeats), (2, 1));
}

fn options(seed: u64, records: u64) -> Options {
    Options {
        edition: Edition::Flown,
        seed,
        records,
        payload: None,
        pages: false,
        rows: false,
        clean: false,
        cut: None,
        full: None,
    }
}

fn season(options: &Options) -> Vec<u8> {
    let mut bytes = Vec::new();
    write_season(options, &mut bytes).unwrap();
    bytes
}

/// The records of a season that is not cut.
fn records_of(mut bytes: &[u8]) -> Vec<Record> {
    let mut records = Vec::new();
    while let Some((length, rest)) = bytes.split_first_chunk() {
        let (header, rest) = rest.split_first_chunk().unwrap();
        let (payload, rest) = rest.split_at(u16::from_be_bytes(*length).into());
        records.push(Record {
            header: *header,
            payload: payload.to_vec(),
        });
        bytes = rest;
    }
    records
}

#[test]
fn a_season_has_everything() {
    let records = records_of(&season(&options(1, 3_000)));
    assert_eq!(records.len(), 3_000);
    let mut sheet = Sheet::new(Edition::Flown);
    let (mut flips, mut lengths) = (BTreeSet::new(), BTreeSet::new());
    let mut patterns = Vec::new();
    for record in &records {
        if let Ok(heard) = sheet.offer(LISTED, None, &record.header, &record.payload) {
            flips.insert(heard.flips());
            patterns.push(heard.patterns);
            lengths.insert(record.payload.len());
        }
    }
    // 1 to 8; 20 and 21 are not given under the largest limit, 23 and 24 not without a call sign
    assert_eq!(sheet.refused[0], 0);
    assert!(sheet.refused[1..8].iter().all(|&count| count > 20));
    assert_eq!(sheet.refused[8..], [0; 4]);
    for source in sheet.sources {
        for lane in [source.caller, source.responder] {
            assert!(lane.accepted > 50 && lane.missed > 0 && lane.repeats > 0);
        }
    }
    assert!(flips.contains(&0) && flips.contains(&42) && flips.len() > 30);
    assert!(lengths.contains(&0) && lengths.contains(&1_023) && lengths.len() > 50);
    all_sorts_in(&patterns);
}

#[test]
fn a_corrected_season_has_everything() {
    let corrected = Options {
        edition: Edition::Corrected,
        ..options(1, 12_000)
    };
    let records = records_of(&season(&corrected));
    assert_eq!(records.len(), 12_000);
    let mut sheet = Sheet::new(Edition::Corrected);
    let mut patterns = Vec::new();
    let mut flown = 0;
    for record in &records {
        let answer = sheet.offer(
            listed_as(Edition::Corrected),
            None,
            &record.header,
            &record.payload,
        );
        if let Ok(heard) = answer {
            patterns.push(heard.patterns);
        } else {
            // a frame of the flown edition
            flown += u32::from(read_frame(LISTED, None, &record.header, &record.payload).is_ok());
        }
    }
    // 2, 3, 4, 6, 7, 8; 5 is not made, and the others are not given
    let numbers: Vec<usize> = (0..12).filter(|&k| sheet.refused[k] > 20).collect();
    assert_eq!(numbers, [1, 2, 3, 5, 6, 7]);
    assert_eq!(sheet.refused.iter().filter(|&&count| count > 0).count(), 6);
    assert!(flown > 0);
    let lanes = || sheet.sources.iter().flat_map(|s| [s.caller, s.responder]);
    assert!(lanes().all(|lane| lane.accepted > 5 && lane.missed > 0));
    assert!(lanes().filter(|lane| lane.repeats > 0).count() > 128);
    all_sorts_in(&patterns);
}

/// What is accepted of a season.
fn heard_of(options: &Options) -> Vec<Heard> {
    let records = records_of(&season(options));
    let heard = records
        .iter()
        .map(|r| read_frame(LISTED, None, &r.header, &r.payload));
    heard.filter_map(Result::ok).collect()
}

#[test]
fn the_stored_seasons_have_every_sort_of_flip_pattern_and_every_worst_word() {
    // They are those of .ci/stored.
    let worst = Options {
        clean: true,
        payload: Some(0),
        ..options(84, 28)
    };
    for options in [options(2_026, 400), options(5, 60), worst.clone()] {
        let patterns: Vec<_> = heard_of(&options).iter().map(|h| h.patterns).collect();
        all_sorts_in(&patterns);
    }
    let worst: BTreeSet<usize> = heard_of(&worst).iter().map(Heard::worst).collect();
    assert!(worst.into_iter().eq(0..WORDS));
}

#[test]
fn a_clean_season_is_accepted() {
    let clean = Options {
        clean: true,
        payload: Some(62),
        ..options(2, 500)
    };
    let records = records_of(&season(&clean));
    let mut flips = 0;
    for record in &records {
        assert_eq!(record.payload.len(), 62);
        flips += read_frame(LISTED, None, &record.header, &record.payload)
            .unwrap()
            .flips();
    }
    assert_eq!(records.len(), 500);
    assert!(flips > 500);
}

#[test]
fn a_season_of_one_payload_length_is_refused_in_every_way_too() {
    for length in [0, 1_023] {
        let fixed = Options {
            payload: Some(length),
            ..options(3, 1_000)
        };
        let mut sheet = Sheet::new(Edition::Flown);
        for record in records_of(&season(&fixed)) {
            assert_eq!(record.payload.len(), length);
            let _ = sheet.offer(LISTED, None, &record.header, &record.payload);
        }
        assert!(sheet.refused[1..8].iter().all(|&count| count > 5));
    }
}

#[test]
fn cut_seasons_are_cut_after_their_records() {
    for cut in [Cut::Length, Cut::Lone, Cut::Header, Cut::Payload] {
        for seed in 0..20 {
            let whole = options(seed, 10);
            let cut = Options {
                cut: Some(cut),
                ..whole.clone()
            };
            assert!(season(&cut).starts_with(&season(&whole)));
            let lines = listed(&season(&whole)).replace("heard", "cut\nheard");
            assert_eq!(listed(&season(&cut)), lines);
        }
    }
}

#[test]
fn full_seasons_have_65535_records_and_one_more() {
    let count = |full| {
        let full = Options {
            full: Some(full),
            ..options(4, 7)
        };
        records_of(&season(&full)).len()
    };
    assert_eq!(count(Full::Exact), 65_535);
    assert_eq!(count(Full::OneMore), 65_536);
}

/// FNV-1a of 64 bits.
fn hash(bytes: &[u8]) -> u64 {
    bytes.iter().fold(0xCBF2_9CE4_8422_2325, |hash, &byte| {
        (hash ^ u64::from(byte)).wrapping_mul(0x0100_0000_01B3)
    })
}

#[test]
fn a_listing_is_the_same_on_every_machine() {
    // A program that knows no limit wrote the same.
    let pinned = 14_136_197_525_755_522_481;
    assert_eq!(hash(listed(&season(&options(1, 3_000))).as_bytes()), pinned);
}

#[test]
fn a_season_is_the_same_on_every_machine() {
    let pinned = 1_235_754_680_356_416_400;
    assert_eq!(hash(&season(&options(1, 1_000))), pinned);
    assert_ne!(season(&options(1, 10)), season(&options(2, 10)));
    let corrected = Options {
        edition: Edition::Corrected,
        ..options(1, 1_000)
    };
    assert_eq!(hash(&season(&corrected)), 7_669_003_070_231_185_927);
}
