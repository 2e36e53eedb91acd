//! BEESAT-1 frames: the rules of paper 02, h) and of document 000, the listing, seasons and vectors.

use std::collections::{BTreeMap, BTreeSet};

use independent::beesat::commands::list_frames;
use independent::beesat::sample::{fresh_frame, spoil_fixed, spoil_marker, spoil_sum, wrong_sums};
use independent::beesat::season::{write_season, Options};
use independent::beesat::{field_row, read, write_field, Frame, Header, FIELDS, FRAME_BYTES};
use independent::refusal::Refusal;
use independent::rng::Rng;
use independent::vectors::{
    compare, write_inputs, write_lines, write_replies, Kind, DEFAULT_SEED, KINDS,
};
use running::run;

mod running;

type Bytes = [u8; FRAME_BYTES];

/// The fixed bits of the headers: byte, mask, value. TFVN 0, SCID 0xBE, OCFF 0; TF_SHF, synchronisation flag and POF 0, SLID 3,
/// FHP 0; PVN, PT and SHF 0; PDL 0x007F.
const FIXED: [(usize, u8, u8); 7] = [
    (4, 0xFF, 0x0B),
    (5, 0xF1, 0xE0),
    (8, 0xFF, 0x18),
    (9, 0xFF, 0x00),
    (10, 0xF8, 0x00),
    (14, 0xFF, 0x00),
    (15, 0xFF, 0x7F),
];

/// The CCSDS rule, by the byte.
fn sum(bytes: &[u8]) -> u16 {
    bytes.iter().fold(0xFFFF, |sum, &byte| {
        let mut x = u16::from((sum >> 8) as u8 ^ byte);
        x ^= x >> 4;
        sum << 8 ^ x << 12 ^ x << 5 ^ x
    })
}

/// Puts the error field, "over bytes 4 to 141", high byte first.
fn sealed(mut frame: Bytes) -> Bytes {
    let sum = sum(&frame[4..142]);
    frame[142..].copy_from_slice(&sum.to_be_bytes());
    frame
}

/// A frame whose free bits are all 0.
fn plain() -> Bytes {
    let mut frame = [0; FRAME_BYTES];
    frame[..4].copy_from_slice(&[0x1A, 0xCF, 0xFC, 0x1D]);
    for (byte, _, value) in FIXED {
        frame[byte] = value;
    }
    sealed(frame)
}

/// Flips bit n, counted from the most significant of byte 0.
fn flipped(mut frame: Bytes, n: usize) -> Bytes {
    frame[n / 8] ^= 0x80 >> (n % 8);
    frame
}

fn frames(seed: u64, idle: bool) -> impl Iterator<Item = Bytes> {
    let mut rng = Rng::new(seed);
    (0..200).map(move |_| fresh_frame(&mut rng, idle))
}

/// The 86 fields of a frame, each spelled out as 000 places it.
fn spelled_out(frame: &Bytes) -> Vec<u32> {
    let at = |byte: usize| u32::from(frame[byte]);
    let mut fields = Vec::new();
    for i in 0..16 {
        fields.push(at(16 + 2 * i) << 4 | at(17 + 2 * i) >> 4);
    }
    for i in 0..16 {
        for mask in [0x08, 0x04, 0x02, 0x01] {
            fields.push(u32::from(at(17 + 2 * i) & mask != 0));
        }
    }
    fields.push(at(5) >> 1 & 0x7);
    fields.push(at(6));
    fields.push(at(7));
    fields.push((at(10) & 0x07) << 8 | at(11));
    fields.push(at(12) >> 6);
    fields.push((at(12) & 0x3F) << 8 | at(13));
    fields
}

/// The widths of the fields in bits.
fn width(field: usize) -> u32 {
    match field {
        0..16 => 12,
        16..80 => 1,
        _ => [3, 8, 8, 11, 2, 14][field - 80],
    }
}

#[test]
fn a_telemetry_frame_has_its_header_values_and_states() {
    assert_eq!(sum(b"123456789"), 0x29B1);
    for frame in frames(1, false).chain([plain()]) {
        let Ok(Frame::Telemetry {
            header,
            values,
            states,
        }) = read(&frame)
        else {
            panic!("{:?}", read(&frame));
        };
        let fields = spelled_out(&frame);
        assert_eq!(header.values().map(u32::from), fields[80..]);
        assert_eq!(values.map(u32::from), fields[..16]);
        for i in 0..16 {
            // "state i is byte 17 + 2i mod 16"
            assert_eq!(states[i], frame[17 + 2 * i] % 16);
            let bits = &fields[16 + 4 * i..][..4];
            let number = bits.iter().fold(0, |number, bit| number << 1 | bit);
            assert_eq!(u32::from(states[i]), number);
        }
    }
}

#[test]
fn apid_0x7ff_is_idle_and_its_data_is_not_read() {
    for frame in frames(2, true) {
        let Ok(Frame::Idle { header }) = read(&frame) else {
            panic!("{:?}", read(&frame));
        };
        assert_eq!(header.apid, 0x7FF);
        assert_eq!(
            header.values().map(u32::from),
            spelled_out(&frame)[80..],
            "its header is read"
        );
        let mut other = frame;
        other[16..142].fill(0x5A);
        assert_eq!(read(&sealed(other)), read(&frame));
    }
    // Each other value of the eleven bits that differs in one.
    for n in 10 * 8 + 5..12 * 8 {
        let frame = frames(3, true).next().unwrap();
        let frame = sealed(flipped(frame, n));
        assert!(matches!(read(&frame), Ok(Frame::Telemetry { .. })));
    }
}

#[test]
fn every_other_length_is_25() {
    for length in (0..400).filter(|&length| length != 144) {
        let mut bytes = plain().to_vec();
        bytes.resize(length, 0xFF);
        assert_eq!(read(&bytes), Err(Refusal::new(25, length)));
    }
}

#[test]
fn a_bit_of_the_marker_is_26_at_its_byte_whatever_else_is_wrong() {
    for n in 0..32 {
        for frame in [plain(), frames(4, true).next().unwrap(), [0x55; 144]] {
            let mut frame = frame;
            frame[..4].copy_from_slice(&0x1ACF_FC1D_u32.to_be_bytes());
            let frame = flipped(frame, n);
            assert_eq!(read(&frame), Err(Refusal::new(26, n / 8)));
            // The lowest byte that differs.
            if n < 24 {
                assert_eq!(read(&flipped(frame, 24 + 5)), Err(Refusal::new(26, n / 8)));
            }
        }
    }
}

#[test]
fn any_bit_under_the_error_field_or_in_it_is_27_with_the_one_worked_out() {
    let frame = frames(5, false).next().unwrap();
    for n in 4 * 8..144 * 8 {
        let frame = flipped(frame, n);
        let worked_out = sum(&frame[4..142]);
        assert_eq!(read(&frame), Err(Refusal::new(27, worked_out)));
    }
    // The marker is not under it.
    assert_eq!(sum(&plain()[4..142]).to_be_bytes(), plain()[142..]);
}

#[test]
fn other_rules_of_the_error_field_are_27() {
    for frame in frames(6, false) {
        for wrong in wrong_sums(&frame) {
            let mut other = frame;
            other[142..].copy_from_slice(&wrong.to_be_bytes());
            let worked_out = sum(&frame[4..142]);
            assert_eq!(read(&other), Err(Refusal::new(27, worked_out)));
        }
    }
}

#[test]
fn a_fixed_bit_is_28_at_its_byte_and_a_free_one_is_none() {
    for frame in [plain(), frames(7, true).next().unwrap()] {
        for n in 4 * 8..142 * 8 {
            let (byte, mask) = (n / 8, 0x80 >> (n % 8));
            let is_fixed = FIXED.iter().any(|&(b, m, _)| b == byte && m & mask != 0);
            let read = read(&sealed(flipped(frame, n)));
            if is_fixed {
                assert_eq!(read, Err(Refusal::new(28, byte)));
            } else {
                assert!(read.is_ok(), "bit {n}");
            }
        }
    }
    // The lowest byte that differs.
    for (i, (one, ..)) in FIXED.iter().enumerate() {
        for (other, mask, _) in &FIXED[i..] {
            let mut frame = plain();
            frame[*one] ^= 0x80;
            frame[*other] ^= mask & 0x7F;
            assert_eq!(read(&sealed(frame)), Err(Refusal::new(28, *one)));
        }
    }
}

#[test]
fn the_first_refusal_that_applies_is_given() {
    let mut rng = Rng::new(8);
    for round in 0..800 {
        let (marker, error, fixed) = (round & 1 == 1, round & 2 == 2, round & 4 == 4);
        let mut frame = fresh_frame(&mut rng, round & 8 == 8);
        if fixed {
            spoil_fixed(&mut rng, &mut frame);
        }
        if error {
            spoil_sum(&mut rng, &mut frame);
        }
        if marker {
            spoil_marker(&mut rng, &mut frame);
        }
        let number = read(&frame).err().map(|refusal| refusal.number);
        let expected = match (marker, error, fixed) {
            (true, _, _) => Some(26),
            (_, true, _) => Some(27),
            (_, _, true) => Some(28),
            _ => None,
        };
        assert_eq!(number, expected);
        assert_eq!(read(&frame[..143]), Err(Refusal::new(25, 143usize)));
    }
}

#[test]
fn a_written_field_changes_its_bits_and_the_error_field_only() {
    let mut rng = Rng::new(9);
    for field in 0..86 {
        let largest = (1u32 << width(field)) - 1;
        for value in [0, 1, largest / 2, largest, rng.within(0..=largest)] {
            if (field, value) == (83, 0x7FF) {
                continue;
            }
            let before = fresh_frame(&mut rng, false);
            let mut after = before;
            assert_eq!(write_field(&mut after, field as u32, value), Ok(()));
            // Every field reads as before but this one.
            let mut expected = spelled_out(&before);
            expected[field] = value;
            assert_eq!(spelled_out(&after), expected);
            // Nothing else is another, and the frame reads well.
            let row = field_row(field as u32).unwrap();
            let start = 8 * row.byte + row.bit;
            for n in 0..142 * 8 {
                let same = (before[n / 8] ^ after[n / 8]) & 0x80 >> (n % 8) == 0;
                assert!(same || (start..start + row.length).contains(&n));
            }
            assert_eq!(sealed(after), after);
            assert!(matches!(read(&after), Ok(Frame::Telemetry { .. })));
            // "The same write again changes no byte."
            let mut again = after;
            assert_eq!(write_field(&mut again, field as u32, value), Ok(()));
            assert_eq!(again, after);
            // Writing the value that is there changes nothing at all.
            let there = spelled_out(&before)[field];
            let mut same = before;
            assert_eq!(write_field(&mut same, field as u32, there), Ok(()));
            assert_eq!(same, before);
        }
    }
}

#[test]
fn apid_0x7ff_may_be_written_and_makes_the_frame_idle() {
    for before in frames(10, false).take(20) {
        let mut after = before;
        assert_eq!(write_field(&mut after, 83, 0x7FF), Ok(()));
        let mut fields = spelled_out(&before);
        fields[83] = 0x7FF;
        assert_eq!(spelled_out(&after), fields, "the other bits stand");
        let Ok(Frame::Idle { header }) = read(&after) else {
            panic!("{:?}", read(&after));
        };
        assert_eq!(header.values().map(u32::from), fields[80..]);
        // Every further write is 38, this one too.
        let idle = after;
        for field in 0..=90 {
            let refused = Err(Refusal::new(38, field as usize));
            assert_eq!(write_field(&mut after, field, 0x7FF), refused);
            assert_eq!(write_field(&mut after, field, u32::MAX), refused);
        }
        assert_eq!(after, idle);
    }
}

#[test]
fn a_value_too_large_is_29_with_the_value() {
    for frame in frames(11, false).take(3) {
        for field in 0..86 {
            let most = 1u32 << width(field);
            for value in [most, most + 1, 2 * most, 1 << 16, 1 << 31, u32::MAX] {
                let mut after = frame;
                let refused = Err(Refusal::new(29, value as usize));
                assert_eq!(write_field(&mut after, field as u32, value), refused);
                assert_eq!(after, frame);
            }
        }
    }
}

#[test]
fn no_such_field_is_38_before_29_with_the_field() {
    assert_eq!(FIELDS, 86);
    let frame = plain();
    for field in (86..=300).chain([65_536, 65_536 + 80, 1 << 31, u32::MAX]) {
        for value in [0, 1, u32::MAX] {
            let mut after = frame;
            let refused = Err(Refusal::new(38, field as usize));
            assert_eq!(write_field(&mut after, field, value), refused);
            assert_eq!(after, frame);
        }
    }
}

#[test]
fn a_frame_that_does_not_read_well_is_refused_first_and_unchanged() {
    let mut rng = Rng::new(12);
    for round in 0..300 {
        let mut frame = fresh_frame(&mut rng, round % 2 == 1);
        match round % 3 {
            0 => spoil_marker(&mut rng, &mut frame),
            1 => spoil_sum(&mut rng, &mut frame),
            _ => spoil_fixed(&mut rng, &mut frame),
        }
        let refused = read(&frame).map(|_| ());
        assert_eq!(refused.unwrap_err().number, 26 + (round % 3) as u8);
        for (field, value) in [(5, 1), (5, u32::MAX), (86, 0), (u32::MAX, u32::MAX)] {
            let mut after = frame;
            assert_eq!(write_field(&mut after, field, value), refused);
            assert_eq!(after, frame);
            let mut short = frame[..100].to_vec();
            let refused = Err(Refusal::new(25, 100usize));
            assert_eq!(write_field(&mut short, field, value), refused);
            assert_eq!(short, frame[..100]);
        }
    }
}

fn listed(mut input: &[u8]) -> String {
    let mut output = Vec::new();
    list_frames(&mut input, &mut output).unwrap();
    String::from_utf8(output).unwrap()
}

/// The three frames of the listing below.
fn example() -> Vec<u8> {
    let mut telemetry = plain();
    telemetry[5] |= 1 << 1;
    telemetry[6..8].copy_from_slice(&[200, 7]);
    telemetry[11] = 2;
    telemetry[12] |= 3 << 6;
    telemetry[13] = 77;
    // Values 0 and 15 are 12 and 4095, states 1 and 2 are 15 and 8.
    telemetry[17] = 12 << 4;
    telemetry[19] = 0x0F;
    telemetry[21] = 0x08;
    telemetry[46..48].copy_from_slice(&[0xFF, 0xF0]);
    let mut idle = telemetry;
    idle[6..8].copy_from_slice(&[201, 8]);
    idle[10..12].copy_from_slice(&[0x07, 0xFF]);
    idle[13] = 78;
    let refused = flipped(sealed(telemetry), 1_000);
    [sealed(telemetry), sealed(idle), refused].concat()
}

#[test]
fn a_listing() {
    let bytes = example();
    let worked_out = sum(&bytes[2 * 144 + 4..][..138]);
    let expected = format!(
        "beesat frames\n\
         0 telemetry vcid 1 mcfc 200 vcfc 7 apid 2 flag 3 psc 77 \
         values 12 0 0 0 0 0 0 0 0 0 0 0 0 0 0 4095 states 0 15 8 0 0 0 0 0 0 0 0 0 0 0 0 0\n\
         1 idle vcid 1 mcfc 201 vcfc 8 apid 2047 flag 3 psc 78\n\
         2 refused 27 {worked_out}\n\
         heard 3 telemetry 1 idle 1 refused 1\n"
    );
    assert_eq!(listed(&bytes), expected);
}

#[test]
fn every_place_where_the_frames_can_end() {
    let bytes = example();
    let whole = listed(&bytes);
    let lines: Vec<&str> = whole.lines().collect();
    for end in 0..bytes.len() {
        let mut expected = String::from("beesat frames\n");
        let heard = end / 144;
        for line in &lines[1..=heard] {
            expected += &format!("{line}\n");
        }
        if end % 144 != 0 {
            expected += "cut\n";
        }
        let (telemetry, idle) = (heard.min(1), heard.saturating_sub(1).min(1));
        expected += &format!("heard {heard} telemetry {telemetry} idle {idle} refused 0\n");
        assert_eq!(listed(&bytes[..end]), expected);
    }
}

#[test]
fn any_bytes_are_listed() {
    let mut rng = Rng::new(13);
    for length in (0..2_000).step_by(31) {
        let lines = listed(&rng.bytes(length));
        let heard = length / 144;
        assert!(lines.ends_with(&format!(
            "heard {heard} telemetry 0 idle 0 refused {heard}\n"
        )));
        assert_eq!(lines.contains("\ncut\n"), length % 144 != 0);
    }
    // More than is read at a time.
    let many = example().repeat(1_000);
    let lines = listed(&many);
    assert!(lines.contains("\n2998 idle vcid 1 "));
    assert!(lines.ends_with("\nheard 3000 telemetry 1000 idle 1000 refused 1000\n"));
}

fn options(seed: u64, frames: u64) -> Options {
    Options {
        seed,
        frames,
        clean: false,
        cut: 0,
    }
}

fn season(options: &Options) -> Vec<u8> {
    let mut bytes = Vec::new();
    write_season(options, &mut bytes).unwrap();
    bytes
}

#[test]
fn a_season_has_everything() {
    let bytes = season(&options(1, 2_000));
    assert_eq!(bytes.len(), 2_000 * 144);
    let mut answers: BTreeMap<String, usize> = BTreeMap::new();
    let mut places: BTreeSet<(u8, usize)> = BTreeSet::new();
    let mut masks = BTreeSet::new();
    for frame in bytes.chunks(144) {
        let answer = match read(frame) {
            Ok(Frame::Telemetry { .. }) => String::from("telemetry"),
            Ok(Frame::Idle { .. }) => String::from("idle"),
            Err(refusal) => {
                places.insert((refusal.number, refusal.place));
                refusal.number.to_string()
            }
        };
        *answers.entry(answer).or_default() += 1;
        // What is wrong besides what is told: marker, error field, fixed values.
        let marker = frame[..4] != [0x1A, 0xCF, 0xFC, 0x1D];
        let error = frame[142..] != sum(&frame[4..142]).to_be_bytes();
        let fixed = FIXED.iter().any(|&(b, m, v)| frame[b] & m != v);
        masks.insert((marker, error, fixed));
    }
    assert_eq!(answers.len(), 5);
    assert!(answers.values().all(|&count| count > 100), "{answers:?}");
    assert_eq!(masks.len(), 8, "each alone, each two, all, and none");
    for place in [4, 5, 8, 9, 10, 14, 15] {
        assert!(places.contains(&(28, place)));
    }
    assert!((0..4).all(|place| places.contains(&(26, place))));
}

#[test]
fn clean_and_cut_seasons() {
    let clean = Options {
        clean: true,
        ..options(2, 300)
    };
    let lines = listed(&season(&clean));
    assert!(lines.ends_with(" refused 0\n") && lines.contains(" idle "));
    for cut in [1, 16, 143] {
        let whole = options(3, 12);
        let cut = Options {
            cut,
            ..whole.clone()
        };
        assert_eq!(season(&cut).len(), 12 * 144 + cut.cut);
        assert!(season(&cut).starts_with(&season(&whole)));
        let lines = listed(&season(&whole)).replace("heard", "cut\nheard");
        assert_eq!(listed(&season(&cut)), lines);
    }
}

/// FNV-1a of 64 bits.
fn hash(bytes: &[u8]) -> u64 {
    bytes.iter().fold(0xCBF2_9CE4_8422_2325, |hash, &byte| {
        (hash ^ u64::from(byte)).wrapping_mul(0x0100_0000_01B3)
    })
}

fn inputs(kind: Kind) -> Vec<u8> {
    let mut bytes = Vec::new();
    write_inputs(kind, DEFAULT_SEED, &mut bytes).unwrap();
    bytes
}

#[test]
fn seasons_and_inputs_are_the_same_on_every_machine() {
    assert_eq!(hash(&season(&options(1, 1_000))), 0x8FDB_435F_05E2_5298);
    assert_eq!(hash(&inputs(Kind::Beesat)), 0x6305_0F15_558C_A827);
    assert_eq!(hash(&inputs(Kind::Fields)), 0x9755_D322_F876_5342);
    assert_ne!(season(&options(1, 10)), season(&options(2, 10)));
}

#[test]
fn kinds_have_their_numbers_and_records_their_sizes() {
    assert_eq!((Kind::Beesat as u8, Kind::Fields as u8), (15, 16));
    for (number, (_, kind)) in KINDS.into_iter().enumerate() {
        assert_eq!(kind as usize, number);
    }
    for (kind, size) in [(Kind::Beesat, 162), (Kind::Fields, 170)] {
        let bytes = inputs(kind);
        assert_eq!(bytes.len() % size, 0);
        for record in bytes.chunks(size) {
            let length = u16::from_be_bytes([record[size - 162], record[size - 161]]);
            let rest = &record[size - 160 + usize::from(length)..];
            assert!(rest.iter().all(|&byte| byte == 0));
        }
    }
}

/// Compares one record's reply with that of the program.
fn agrees(kind: Kind, record: &[u8], reply: &[u8]) {
    let compared = compare(kind, record, reply).unwrap();
    assert_eq!(compared.records, 1);
    assert_eq!(compared.differences, Vec::<String>::new());
}

/// The record of a frame that fills it up to 144 of 160 bytes.
fn record(frame: &Bytes) -> Vec<u8> {
    [&[0, 144], &frame[..], &[0; 16]].concat()
}

#[test]
fn replies_stand_byte_for_byte_as_told() {
    let bytes = example();
    let (telemetry, idle) = (bytes[..144].try_into().unwrap(), &bytes[144..288]);
    let values = [&[0, 12][..], &[0; 28], &[0x0F, 0xFF]].concat();
    let states = [&[0, 15, 8][..], &[0; 13]].concat();
    let head = [0, 0, 0, 0, 0, 0, 0, 0, 0, 1, 1, 200, 7, 0, 2, 3, 0, 77];
    let reply = [&head[..], &values, &states].concat();
    agrees(Kind::Beesat, &record(&telemetry), &reply);
    let head = [
        0, 0, 0, 0, 0, 0, 0, 0, 0, 2, 1, 201, 8, 0x07, 0xFF, 3, 0, 78,
    ];
    let reply = [&head[..], &[0; 48]].concat();
    agrees(Kind::Beesat, &record(idle.try_into().unwrap()), &reply);
    let refused = [&[25, 0, 0, 0, 0, 0, 0, 0, 160][..], &[0; 57]].concat();
    agrees(Kind::Beesat, &[&[0, 160][..], &[9; 160]].concat(), &refused);

    // Value 1 becomes 0x123.
    let call = [&[0, 0, 0, 1, 0, 0, 1, 0x23], &record(&telemetry)[..]].concat();
    let mut written = telemetry;
    written[18..20].copy_from_slice(&[0x12, 0x3F]);
    let reply = [&[0; 9], &record(&sealed(written))[..]].concat();
    agrees(Kind::Fields, &call, &reply);
    let call = [&[0, 0, 0, 86, 0xFF, 0, 0, 1], &record(&telemetry)[..]].concat();
    let reply = [&[38, 0, 0, 0, 0, 0, 0, 0, 86], &record(&telemetry)[..]].concat();
    agrees(Kind::Fields, &call, &reply);
    // What stands behind the frame is not touched.
    let call = [&[0, 0, 0, 0, 0, 0, 0, 0, 0, 3][..], &[7; 160]].concat();
    let reply = [&[25, 0, 0, 0, 0, 0, 0, 0, 3, 0, 3][..], &[7; 160]].concat();
    agrees(Kind::Fields, &call, &reply);
}

fn lines(kind: Kind) -> Vec<String> {
    let mut bytes = Vec::new();
    write_lines(kind, DEFAULT_SEED, &mut bytes).unwrap();
    let text = String::from_utf8(bytes).unwrap();
    text.lines().map(String::from).collect()
}

/// What is left of a frame's line in the listing when its names are left out.
fn numbers_of(frame: &Frame) -> String {
    let is_number = |word: &&str| word.parse::<u16>().is_ok();
    let text = frame.to_string();
    let (case, rest) = text.split_once(' ').unwrap();
    let numbers: Vec<&str> = rest.split(' ').filter(is_number).collect();
    format!("{case} {}", numbers.join(" "))
}

#[test]
fn lines_are_those_of_the_listing_without_names() {
    let inputs = inputs(Kind::Beesat);
    for (record, line) in inputs.chunks(162).zip(lines(Kind::Beesat)) {
        let length = u16::from_be_bytes([record[0], record[1]]);
        let expected = match read(&record[2..][..length.into()]) {
            Ok(frame) => numbers_of(&frame),
            Err(refusal) => refusal.to_string(),
        };
        assert_eq!(line, expected);
    }
}

/// The field, the value and the frame of a record of `fields`.
fn call_of(record: &[u8]) -> (u32, u32, Vec<u8>) {
    let four = |at: usize| u32::from_be_bytes(record[at..at + 4].try_into().unwrap());
    let length = u16::from_be_bytes([record[8], record[9]]);
    (four(0), four(4), record[10..][..length.into()].to_vec())
}

/// Holds that these calls have each refusal, each field, values at and past their limits, and APID 0x7FF.
fn all_calls_in(calls: &[(u32, u32, Vec<u8>)]) {
    let mut answers = BTreeSet::new();
    for (field, value, frame) in calls {
        let idle = matches!(read(frame), Ok(Frame::Idle { .. }));
        let number = write_field(&mut frame.clone(), *field, *value)
            .err()
            .map_or(0, |refusal| refusal.number);
        answers.insert((number, idle, *field, *value));
    }
    let numbers: BTreeSet<u8> = answers.iter().map(|&(number, ..)| number).collect();
    assert!(numbers.into_iter().eq([0, 25, 26, 27, 28, 29, 38]));
    for field in 0..86 {
        let most = 1 << width(field as usize);
        assert!(answers.contains(&(0, false, field, most - 1)), "{field}");
        assert!(answers.contains(&(29, false, field, most)), "{field}");
    }
    for field in (86..=90).chain([u32::MAX]) {
        let refused = |idle| {
            let mut answers = answers.iter();
            answers.any(|&(n, i, f, _)| (n, i, f) == (38, idle, field))
        };
        assert!(refused(false) && refused(true), "{field}");
    }
    assert!(answers.iter().any(|a| a.0 == 38 && a.1 && a.2 == 83));
}

#[test]
fn vectors_have_each_refusal_each_field_and_the_limits() {
    let calls: Vec<_> = inputs(Kind::Fields).chunks(170).map(call_of).collect();
    all_calls_in(&calls);
    for field in 0..=90 {
        assert!(calls.iter().any(|call| call.0 == field));
    }
    let has = |lines: &[String], start: &str| lines.iter().any(|line| line.starts_with(start));
    let frames = lines(Kind::Beesat);
    let told = ["telemetry ", "idle ", "refused 25 ", "refused 27 "];
    assert!(told.iter().all(|start| has(&frames, start)));
    for (number, places) in [
        (25, vec![0, 143, 145]),
        (26, vec![0, 1, 2, 3]),
        (28, vec![4, 5, 8, 9, 10, 14, 15]),
    ] {
        for place in places {
            let line = format!("refused {number} {place}");
            assert!(frames.contains(&line), "{line}");
        }
    }
}

#[test]
fn stored_vectors_have_them_too() {
    let mut rest = &inputs(Kind::StoredBeesat)[..];
    let (mut calls, mut frames) = (Vec::new(), BTreeSet::new());
    while let Some((&number, record)) = rest.split_first() {
        let size = if number == 15 { 162 } else { 170 };
        let (record, after) = record.split_at(size);
        if number == 15 {
            let length = u16::from_be_bytes([record[0], record[1]]);
            frames.insert(match read(&record[2..][..length.into()]) {
                Ok(Frame::Telemetry { .. }) => (0, 0),
                Ok(Frame::Idle { .. }) => (0, 1),
                Err(Refusal { number: 27, .. }) => (27, 0),
                Err(refusal) => (refusal.number, refusal.place),
            });
        } else {
            assert_eq!(number, 16);
            calls.push(call_of(record));
        }
        rest = after;
    }
    all_calls_in(&calls);
    for answer in [(0, 0), (0, 1), (25, 143), (25, 145), (27, 0)] {
        assert!(frames.contains(&answer));
    }
    assert!((0..4).all(|byte| frames.contains(&(26, byte))));
    assert!(FIXED.iter().all(|&(byte, ..)| frames.contains(&(28, byte))));
}

#[test]
fn replies_have_the_sizes_told() {
    for (kind, size) in [(Kind::Beesat, 66), (Kind::Fields, 171)] {
        let mut replies = Vec::new();
        write_replies(kind, DEFAULT_SEED, &mut replies).unwrap();
        assert_eq!(replies.len(), size * lines(kind).len());
    }
}

#[test]
fn the_header_of_the_example_by_name() {
    let Ok(Frame::Telemetry { header, .. }) = read(&example()[..144]) else {
        panic!();
    };
    let expected = Header {
        vcid: 1,
        mcfc: 200,
        vcfc: 7,
        apid: 2,
        flag: 3,
        psc: 77,
    };
    assert_eq!(header, expected);
}

#[test]
fn the_program_lists_frames() {
    let bytes = example();
    let whole = listed(&bytes);
    let file = std::env::temp_dir().join(format!("independent-{}.beesat", std::process::id()));
    std::fs::write(&file, &bytes).unwrap();
    let name = file.to_str().unwrap();
    for (arguments, input) in [
        (&["beesat"][..], &bytes[..]),
        (&["beesat", "-"], &bytes),
        (&["beesat", name], &[]),
    ] {
        let output = run(arguments, input);
        assert_eq!(String::from_utf8(output.stdout).unwrap(), whole);
        assert!(output.stderr.is_empty() && output.status.success());
    }
    let two = run(&["beesat", name, name], &[]);
    std::fs::remove_file(&file).unwrap();
    assert_eq!((two.status.code(), two.stdout.len()), (Some(2), 0));
    let missing = run(&["beesat", "no such file"], &[]);
    assert_eq!((missing.status.code(), missing.stdout.len()), (Some(1), 0));
    let empty = run(&["beesat"], &[]);
    assert_eq!(
        empty.stdout,
        b"beesat frames\nheard 0 telemetry 0 idle 0 refused 0\n"
    );
    let cut = run(&["beesat"], &bytes[..150]);
    assert!(cut
        .stdout
        .ends_with(b"\ncut\nheard 1 telemetry 1 idle 0 refused 0\n"));
    assert!(cut.status.success());
}

#[test]
fn the_program_writes_a_field() {
    let bytes = example();
    let frame = &bytes[..144];
    let mut expected: Bytes = frame.try_into().unwrap();
    write_field(&mut expected, 80, 5).unwrap();
    let output = run(&["beesat-set", "80", "0005"], frame);
    assert_eq!(output.stdout, expected);
    assert!(output.stderr.is_empty() && output.status.success());
    for (field, value, input, told) in [
        ("80", "8", frame, "refused 29 8"),
        ("86", "4294967295", frame, "refused 38 86"),
        ("0", "0", &bytes[144..288], "refused 38 0"),
        ("0", "4096", &bytes[..143], "refused 25 143"),
        ("0", "4096", &bytes, "refused 25 432"),
        ("0", "4096", &bytes[288..], "refused 27 "),
        ("0", "0", &[], "refused 25 0"),
    ] {
        let output = run(&["beesat-set", field, value, "-"], input);
        assert!(output.stdout.is_empty());
        assert_eq!(output.status.code(), Some(1));
        let line = String::from_utf8(output.stderr).unwrap();
        assert!(line.contains(told) && line.lines().count() == 1, "{line}");
    }
    for arguments in [
        &["beesat-set"][..],
        &["beesat-set", "1"],
        &["beesat-set", "+1", "2"],
        &["beesat-set", "1", "-2"],
        &["beesat-set", "1", ""],
        &["beesat-set", "1", "2 "],
        &["beesat-set", "0x1", "2"],
        &["beesat-set", "4294967296", "2"],
        &["beesat-set", "1", "4294967296"],
        &["beesat-set", "1", "2", "-", "-"],
        &["beesat", "--loud"],
        &["beesat-season", "1"],
        &["beesat-season", "1", "2", "--cut"],
        &["beesat-season", "1", "2", "--cut", "144"],
    ] {
        let output = run(arguments, frame);
        assert_eq!(output.status.code(), Some(2), "{arguments:?}");
        assert!(output.stdout.is_empty());
    }
    let made = run(&["beesat-season", "7", "3", "--clean", "--cut", "9"], &[]);
    assert_eq!(made.stdout.len(), 3 * 144 + 9);
}
