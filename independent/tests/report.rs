//! The exact pass report: the sentences of paper 02, i), on pages made by hand, and pages by chance against another way to look.

use std::cmp::Reverse;
use std::collections::BTreeMap;

use independent::frame::read_frame;
use independent::header::{Field, Header};
use independent::page::{read_page, ROWS};
use independent::refusal::Refusal;
use independent::report::{Extreme, PassReport, Report, RowReport, MOST_PAGES};
use independent::rng::Rng;
use independent::rows::page_record;
use independent::rules::{Edition, Rules, LARGEST_LIMIT};
use independent::sample::{burst, seal, Record};
use independent::season::{write_season, Cut, Full, Options};
use running::run;

mod running;

/// The report over some files.
fn reported(files: &[&[u8]]) -> String {
    let mut report = PassReport::default();
    for mut file in files.iter().copied() {
        report.take_file(&mut file).unwrap();
    }
    report.to_string()
}

fn bytes_of(record: &Record) -> Vec<u8> {
    let mut bytes = Vec::new();
    record.write_to(&mut bytes).unwrap();
    bytes
}

/// A clean flown record of this payload.
fn framed(payload: &[u8]) -> Record {
    let mut header = Header::default();
    seal(Edition::Flown, &mut header, payload);
    Record::new(&header, payload.to_vec())
}

/// A pass of pages with these rows.
fn pass(pages: &[[i16; ROWS]]) -> Vec<u8> {
    let records = (0..).zip(pages).map(|(k, rows)| page_record(k, rows));
    records.flat_map(|record| bytes_of(&record)).collect()
}

/// A pass of pages that have these numbers in row 0 and the same with the other sign in row 16.
fn pass_of(raws: &[i16]) -> Vec<u8> {
    let page = |&raw: &i16| {
        let mut rows = [0; ROWS];
        (rows[0], rows[16]) = (raw, -raw);
        rows
    };
    pass(&raws.iter().map(page).collect::<Vec<_>>())
}

/// The lines of row 0 and row 16, and those after the rows.
fn told(files: &[&[u8]]) -> (String, String, String) {
    let text = reported(files);
    let lines: Vec<&str> = text.lines().collect();
    let after = |name: &str, line: &str| line.strip_prefix(name).unwrap().to_string();
    let first = after("EPS_PGET_S00_CUR_SOLX_POS ", lines[1]);
    let last = after("THM_PGET_S31_TH_BAT0 ", lines[17]);
    (first, last, lines[18..].join("\n"))
}

#[test]
fn with_no_page_the_report_says_so() {
    let expected = "\
pass report
EPS_PGET_S00_CUR_SOLX_POS count 0 smallest - page - largest - page - sum 0 mean -
EPS_PGET_S01_CUR_SOLX_NEG count 0 smallest - page - largest - page - sum 0 mean -
EPS_PGET_S02_CUR_SOLY_POS count 0 smallest - page - largest - page - sum 0 mean -
EPS_PGET_S03_CUR_SOLY_NEG count 0 smallest - page - largest - page - sum 0 mean -
EPS_PGET_S04_CUR_SOLZ_POS count 0 smallest - page - largest - page - sum 0 mean -
EPS_PGET_S05_CUR_SOLZ_NEG count 0 smallest - page - largest - page - sum 0 mean -
EPS_PGET_S06_V_SOL count 0 smallest - page - largest - page - sum 0 mean -
EPS_PGET_S24_V_BAT0 count 0 smallest - page - largest - page - sum 0 mean -
EPS_PGET_S26_A_IN_CHARGER0 count 0 smallest - page - largest - page - sum 0 mean -
EPS_PGET_S25_A_OUT_CHARGER0 count 0 smallest - page - largest - page - sum 0 mean -
EPS_PGET_S13_V_BAT1 count 0 smallest - page - largest - page - sum 0 mean -
EPS_PGET_S23_A_IN_CHARGER1 count 0 smallest - page - largest - page - sum 0 mean -
EPS_PGET_S14_A_OUT_CHARGER1 count 0 smallest - page - largest - page - sum 0 mean -
EPS_PGET_S22_V_SUM count 0 smallest - page - largest - page - sum 0 mean -
EPS_PGET_S44_V_3V3 count 0 smallest - page - largest - page - sum 0 mean -
EPS_PGET_S45_V_5V count 0 smallest - page - largest - page - sum 0 mean -
THM_PGET_S31_TH_BAT0 count 0 smallest - page - largest - page - sum 0 mean -
heard 0 accepted 0 pages 0
";
    assert_eq!(reported(&[]), expected);
    assert_eq!(reported(&[&[]]), expected);
    let refused = expected.replace("heard 0", "heard 2");
    assert_eq!(reported(&[&[0; 212], &[], &[0; 212]]), refused);
    let row = Report::default().row(5);
    assert_eq!((row.count, row.sum), (0, 0));
    assert_eq!((row.smallest, row.largest, row.mean), (None, None, None));
}

/// A page of 8 bytes before its user bytes, byte by byte: row r is 100 r + `first`, low byte first.
fn page_by_hand(first: i16) -> Vec<u8> {
    let mut payload = vec![0xF3, 0x50, 0, 0, 36, 0, 0, 34];
    for row in 0..17 {
        let number = (100 * row + first) as u16;
        payload.push((number % 256) as u8);
        payload.push((number / 256) as u8);
    }
    payload
}

#[test]
fn three_pages_and_what_is_none() {
    let mut garbled = framed(&page_by_hand(31_000));
    garbled.header[9] = 2;
    let records = [
        framed(&page_by_hand(8_869)),
        garbled,
        framed(&page_by_hand(-12)),
        // fewer than 34 user bytes
        framed(&[0, 0, 0, 0, 0, 0, 0, 1, 99]),
        framed(&page_by_hand(184)),
    ];
    let expected = "\
pass report
EPS_PGET_S00_CUR_SOLX_POS count 3 smallest -12 page 1 largest 8869 page 0 sum 9041 mean 9041/3
EPS_PGET_S01_CUR_SOLX_NEG count 3 smallest 88 page 1 largest 8969 page 0 sum 9341 mean 9341/3
EPS_PGET_S02_CUR_SOLY_POS count 3 smallest 188 page 1 largest 9069 page 0 sum 9641 mean 9641/3
EPS_PGET_S03_CUR_SOLY_NEG count 3 smallest 288 page 1 largest 9169 page 0 sum 9941 mean 9941/3
EPS_PGET_S04_CUR_SOLZ_POS count 3 smallest 388 page 1 largest 9269 page 0 sum 10241 mean 10241/3
EPS_PGET_S05_CUR_SOLZ_NEG count 3 smallest 488 page 1 largest 9369 page 0 sum 10541 mean 10541/3
EPS_PGET_S06_V_SOL count 3 smallest 588 page 1 largest 9469 page 0 sum 10841 mean 10841/3
EPS_PGET_S24_V_BAT0 count 3 smallest 688 page 1 largest 9569 page 0 sum 11141 mean 11141/3
EPS_PGET_S26_A_IN_CHARGER0 count 3 smallest 788 page 1 largest 9669 page 0 sum 11441 mean 11441/3
EPS_PGET_S25_A_OUT_CHARGER0 count 3 smallest 888 page 1 largest 9769 page 0 sum 11741 mean 11741/3
EPS_PGET_S13_V_BAT1 count 3 smallest 988 page 1 largest 9869 page 0 sum 12041 mean 12041/3
EPS_PGET_S23_A_IN_CHARGER1 count 3 smallest 1088 page 1 largest 9969 page 0 sum 12341 mean 12341/3
EPS_PGET_S14_A_OUT_CHARGER1 count 3 smallest 1188 page 1 largest 10069 page 0 sum 12641 mean 12641/3
EPS_PGET_S22_V_SUM count 3 smallest 1288 page 1 largest 10169 page 0 sum 12941 mean 12941/3
EPS_PGET_S44_V_3V3 count 3 smallest 1388 page 1 largest 10269 page 0 sum 13241 mean 13241/3
EPS_PGET_S45_V_5V count 3 smallest 1488 page 1 largest 10369 page 0 sum 13541 mean 13541/3
THM_PGET_S31_TH_BAT0 count 3 smallest 1588 page 1 largest 10469 page 0 sum 13841 mean 13841/3
heard 5 accepted 4 pages 3
";
    let bytes: Vec<u8> = records.iter().flat_map(bytes_of).collect();
    assert_eq!(reported(&[&bytes]), expected);
    // Pages are numbered over all files: the same records in two are the same pages.
    let (front, back) = bytes.split_at(bytes_of(&records[0]).len());
    assert_eq!(reported(&[front, back]), expected);
    assert_eq!(reported(&[&[], front, &[], back, &[]]), expected);
}

#[test]
fn the_first_page_that_had_a_number_keeps_it() {
    for (raws, smallest, largest, sum) in [
        (&[5][..], "5 page 0", "5 page 0", "5 mean 5/1"),
        (&[5, 5, 5], "5 page 0", "5 page 0", "15 mean 15/3"),
        (&[1, 2, 2, 1], "1 page 0", "2 page 1", "6 mean 6/4"),
        (&[2, 1, 1, 2], "1 page 1", "2 page 0", "6 mean 6/4"),
        (&[0, -1, 1, -1, 1], "-1 page 1", "1 page 2", "0 mean 0/5"),
        (&[3, 2, 1], "1 page 2", "3 page 0", "6 mean 6/3"),
        (&[-3, -2, -1], "-3 page 0", "-1 page 2", "-6 mean -6/3"),
    ] {
        let count = raws.len();
        let expected = format!("count {count} smallest {smallest} largest {largest} sum {sum}");
        assert_eq!(told(&[&pass_of(raws)]).0, expected);
    }
}

#[test]
fn numbers_at_their_limits() {
    let pages = [[i16::MIN; ROWS], [i16::MAX; ROWS], [i16::MIN; ROWS]];
    let (first, last, _) = told(&[&pass(&pages)]);
    let expected = "count 3 smallest -32768 page 0 largest 32767 page 1 sum -32769 mean -32769/3";
    assert_eq!((&*first, &*last), (expected, expected));
}

/// Another way to the same: all numbers with their pages in order, the smallest or the largest number first and of equal ones the
/// first page; and the sum over the different numbers, each as often as it was there.
fn sorted_look(raws: &[i16]) -> RowReport {
    let mut pairs: Vec<(i16, usize)> = raws.iter().copied().zip(0..).collect();
    let first = |pairs: &[(i16, usize)]| pairs.first().map(|&(raw, page)| Extreme { raw, page });
    pairs.sort();
    let smallest = first(&pairs);
    pairs.sort_by_key(|&(raw, page)| (Reverse(raw), page));
    let largest = first(&pairs);
    let mut times: BTreeMap<i16, i64> = BTreeMap::new();
    for &raw in raws {
        *times.entry(raw).or_default() += 1;
    }
    let sum = times
        .iter()
        .map(|(&raw, times)| i64::from(raw) * times)
        .sum();
    RowReport {
        count: raws.len(),
        smallest,
        largest,
        sum,
        mean: (!raws.is_empty()).then_some((sum, raws.len())),
    }
}

#[test]
fn after_each_page_the_report_is_that_of_the_whole_list() {
    let mut rng = Rng::new(9);
    for width in [1, 2, 3, 10, 1_000, 65_536] {
        for _ in 0..20 {
            let mut report = Report::default();
            let mut raws: [Vec<i16>; ROWS] = Default::default();
            let shifts = [(); ROWS].map(|()| rng.below(65_536));
            for count in 0..30 {
                assert_eq!(report.count(), count);
                for (row, raws) in raws.iter().enumerate() {
                    assert_eq!(report.row(row), sorted_look(raws));
                }
                let rows = shifts.map(|shift| (shift + rng.below(width)) as u16 as i16);
                for (raws, raw) in raws.iter_mut().zip(rows) {
                    raws.push(raw);
                }
                report.offer(rows).unwrap();
            }
        }
    }
}

#[test]
fn a_page_offered_after_65535_is_refused_and_changes_nothing() {
    let mut report = Report::default();
    for k in 0..65_535 {
        let mut rows = [0; ROWS];
        (rows[1], rows[2]) = (i16::MIN, i16::MAX);
        // goes from 0 up to 32,767, then from -32,768 up to -2
        rows[3] = k as u16 as i16;
        assert_eq!(report.offer(rows), Ok(()));
    }
    let before = report.clone();
    for rows in [[i16::MIN; ROWS], [i16::MAX; ROWS], [0; ROWS]] {
        let refusal = Refusal::new(30, 65_535usize);
        assert_eq!(report.offer(rows), Err(refusal));
        assert_eq!(report, before);
    }
    assert_eq!(report.count(), MOST_PAGES);
    for (row, expected) in [
        (0, "smallest 0 page 0 largest 0 page 0 sum 0 mean 0/65535"),
        (
            1,
            "smallest -32768 page 0 largest -32768 page 0 sum -2147450880 mean -2147450880/65535",
        ),
        (
            2,
            "smallest 32767 page 0 largest 32767 page 0 sum 2147385345 mean 2147385345/65535",
        ),
        // all numbers but -1 add up to -32,768 + 1
        (
            3,
            "smallest -32768 page 32768 largest 32767 page 32767 sum -32767 mean -32767/65535",
        ),
    ] {
        let expected = format!("count 65535 {expected}");
        assert_eq!(report.row(row).to_string(), expected);
    }
}

#[test]
fn records_are_counted_on_after_the_last_page() {
    let full = pass(&[[0; ROWS]]).repeat(65_535);
    let row = "count 65535 smallest 0 page 0 largest 0 page 0 sum 0 mean 0/65535";
    let told_of = |files: &[&[u8]]| {
        let (first, last, rest) = told(files);
        assert_eq!((&*first, &*last), (row, row));
        rest
    };
    let rest = "heard 65535 accepted 65535 pages 65535";
    assert_eq!(told_of(&[&full]), rest);
    // neither a frame that is refused nor one without a page makes it full
    let none = [&[0; 212], &*bytes_of(&framed(&[7; 40]))].concat();
    let rest = "heard 65537 accepted 65536 pages 65535";
    assert_eq!(told_of(&[&full, &none]), rest);
    // two pages do, once; and what stands around them is counted
    let more = pass(&[[i16::MIN; ROWS], [i16::MAX; ROWS]]);
    let files = [&[0], &*full, &[&*none, &more, &none, &[0]].concat(), &more];
    let rest = "cut 0\ncut 2\nfull\nheard 65543 accepted 65541 pages 65535";
    assert_eq!(told_of(&files), rest);
}

#[test]
fn a_file_that_is_cut_ends_there_and_the_others_are_read() {
    let (one, two) = (pass_of(&[7]), pass_of(&[-3, 9]));
    let whole = "count 3 smallest -3 page 1 largest 9 page 2 sum 13 mean 13/3";
    let counts = "heard 3 accepted 3 pages 3";
    assert_eq!(told(&[&one, &two]).0, whole);
    assert_eq!(told(&[&one, &two]).2, counts);
    let mut cuts: Vec<Vec<u8>> = [1, 2, 100, 211, 212, 230, one.len() - 1]
        .iter()
        .map(|&end| one[..end].to_vec())
        .collect();
    // a length over 1,023 with all its bytes and a page after them
    let long = Record {
        payload: vec![0; 1_024],
        ..framed(&[])
    };
    cuts.push([&*bytes_of(&long), &two].concat());
    cuts.push([&[0xFF, 0xFF], &*two].concat());
    for cut in &cuts {
        let cut_one = [&*one, cut].concat();
        for (files, numbers) in [
            (vec![&*cut_one, &two], "cut 0"),
            (vec![&*one, &[&*two, cut].concat()], "cut 1"),
            (vec![cut, &one, &*two], "cut 0"),
            (vec![&*one, cut, cut, &two], "cut 1\ncut 2"),
            (vec![&*one, &two, &[], cut], "cut 3"),
        ] {
            let (first, _, rest) = told(&files);
            assert_eq!(first, whole);
            assert_eq!(rest, format!("{numbers}\n{counts}"));
        }
    }
    // ascending as numbers are, not as words
    let many: Vec<&[u8]> = vec![&[0]; 12];
    let numbers: String = (0..12).map(|number| format!("cut {number}\n")).collect();
    let rest = format!("{numbers}heard 0 accepted 0 pages 0");
    assert_eq!(told(&many).2, rest);
}

#[test]
fn frames_are_read_under_the_flown_edition_at_limit_42() {
    let mut faded = page_record(0, &[4; ROWS]);
    burst(&mut faded.header, 100, 42);
    let mut header = Header::default();
    header[Field::DfcId] = 1;
    let payload = faded.payload.clone();
    seal(Edition::Corrected, &mut header, &payload);
    let corrected = Record::new(&header, payload.clone());
    seal(Edition::Flown, &mut header, &payload);
    let flown = Record::new(&header, payload);
    let lines = |record: &Record| told(&[&bytes_of(record)]).2;
    assert_eq!(lines(&faded), "heard 1 accepted 1 pages 1");
    assert_eq!(lines(&flown), "heard 1 accepted 1 pages 1");
    assert_eq!(lines(&corrected), "heard 1 accepted 0 pages 0");
}

fn season(options: &Options) -> Vec<u8> {
    let mut bytes = Vec::new();
    write_season(options, &mut bytes).unwrap();
    bytes
}

/// A season of pages, each row in its band.
fn rows_season(seed: u64, records: u64, clean: bool) -> Options {
    Options {
        edition: Edition::Flown,
        seed,
        records,
        payload: None,
        pages: false,
        rows: true,
        clean,
        cut: None,
        full: None,
    }
}

/// The records of a season that is not cut.
fn records_of(mut bytes: &[u8]) -> Vec<Record> {
    let mut records = Vec::new();
    while let Some((length, rest)) = bytes.split_first_chunk() {
        let (header, rest) = rest.split_first_chunk().unwrap();
        let (payload, rest) = rest.split_at(u16::from_be_bytes(*length).into());
        records.push(Record {
            header: *header,
            payload: payload.to_vec(),
        });
        bytes = rest;
    }
    records
}

#[test]
fn a_season_of_rows_is_reported_like_the_list_of_its_pages() {
    for seed in 0..30 {
        let bytes = season(&rows_season(seed, 25, true));
        let mut raws: [Vec<i16>; ROWS] = Default::default();
        for record in records_of(&bytes) {
            let rows = read_page(&record.payload).unwrap().rows;
            for (raws, raw) in raws.iter_mut().zip(rows) {
                raws.push(raw);
            }
        }
        let text = reported(&[&bytes]);
        let lines: Vec<&str> = text.lines().collect();
        assert_eq!(lines.len(), 19);
        for (row, raws) in raws.iter().enumerate() {
            assert!(lines[1 + row].ends_with(&format!(" {}", sorted_look(raws))));
        }
        assert_eq!(lines[18], "heard 25 accepted 25 pages 25");
    }
}

#[test]
fn seasons_of_rows_have_ties_and_the_limits() {
    let (mut ties, mut least, mut most) = ([0; 2], 0, 0);
    for seed in 0..20 {
        let mut report = Report::default();
        let pages: Vec<[i16; ROWS]> = records_of(&season(&rows_season(seed, 25, true)))
            .iter()
            .map(|record| read_page(&record.payload).unwrap().rows)
            .collect();
        for &rows in &pages {
            report.offer(rows).unwrap();
        }
        for row in 0..ROWS {
            let told = report.row(row);
            for (ties, extreme) in ties.iter_mut().zip([told.smallest, told.largest]) {
                let Extreme { raw, page } = extreme.unwrap();
                let later = pages[page + 1..].iter().any(|rows| rows[row] == raw);
                *ties += u32::from(page > 0 && later);
            }
            least += u32::from(told.smallest.unwrap().raw == i16::MIN);
            most += u32::from(told.largest.unwrap().raw == i16::MAX);
        }
    }
    assert!(ties.iter().all(|&ties| ties > 40), "{ties:?}");
    assert!(least > 20 && most > 20, "{least} {most}");
}

#[test]
fn the_stored_season_has_pages_with_more_than_28_flips() {
    // It is that of .ci/stored.
    let rules = Rules {
        edition: Edition::Flown,
        limit: LARGEST_LIMIT,
    };
    let records = records_of(&season(&rows_season(28, 40, false)));
    let heard = records
        .iter()
        .filter_map(|r| read_frame(rules, None, &r.header, &r.payload).ok());
    assert!(heard.filter(|heard| heard.flips() > 28).count() > 1);
}

#[test]
fn full_seasons_of_rows_have_65535_pages_and_one_more() {
    let lines = |full| {
        let options = Options {
            full: Some(full),
            cut: Some(Cut::Lone),
            ..rows_season(3, 7, true)
        };
        told(&[&season(&options)]).2
    };
    let exact = "cut 0\nheard 65535 accepted 65535 pages 65535";
    assert_eq!(lines(Full::Exact), exact);
    let one_more = "cut 0\nfull\nheard 65536 accepted 65536 pages 65535";
    assert_eq!(lines(Full::OneMore), one_more);
}

/// A file with these bytes for as long as it is kept.
struct Kept(String);

impl Kept {
    fn new(name: &str, bytes: &[u8]) -> Kept {
        let name = format!("independent-report-{}.{name}", std::process::id());
        let file = std::env::temp_dir().join(name);
        std::fs::write(&file, bytes).unwrap();
        Kept(file.to_str().unwrap().to_string())
    }
}

impl Drop for Kept {
    fn drop(&mut self) {
        let _ = std::fs::remove_file(&self.0);
    }
}

#[test]
fn the_program_reports_its_files_in_order_or_standard_input() {
    let (one, two) = (pass_of(&[7]), [&*pass_of(&[-3, 7]), &[0]].concat());
    let (Kept(first), Kept(second)) = (&Kept::new("one", &one), &Kept::new("two", &two));
    let (first, second) = (first.as_str(), second.as_str());
    let report = |files: &[&str], input: &[u8]| {
        let output = run(&[&["report"], files].concat(), input);
        assert!(output.status.success() && output.stderr.is_empty());
        String::from_utf8(output.stdout).unwrap()
    };
    assert_eq!(report(&[], &one), reported(&[&one]));
    assert_eq!(report(&["-"], &one), reported(&[&one]));
    assert_eq!(report(&[], &[]), reported(&[]));
    assert_eq!(report(&[second], &one), reported(&[&two]));
    assert_eq!(report(&[first, second], &[]), reported(&[&one, &two]));
    assert_eq!(report(&[second, first], &[]), reported(&[&two, &one]));
    let files = [second, "-", second];
    assert_eq!(report(&files, &one), reported(&[&two, &one, &two]));
    // standard input that is named again has nothing left, also where it was cut
    let cut = [&[0xFF, 0xFF], &*one].concat();
    assert_eq!(report(&["-", "-"], &cut), reported(&[&cut, &[]]));
}

#[test]
fn no_report_is_written_where_a_file_cannot_be_read() {
    let one = pass_of(&[7]);
    let Kept(file) = &Kept::new("whole", &one);
    let folder = std::env::temp_dir();
    let folder = folder.to_str().unwrap();
    for files in [
        [file, "no such file"],
        ["no such file", "-"],
        [folder, file],
    ] {
        let output = run(&[&["report"], &files[..]].concat(), &one);
        assert_eq!(output.status.code(), Some(1));
        assert!(output.stdout.is_empty() && !output.stderr.is_empty());
    }
    let output = run(&["report", file, "--edition", "flown"], &[]);
    assert_eq!(output.status.code(), Some(2));
    assert!(output.stdout.is_empty());
}

#[test]
fn pages_are_written_from_lines() {
    let lines =
        "-32768 32767 0 1 -1 2 3 4 5 6 7 8 9 10 11 12 13\n  0 0 0 0 0 0 0 0\t0 0 0 0 0 0 0 0 -5 \n";
    let written = run(&["page-write"], lines.as_bytes());
    assert!(written.status.success() && written.stderr.is_empty());
    let rows: Vec<_> = records_of(&written.stdout)
        .iter()
        .map(|record| read_page(&record.payload).unwrap().rows)
        .collect();
    let first = [
        -32_768, 32_767, 0, 1, -1, 2, 3, 4, 5, 6, 7, 8, 9, 10, 11, 12, 13,
    ];
    let mut second = [0; ROWS];
    second[16] = -5;
    assert_eq!(rows, [first, second]);
    assert!(told(&[&written.stdout]).2.ends_with("accepted 2 pages 2"));
    let zeros = "0 ".repeat(16);
    for wrong in [
        "",
        "0",
        &zeros,
        &format!("{zeros} 0 0"),
        &format!("{zeros} 32768"),
    ] {
        let output = run(&["page-write"], format!("{lines}{wrong}\n").as_bytes());
        assert_eq!(output.status.code(), Some(1));
        assert_eq!(output.stdout, written.stdout);
        let told = b"independent: line 3 is not 17 numbers from -32768 to 32767\n";
        assert_eq!(output.stderr, told);
    }
}
