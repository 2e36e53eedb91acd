//! The program as it is called.

use std::process::{Command, Stdio};

use running::run;

mod running;

#[test]
fn standard_input_is_listed() {
    let output = run(&["list"], &[0; 212]);
    let expected = "pass sheet\n0 refused 4 6\nheard 1 accepted 0 refused 1\n";
    assert_eq!(String::from_utf8(output.stdout).unwrap(), expected);
    assert!(output.stderr.is_empty());
    assert!(output.status.success());
}

#[test]
fn a_cut_is_no_failure() {
    let output = run(&["list"], &[0]);
    assert_eq!(
        output.stdout,
        b"pass sheet\ncut\nheard 0 accepted 0 refused 0\n"
    );
    assert!(output.stderr.is_empty());
    assert!(output.status.success());
}

#[test]
fn files_are_listed_in_turn_and_a_missing_one_is_told() {
    let file = std::env::temp_dir().join(format!("independent-{}.pass", std::process::id()));
    std::fs::write(&file, [0; 212]).unwrap();
    let name = file.to_str().unwrap();
    let output = run(&["list", name, "no such file", name], &[]);
    std::fs::remove_file(&file).unwrap();
    let once = "pass sheet\n0 refused 4 6\nheard 1 accepted 0 refused 1\n";
    assert_eq!(String::from_utf8(output.stdout).unwrap(), once.repeat(2));
    assert!(String::from_utf8(output.stderr)
        .unwrap()
        .contains("no such file"));
    assert_eq!(output.status.code(), Some(1));
}

#[test]
fn seasons_are_made_by_their_arguments() {
    let output = run(
        &[
            "season",
            "5",
            "20",
            "--payload",
            "3",
            "--clean",
            "--cut",
            "lone",
        ],
        &[],
    );
    assert_eq!(output.stdout.len(), 20 * 215 + 1);
    assert!(output.status.success());
    let listing = run(&["list"], &output.stdout);
    assert!(listing
        .stdout
        .ends_with(b"\ncut\nheard 20 accepted 20 refused 0\n"));
}

#[test]
fn an_edition_is_named_by_its_word() {
    let season =
        |words: &[&str]| run(&[&["season", "5", "20", "--clean"], words].concat(), &[]).stdout;
    let list = |words: &[&str], input: &[u8]| {
        let output = run(&[&["list"], words].concat(), input);
        assert!(output.status.success() && output.stderr.is_empty());
        String::from_utf8(output.stdout).unwrap()
    };
    let flown = season(&["--edition", "flown"]);
    assert_eq!(season(&[]), flown);
    assert_eq!(list(&["--edition", "flown"], &flown), list(&[], &flown));
    assert!(list(&[], &flown).contains(" radio "));
    let corrected = season(&["--edition", "corrected"]);
    let lines = list(&["--edition", "corrected"], &corrected);
    assert!(lines.ends_with("\nheard 20 accepted 20 refused 0\n"));
    assert_eq!(lines.matches(" accepted source ").count(), 20);
    assert!(list(&[], &corrected).contains(" refused 4 "));
}

#[test]
fn vectors_example_and_help_are_printed() {
    assert_eq!(
        run(&["vectors", "encode"], &[])
            .stdout
            .iter()
            .filter(|&&b| b == b'\n')
            .count(),
        32
    );
    assert_eq!(run(&["inputs", "words", "7"], &[]).stdout.len(), 131_072);
    assert_eq!(run(&["replies", "encode"], &[]).stdout.len(), 96);
    assert!(!run(&["example"], &[]).stdout.is_empty());
    assert!(run(&["catches"], &[]).stdout.starts_with(b"crc5 flown\n"));
    assert!(run(&["help"], &[]).stdout.starts_with(b"usage: "));
}

#[test]
fn replies_in_files_are_compared() {
    let file = |name: &str, bytes: &[u8]| {
        let file = std::env::temp_dir().join(format!("independent-{}.{name}", std::process::id()));
        std::fs::write(&file, bytes).unwrap();
        file.to_str().unwrap().to_string()
    };
    let inputs = file("inputs", &run(&["inputs", "crc5"], &[]).stdout);
    let mut bytes = run(&["replies", "crc5"], &[]).stdout;
    let same = file("same", &bytes);
    bytes[3] ^= 1;
    let other = file("other", &bytes);

    let output = run(&["compare", "crc5", &inputs, &same], &[]);
    assert_eq!(output.stdout, b"1264 records compared, 0 differ\n");
    assert!(output.status.success());
    let output = run(&["compare", "crc5", &inputs, &other], &[]);
    let told = String::from_utf8(output.stdout).unwrap();
    assert!(told.starts_with("record 3 (crc5), byte 0\n"));
    assert!(told.ends_with("\n1264 records compared, 1 differ\n"));
    assert_eq!(output.status.code(), Some(1));
    // inputs that are no records, and a file that is not there
    for arguments in [["headers", &inputs, &same], ["crc5", "no such file", &same]] {
        let output = run(&[&["compare"], &arguments[..]].concat(), &[]);
        assert_eq!(output.status.code(), Some(1));
        assert!(!output.stderr.is_empty());
    }
    for file in [inputs, same, other] {
        std::fs::remove_file(file).unwrap();
    }
}

#[test]
fn bad_arguments_are_told_with_status_2() {
    let bad: [&[&str]; 21] = [
        &[],
        &["lists"],
        &["season"],
        &["season", "1"],
        &["season", "1", "x"],
        &["season", "-1", "5"],
        &["season", "1", "5", "--payload", "1024"],
        &["season", "1", "5", "--cut", "paper"],
        &["season", "1", "5", "--loud"],
        &["season", "1", "5", "--edition", "Flown"],
        &["season", "1", "5", "--edition"],
        &["list", "--edition"],
        &["list", "--edition", "second", "no such file"],
        &["vectors"],
        &["vectors", "nothing"],
        &["inputs", "words", "1", "2"],
        &["replies"],
        &["compare", "words", "inputs"],
        &["compare", "nothing", "inputs", "replies"],
        &["example", "2"],
        &["catches", "crc5"],
    ];
    for arguments in bad {
        let output = run(arguments, &[]);
        assert_eq!(output.status.code(), Some(2), "{arguments:?}");
        assert!(output.stdout.is_empty());
        assert!(String::from_utf8(output.stderr)
            .unwrap()
            .contains("usage: "));
    }
}

#[test]
fn a_reader_that_goes_away_is_no_failure() {
    let mut child = Command::new(env!("CARGO_BIN_EXE_independent"))
        .args(["season", "1", "100000"])
        .stdout(Stdio::piped())
        .stderr(Stdio::piped())
        .spawn()
        .unwrap();
    drop(child.stdout.take());
    let output = child.wait_with_output().unwrap();
    assert!(output.stderr.is_empty());
    assert!(output.status.success());
}

#[test]
fn a_record_is_written_or_its_refusal_told() {
    let zeros = ["0"; 14];
    let write = |edition: &str, values: &[&str], payload: &[u8]| {
        run(&[&["write", edition], values].concat(), payload)
    };
    let record = write("flown", &zeros, b"abc");
    assert!(record.status.success() && record.stderr.is_empty());
    let listing = run(&["list"], &record.stdout).stdout;
    let expected = "pass sheet\n0 accepted A radio 1 tx 0 repaired 0 worst 0 bytes 3\nheard 1 accepted 1 refused 0\n";
    assert_eq!(String::from_utf8(listing).unwrap(), expected);
    let mut values = zeros;
    values[0] = "8";
    assert!(write("corrected", &values, b"").status.success());
    let refused = write("flown", &values, b"");
    assert_eq!(refused.stdout, b"");
    assert_eq!(refused.stderr, b"independent: refused 14 0\n");
    assert_eq!(refused.status.code(), Some(1));
    let long = write("flown", &zeros, &[0; 5_000]);
    assert_eq!(long.stderr, b"independent: refused 15 5000\n");
    for wrong in [&zeros[1..], &["x"; 14], &["0"; 15]] {
        assert_eq!(write("flown", wrong, b"").status.code(), Some(2));
    }
    assert_eq!(write("new", &zeros, b"").status.code(), Some(2));
}

#[test]
fn cases_of_records_are_answered_line_by_line() {
    let cases = run(&["write-season", "3", "40"], &[]).stdout;
    let answers = run(&["writes"], &cases);
    assert!(answers.status.success());
    assert_eq!(
        String::from_utf8(answers.stdout).unwrap().lines().count(),
        40
    );
    let wrong = run(&["writes"], b"flown 1\n");
    assert_eq!(wrong.status.code(), Some(1));
    assert_eq!(run(&["write-season", "3"], &[]).status.code(), Some(2));
}
