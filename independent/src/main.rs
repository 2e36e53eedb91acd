//! The commands of the second implementation.

use std::env;
use std::ffi::{OsStr, OsString};
use std::fs::{self, File};
use std::io::{self, BufReader, BufWriter, ErrorKind, Read, StdoutLock, Write};
use std::path::Path;
use std::process::ExitCode;
use std::slice;

use independent::beesat::commands::{list_frames, set_field};
use independent::beesat::{self, FRAME_BYTES};
use independent::catches::write_catches;
use independent::example::write_example;
use independent::header::LONGEST_PAYLOAD;
use independent::listing::{list, Failure};
use independent::packing::{pack, unpack};
use independent::pages::list_pages;
use independent::recording::{self, write_recording};
use independent::report::PassReport;
use independent::rows::write_pages;
use independent::rules::Edition;
use independent::search::search;
use independent::season::{write_season, Cut, Full, Options};
use independent::totals::write_sheet;
use independent::vectors::{self, compare, write_inputs, write_lines, write_replies, KINDS};
use independent::writing::{self, answer_cases, edition_named, write_cases, Case};

const USAGE: &str = "\
usage: independent COMMAND ..

  list [--edition E] [FILE ..]
                           the listing of standard input, or of each file in turn
  sheet [--edition E] [FILE ..]
                           the pass sheet of standard input, or of each file in turn
  season SEED N [OPTION ..]
                           N records by chance; SEED and N are whole numbers
      --edition E          the edition that they are written under
      --payload L          all payloads have L bytes, 0 to 1023
      --pages              the payloads are power pages, or nearly so
      --rows               the payloads are power pages; each row has a band of numbers of its own
      --clean              only frames that are accepted, with light damage
      --full               65536 short records: they fill a sheet, and the last one cuts
      --full-exact         65535 short records
      --cut KIND           then a rest that is no whole record; KIND is
                             length   a record with a length over 1023
                             lone     one byte of a length
                             header   a record that ends in its header bytes
                             payload  a record that ends in its payload
  page [FILE]              the power pages of the records in the file, or on standard input (-)
  report [FILE ..]         one report over the power pages of all files in order, or of standard
                           input (-): count, smallest, largest, sum and mean of each row
  page-write [FILE]        a record for each line of 17 numbers, the rows of its power page
  example                  the records of a small example pass
  catches                  which changes of a header CRC5 does not see, and what CRC13 does not
  search [--edition E] [FILE]
                           the headers in a recording of bits, one a byte: the file, or standard
                           input (-)
  recording SEED N [OPTION ..]
                           a recording of N bits by chance
      --gap G              at most G bits of noise between markers and headers, 0 to 60000
      --bad                then a byte above 1, and more bits
  write EDITION V0 .. V13  the record of fields 0 to 13 and of the payload on standard input
  write-season SEED N      N cases of that by chance, a line each
  writes                   the answers to the cases on standard input, a line each
  beesat [FILE]            a line for each BEESAT-1 frame of the file, or of standard input (-)
  beesat-set FIELD VALUE [FILE]
                           the frame with one field written; FIELD and VALUE are decimal digits
  beesat-season SEED N [OPTION ..]
                           N BEESAT-1 frames by chance
      --clean              only frames that read well
      --cut L              then L bytes of one more frame, 0 to 143
  unpack [FILE]            the records of the file, or of standard input (-), as lines of text
  pack [FILE]              such lines as records
  vectors KIND [SEED]      a line for each input of KIND
  inputs KIND [SEED]       the inputs themselves, in binary
  replies KIND [SEED]      the replies to them, in binary
  compare KIND INPUTS REPLIES
                           the replies of another program, in the file REPLIES, to the inputs in the
                           file INPUTS: every one that differs, and how many
  help                     this text

An edition E is flown or corrected; flown where none is named. KIND of vectors is one of
 ";

/// Bytes that are read or written at a time.
const BUFFER: usize = 1 << 16;

/// Why the program ends before its time.
enum Stop {
    /// The arguments are not understood.
    Usage(String),
    /// What could not be read or written.
    Failed { what: String, error: io::Error },
}

type Output = BufWriter<StdoutLock<'static>>;

fn main() -> ExitCode {
    let arguments: Vec<OsString> = env::args_os().skip(1).collect();
    let mut out = BufWriter::with_capacity(BUFFER, io::stdout().lock());
    let done = run(&arguments, &mut out);
    match done.and_then(|all_read| out.flush().map_err(failed_write).map(|()| all_read)) {
        Ok(true) => ExitCode::SUCCESS,
        Ok(false) => ExitCode::FAILURE,
        // Whoever read the output has all that was wanted.
        Err(Stop::Failed { error, .. }) if error.kind() == ErrorKind::BrokenPipe => {
            ExitCode::SUCCESS
        }
        Err(Stop::Failed { what, error }) => {
            tell(&format!("{what}: {error}"));
            ExitCode::FAILURE
        }
        Err(Stop::Usage(problem)) => {
            tell(&format!("{problem}\n\n{}", usage()));
            ExitCode::from(2)
        }
    }
}

/// Tells on standard error; where that fails too, nobody is left to tell.
fn tell(message: &str) {
    let _ = writeln!(io::stderr(), "independent: {message}");
}

fn usage() -> String {
    let kinds = KINDS.map(|(name, _)| format!(" {name}")).concat();
    format!("{USAGE}{kinds}")
}

fn failed_write(error: io::Error) -> Stop {
    Stop::Failed {
        what: String::from("standard output"),
        error,
    }
}

fn failed_read(error: io::Error) -> Stop {
    Stop::Failed {
        what: String::from("standard input"),
        error,
    }
}

/// Runs a command; false where some input could not be read or replies differ, which was told already.
fn run(arguments: &[OsString], out: &mut Output) -> Result<bool, Stop> {
    let Some((command, rest)) = arguments.split_first() else {
        return Err(Stop::Usage(String::from("no command")));
    };
    let written = match command.to_str() {
        Some("list") => return list_all(Told::Records, rest, out),
        Some("sheet") => return list_all(Told::Sheet, rest, out),
        Some("season") => write_season(&season_options(rest)?, out),
        Some("example") => {
            no_more(rest)?;
            write_example(out)
        }
        Some("catches") => {
            no_more(rest)?;
            write_catches(out)
        }
        Some("search") => return search_one(rest, out),
        Some("recording") => write_recording(&recording_options(rest)?, out),
        Some("write") => return write_one(rest, out),
        Some("write-season") => {
            let mut rest = rest.iter();
            let seed = number(rest.next(), "SEED", u64::MAX)?;
            let cases = number(rest.next(), "N", u64::MAX)?;
            no_more(rest.as_slice())?;
            write_cases(seed, cases, out)
        }
        Some("writes") => {
            no_more(rest)?;
            return answers(out);
        }
        Some("beesat") => {
            let (mut input, name) = input_of(rest)?;
            return listed(list_frames(&mut input, out), &name);
        }
        Some("page") => {
            let (mut input, name) = input_of(rest)?;
            return listed(list_pages(&mut BufReader::new(&mut input), out), &name);
        }
        Some("report") => return report_all(rest, out),
        Some("page-write") => return pages_of_lines(rest, out),
        Some("beesat-set") => return set_one(rest, out),
        Some("beesat-season") => beesat::season::write_season(&beesat_season_options(rest)?, out),
        Some("unpack") => {
            let (input, name) = input_of(rest)?;
            let cut = unpack(&mut BufReader::with_capacity(BUFFER, input), out);
            return told(cut, &name);
        }
        Some("pack") => {
            let (mut input, name) = input_of(rest)?;
            return told(pack(&mut input, out), &name);
        }
        Some("vectors") => {
            let (kind, seed) = vector_arguments(rest)?;
            write_lines(kind, seed, out)
        }
        Some("inputs") => {
            let (kind, seed) = vector_arguments(rest)?;
            write_inputs(kind, seed, out)
        }
        Some("replies") => {
            let (kind, seed) = vector_arguments(rest)?;
            write_replies(kind, seed, out)
        }
        Some("compare") => return compare_files(rest, out),
        Some("help" | "--help" | "-h") => writeln!(out, "{}", usage()),
        _ => return Err(Stop::Usage(format!("no command {}", quoted(command)))),
    };
    written.map(|()| true).map_err(failed_write)
}

/// What is told of an input of records.
#[derive(Clone, Copy)]
enum Told {
    /// A line for each.
    Records,
    /// The sheet that was offered them.
    Sheet,
}

/// Lists standard input, or each file; a file that cannot be read does not keep the next from being
/// listed.
fn list_all(told: Told, arguments: &[OsString], out: &mut Output) -> Result<bool, Stop> {
    let (edition, files) = match arguments {
        [option, rest @ ..] if option == "--edition" => {
            (edition(rest.first())?, rest.get(1..).unwrap_or_default())
        }
        files => (Edition::Flown, files),
    };
    if files.is_empty() {
        return list_one(told, edition, io::stdin().lock(), "standard input", out);
    }
    let mut all_read = true;
    for file in files {
        let name = Path::new(file).display().to_string();
        all_read &= match File::open(file) {
            Ok(input) => list_one(told, edition, input, &name, out)?,
            Err(error) => {
                tell(&format!("{name}: {error}"));
                false
            }
        };
    }
    Ok(all_read)
}

/// Lists one input; false where it could not be read to its end.
fn list_one(
    told: Told,
    edition: Edition,
    input: impl Read,
    name: &str,
    out: &mut Output,
) -> Result<bool, Stop> {
    let mut input = BufReader::with_capacity(BUFFER, input);
    let result = match told {
        Told::Records => list(edition, &mut input, out),
        Told::Sheet => write_sheet(edition, &mut input, out),
    };
    listed(result, name)
}

/// What came of a listing; false where its input could not be read to its end.
fn listed(result: Result<(), Failure>, name: &str) -> Result<bool, Stop> {
    match result {
        Ok(()) => Ok(true),
        Err(Failure::Read(error)) => {
            tell(&format!("{name}: {error}"));
            Ok(false)
        }
        Err(Failure::Write(error)) => Err(failed_write(error)),
    }
}

/// What came of an input that may stop being well: false where it did, or could not be read to its end.
fn told<T: std::fmt::Display>(
    result: Result<Option<T>, Failure>,
    name: &str,
) -> Result<bool, Stop> {
    match result {
        Ok(None) => Ok(true),
        Ok(Some(wrong)) => {
            tell(&wrong.to_string());
            Ok(false)
        }
        Err(failure) => listed(Err(failure), name),
    }
}

/// The one file of a command, with its name; standard input where there is none, or where it is `-`.
fn input_of(arguments: &[OsString]) -> Result<(Box<dyn Read>, String), Stop> {
    let (file, rest) = match arguments.split_first() {
        Some((file, rest)) if file != "-" => (Some(file), rest),
        Some((_, rest)) => (None, rest),
        None => (None, arguments),
    };
    no_more(rest)?;
    let Some(file) = file else {
        let input = io::stdin().lock();
        return Ok((Box::new(input), String::from("standard input")));
    };
    if file.to_str().is_some_and(|file| file.starts_with("--")) {
        return Err(Stop::Usage(format!("no option {}", quoted(file))));
    }
    let name = Path::new(file).display().to_string();
    match File::open(file) {
        Ok(input) => Ok((Box::new(input), name)),
        Err(error) => Err(Stop::Failed { what: name, error }),
    }
}

/// Writes one report over all files in order, or over standard input where there is none. A report that lacked a file would not be that
/// of the whole list, so none is written where one cannot be read.
fn report_all(arguments: &[OsString], out: &mut Output) -> Result<bool, Stop> {
    let standard_input = [OsString::from("-")];
    let files = if arguments.is_empty() {
        &standard_input
    } else {
        arguments
    };
    let mut report = PassReport::default();
    for (number, file) in files.iter().enumerate() {
        let (mut input, name) = input_of(slice::from_ref(file))?;
        // What a cut left of standard input is no second file.
        if file == "-" && files[..number].contains(file) {
            input = Box::new(io::empty());
        }
        let taken = report.take_file(&mut BufReader::with_capacity(BUFFER, input));
        if let Err(error) = taken {
            return Err(Stop::Failed { what: name, error });
        }
    }
    write!(out, "{report}").map(|()| true).map_err(failed_write)
}

/// Writes a record for each line of the rows of a page; false where a line was wrong, or could not be read.
fn pages_of_lines(arguments: &[OsString], out: &mut Output) -> Result<bool, Stop> {
    let (input, name) = input_of(arguments)?;
    let wrong = write_pages(&mut BufReader::with_capacity(BUFFER, input), out);
    told(wrong, &name)
}

/// Searches a recording; false where it could not be read to its end.
fn search_one(arguments: &[OsString], out: &mut Output) -> Result<bool, Stop> {
    let mut named = Edition::Flown;
    let mut files = Vec::new();
    let mut rest = arguments.iter();
    while let Some(argument) = rest.next() {
        if argument == "--edition" {
            named = edition(rest.next())?;
        } else {
            files.push(argument.clone());
        }
    }
    let (mut input, name) = input_of(&files)?;
    listed(search(named, &mut input, out), &name)
}

fn recording_options(arguments: &[OsString]) -> Result<recording::Options, Stop> {
    let mut rest = arguments.iter();
    let mut options = recording::Options {
        seed: number(rest.next(), "SEED", u64::MAX)?,
        bits: number(rest.next(), "N", u64::MAX)?,
        gap: recording::USUAL_GAP,
        bad: false,
    };
    while let Some(option) = rest.next() {
        match option.to_str() {
            Some("--gap") => {
                options.gap = number(rest.next(), "G", recording::LARGEST_GAP.into())? as u32;
            }
            Some("--bad") => options.bad = true,
            _ => return Err(Stop::Usage(format!("no option {}", quoted(option)))),
        }
    }
    Ok(options)
}

/// Writes one field of a BEESAT-1 frame; false where it was refused.
fn set_one(arguments: &[OsString], out: &mut Output) -> Result<bool, Stop> {
    let [field, value, rest @ ..] = arguments else {
        return Err(Stop::Usage(String::from(
            "beesat-set takes FIELD VALUE [FILE]",
        )));
    };
    let (field, value) = (digits(field, "FIELD")?, digits(value, "VALUE")?);
    let (mut input, what) = input_of(rest)?;
    match set_field(&mut input, field, value) {
        Err(error) => Err(Stop::Failed { what, error }),
        Ok(Err(refusal)) => {
            tell(&refusal.to_string());
            Ok(false)
        }
        Ok(Ok(frame)) => out.write_all(&frame).map(|()| true).map_err(failed_write),
    }
}

/// Writes the record of some fields and of the payload on standard input; false where it was refused.
fn write_one(arguments: &[OsString], out: &mut Output) -> Result<bool, Stop> {
    let usage = || {
        Stop::Usage(String::from(
            "write takes flown or corrected and 14 numbers",
        ))
    };
    let (named, numbers) = arguments.split_first().ok_or_else(usage)?;
    let numbers: Result<Vec<u32>, Stop> =
        numbers.iter().map(|number| digits(number, "V")).collect();
    let mut case = Case {
        edition: named.to_str().and_then(edition_named).ok_or_else(usage)?,
        given: numbers?.try_into().map_err(|_| usage())?,
        payload: Vec::new(),
    };
    let read = io::stdin().lock().read_to_end(&mut case.payload);
    read.map_err(failed_read)?;
    match writing::write_record(&case) {
        Err(refusal) => {
            tell(&refusal.to_string());
            Ok(false)
        }
        Ok(record) => record.write_to(out).map(|()| true).map_err(failed_write),
    }
}

/// Answers the cases on standard input.
fn answers(out: &mut Output) -> Result<bool, Stop> {
    let input = BufReader::with_capacity(BUFFER, io::stdin().lock());
    if answer_cases(input, out).map_err(failed_read)? {
        return Ok(true);
    }
    let wrong = io::Error::new(ErrorKind::InvalidData, "a line is no case");
    Err(failed_read(wrong))
}

/// "Decimal digits; anything else, or above 4,294,967,295, is a usage error."
fn digits(argument: &OsStr, name: &str) -> Result<u32, Stop> {
    argument
        .to_str()
        .filter(|text| text.bytes().all(|byte| byte.is_ascii_digit()))
        .and_then(|text| text.parse().ok())
        .ok_or_else(|| {
            let most = u32::MAX;
            Stop::Usage(format!("{name} wants decimal digits, at most {most}"))
        })
}

fn beesat_season_options(arguments: &[OsString]) -> Result<beesat::season::Options, Stop> {
    let mut rest = arguments.iter();
    let mut options = beesat::season::Options {
        seed: number(rest.next(), "SEED", u64::MAX)?,
        frames: number(rest.next(), "N", u64::MAX)?,
        clean: false,
        cut: 0,
    };
    while let Some(option) = rest.next() {
        match option.to_str() {
            Some("--clean") => options.clean = true,
            Some("--cut") => {
                options.cut = number(rest.next(), "L", FRAME_BYTES as u64 - 1)? as usize;
            }
            _ => return Err(Stop::Usage(format!("no option {}", quoted(option)))),
        }
    }
    Ok(options)
}

fn season_options(arguments: &[OsString]) -> Result<Options, Stop> {
    let mut rest = arguments.iter();
    let mut options = Options {
        edition: Edition::Flown,
        seed: number(rest.next(), "SEED", u64::MAX)?,
        records: number(rest.next(), "N", u64::MAX)?,
        payload: None,
        pages: false,
        rows: false,
        clean: false,
        cut: None,
        full: None,
    };
    while let Some(option) = rest.next() {
        match option.to_str() {
            Some("--edition") => options.edition = edition(rest.next())?,
            Some("--payload") => {
                let length = number(rest.next(), "L", LONGEST_PAYLOAD as u64)?;
                options.payload = Some(length as usize);
            }
            Some("--pages") => options.pages = true,
            Some("--rows") => options.rows = true,
            Some("--clean") => options.clean = true,
            Some("--full") => options.full = Some(Full::OneMore),
            Some("--full-exact") => options.full = Some(Full::Exact),
            Some("--cut") => options.cut = Some(cut_kind(rest.next())?),
            _ => return Err(Stop::Usage(format!("no option {}", quoted(option)))),
        }
    }
    Ok(options)
}

fn edition(argument: Option<&OsString>) -> Result<Edition, Stop> {
    let named = argument.and_then(|edition| edition.to_str());
    named
        .and_then(edition_named)
        .ok_or_else(|| Stop::Usage(String::from("--edition wants flown or corrected")))
}

fn cut_kind(argument: Option<&OsString>) -> Result<Cut, Stop> {
    match argument.and_then(|kind| kind.to_str()) {
        Some("length") => Ok(Cut::Length),
        Some("lone") => Ok(Cut::Lone),
        Some("header") => Ok(Cut::Header),
        Some("payload") => Ok(Cut::Payload),
        _ => Err(Stop::Usage(String::from(
            "--cut wants length, lone, header or payload",
        ))),
    }
}

/// Compares the replies in a file; false where they differ.
fn compare_files(arguments: &[OsString], out: &mut Output) -> Result<bool, Stop> {
    let [kind, inputs, replies] = arguments else {
        return Err(Stop::Usage(String::from(
            "compare takes KIND INPUTS REPLIES",
        )));
    };
    let kind = vector_kind(Some(kind))?;
    let Some(compared) = compare(kind, &read_file(inputs)?, &read_file(replies)?) else {
        return Err(Stop::Failed {
            what: Path::new(inputs).display().to_string(),
            error: io::Error::new(ErrorKind::InvalidData, "no whole records of that kind"),
        });
    };
    writeln!(out, "{compared}").map_err(failed_write)?;
    Ok(compared.differences.is_empty())
}

fn read_file(file: &OsStr) -> Result<Vec<u8>, Stop> {
    fs::read(file).map_err(|error| Stop::Failed {
        what: Path::new(file).display().to_string(),
        error,
    })
}

fn vector_kind(argument: Option<&OsString>) -> Result<vectors::Kind, Stop> {
    let name = argument.map(OsString::as_os_str).unwrap_or_default();
    let kind = name.to_str().and_then(vectors::Kind::named);
    kind.ok_or_else(|| Stop::Usage(format!("no kind {}", quoted(name))))
}

fn vector_arguments(arguments: &[OsString]) -> Result<(vectors::Kind, u64), Stop> {
    let mut rest = arguments.iter();
    let kind = vector_kind(rest.next())?;
    let seed = match rest.next() {
        None => vectors::DEFAULT_SEED,
        seed => number(seed, "SEED", u64::MAX)?,
    };
    no_more(rest.as_slice())?;
    Ok((kind, seed))
}

/// A whole number from 0 to `most`.
fn number(argument: Option<&OsString>, name: &str, most: u64) -> Result<u64, Stop> {
    let text = argument
        .and_then(|argument| argument.to_str())
        .unwrap_or_default();
    match text.parse() {
        Ok(value) if value <= most => Ok(value),
        _ => Err(Stop::Usage(format!(
            "{name} wants a whole number from 0 to {most}"
        ))),
    }
}

fn no_more(arguments: &[OsString]) -> Result<(), Stop> {
    match arguments.first() {
        None => Ok(()),
        Some(argument) => Err(Stop::Usage(format!("{} is too much", quoted(argument)))),
    }
}

fn quoted(argument: &OsStr) -> String {
    format!("'{}'", argument.to_string_lossy())
}
