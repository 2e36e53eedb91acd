"""What --help says."""

ALL = """\
usage: nolbreva COMMAND [OPTION ..] [WORD ..]

  list [FILE ..]                the listing of standard input, or of each file
  sheet [FILE ..]               the pass sheet of standard input, or of each file
  page [FILE]                   the power pages of standard input, or of a file: names, raw and shown values, units
  report [FILE ..]              one report over the power pages of standard input, or of all files: extremes, sums, means
  search [FILE]                 the headers in a recording of bits, one a byte: standard input, or a file
  write [FIELD=VALUE ..]        a record of these fields and of a payload, to standard output
  unpack [FILE]                 the records of standard input, or of a file, as lines of text
  pack [FILE]                   such lines, also made by hand, as records
  beesat [FILE]                 a line for each BEESAT-1 frame of standard input, or of a file
  beesat-set FIELD VALUE [FILE] the BEESAT-1 frame on standard input, or in a file, with one field written
  explain [NUMBER [PLACE]]      what a refusal means
  replay SEED N                 a season of N records, listed by this program and by an independent one, and compared
  bench                         how fast the two list the same passes
  help [COMMAND]                this text, or that of a command; so does --help after a command
  --version                     the version, the commit and the kit

Status 0; 1 where a read or a write failed, a replay found a difference, a strict listing or an unpacking was cut, a line is
wrong, or a field or a payload was refused; 2 where a command or a file cannot be used.
"""

COMMANDS = {
    "list": """\
usage: nolbreva list [--edition E] [--names | --jsonl | --csv] [--strict] [--] [FILE ..]

The listing of standard input, or one listing for each file in turn; the file - is standard input.

  --edition E    reads all frames under this edition: flown (S-NET; so where none is named) or corrected (SALSAT)
  --names        puts the line '==> NAME <==' before each listing
  --jsonl        writes each line as an object, one a line (JSON Lines), with the file's name, every value of the line by
                 name and a refusal's meaning; docs/DATABASE.md has the names
  --csv          writes the same as CSV (RFC 4180), with one header line
  --strict       where a listing ends with `cut`, tells at which byte and why, and ends with status 1
""",
    "sheet": """\
usage: nolbreva sheet [--edition E] [--names] [--] [FILE ..]

The pass sheet of standard input, or one sheet for each file in turn; the file - is standard input. A line for each source
that was heard: frames accepted and bits repaired, in all and in its two lanes, and in each lane the frames missed, the
repeats and the last frame counter, `-` where there is none. Then a line for each refusal that was given, and how many
frames it was given to; `cut` where the listing has it; and the listing's last line.

  --edition E    reads all frames under this edition: flown (S-NET; so where none is named) or corrected (SALSAT)
  --names        puts the line '==> NAME <==' before each sheet
""",
    "page": """\
usage: nolbreva page [--] [FILE]

The power pages in the records of standard input, of the file, or of the file -, which is standard input. Whoever calls it says
that the payloads are power pages of S-NET; the frames are read under the flown edition. For each accepted record whose
payload reads as a power page a line with the source, and 17 lines, one a row: its name, the raw number and the spread S, the
number shown with its unit, and the bits of the f64 in hex. Any other record has its refusal: 9 to 12 where its payload is no
power page. The number shown is raw / S, exactly; for the four charger currents it is the nearest decimal of four places.
""",
    "report": """\
usage: nolbreva report [--jsonl | --csv] [--] [FILE ..]

One report over the power pages of all files in order, or of standard input; the file - is standard input. A page is an accepted
record whose payload reads as a power page, as for `page`; pages are numbered from 0, over all files. A line for each of the 17
rows: the count, the smallest and the largest raw number, each with the first page that had it, the sum, and the mean as sum
over count; `-` where there is no page. Then `cut N` for each file, from 0, that ends within a record or has a length over
1,023; `full` where there were more than 65,535 pages, of which the first 65,535 count; and the records heard, those accepted
as frames and the pages. Where a file cannot be read to its end there is no report, and the status is 1.

  --jsonl        writes each line as an object, one a line (JSON Lines), with the unit, and the shown value of the smallest,
                 the largest and the mean as a fraction, which is exact, and as a decimal, which is the nearest one of eight
                 places where it would not end; docs/DATABASE.md has the names
  --csv          writes the same as CSV (RFC 4180), with one header line
""",
    "search": """\
usage: nolbreva search [--edition E] [--] [FILE]

The headers in a recording of bits, one a byte, each 0 or 1: standard input, the file, or the file -, which is standard input.
A line for each place where the marker 0x20F3FA13 is followed by 210 more bits, as they come, and the counts. Where a byte is
above 1, or after 4294967295 bits, `stopped NUMBER INDEX` stands before the last line, and nothing more is read.

  --edition E    reads all headers under this edition: flown (S-NET; so where none is named) or corrected (SALSAT)
""",
    "write": """\
usage: nolbreva write [--edition E] [FIELD=VALUE ..] [--payload HEX | --payload-file FILE]

Writes one record to standard output: the payload's length, the 210 header bytes, and the payload. PduLength and both
checksums are worked out. FIELD is SrcId, DstId, FrCntTx, FrCntRx, SNR, AiTypeSrc, AiTypeDst, DfcId, Caller, Arq, PduTypeId,
BchRq, Hailing or UdFl1, in letters of any case; a field that is not named is 0. Where that is refused, the refusal and what
it means are told on standard error, nothing is written, and the status is 1.

  --edition E          writes under this edition: flown (S-NET; so where none is named) or corrected (SALSAT)
  --payload HEX        the payload in hexadecimal digits, two a byte
  --payload-file FILE  the payload is all of the file; the file - is standard input. Without either it is empty
""",
    "unpack": """\
usage: nolbreva unpack [--] [FILE]

A line of text for each record of standard input, of the file, or of the file -, which is standard input: the 210 header
bytes as digits 0 and 1, or as 420 hex digits where one of them is above 1; then, where there is a payload, a space and two
hex digits for each of its bytes. Where what is left is no record, at which byte and why is told, and the status is 1.
""",
    "pack": """\
usage: nolbreva pack [--] [FILE]

The way back: a record for each line of standard input, of the file, or of the file -, which is standard input. Empty lines
and those that start with # are passed over; hex digits may be capitals; a carriage return before the line feed is taken, and
so is a last line without one. A line has at most 4,095 letters. Where a line is wrong, line, column and cause are told, the
records before it are written, and the status is 1.
""",
    "beesat": """\
usage: nolbreva beesat [--] [FILE]

A line for each frame of BEESAT-1: frames of 144 bytes one after another, on standard input, in the file, or in the file -,
which is standard input. A rest under 144 bytes prints `cut` before the last line and is not counted.
""",
    "beesat-set": """\
usage: nolbreva beesat-set [--] FIELD VALUE [FILE]

Takes one frame of BEESAT-1, all of standard input or of the file, and writes it to standard output with the value in that
field and the error field worked out afresh. FIELD and VALUE are decimal digits, up to 4294967295. Fields: 0 to 15 the
values, 16 to 79 the state bits, 80 to 85 VCID, MCFC, VCFC, APID, sequence flag, PSC. Where that is refused, `refused NUMBER
PLACE` is told on standard error, nothing is written, and the status is 1.
""",
    "explain": """\
usage: nolbreva explain [NUMBER [PLACE]]

What a refusal means, by its number and its place in a listing, as `explain 3 4` for the line `7 refused 3 4`; without a
place, what its place is; without a number, all of docs/REFUSALS.md's table.
""",
    "replay": """\
usage: nolbreva replay [--edition E] [--sheet] SEED N [OPTION ..]
       nolbreva replay --recording SEED N [--edition E] [--gap G] [--bad]
       nolbreva replay --write SEED N
       nolbreva replay --page SEED N [--clean] [--full] [--full-exact] [--cut KIND]
       nolbreva replay --report SEED N [--clean] [--full] [--full-exact] [--cut KIND]
       nolbreva replay --beesat SEED N [--clean] [--cut L]
       nolbreva replay --pack SEED N [--payload L]

Makes a season of N records by chance, the same for the same words, lists it by this program and by the independent one,
and compares every line. Status 1 where they differ.

  --edition E     makes and lists the season under this edition: flown (so where none is named) or corrected
  --sheet         compares the pass sheets of the season in place of its listings
  --payload L     all payloads have L bytes, 0 to 1023
  --clean         only frames that are accepted, with light damage
  --full          65536 short records in place of N: they fill a sheet, and the last one cuts
  --full-exact    65535 short records in place of N
  --cut KIND      then a rest that is no whole record: length, lone, header or payload (independent/README.md)
  --recording     a recording of N bits, searched, in place of records; --gap G: at most G bits of noise between markers and
                  headers, 0 to 60000; --bad: then a byte above 1, and more bits
  --write         N records written by both from the same fields and payloads, at and past the limits too, every byte and
                  every refusal compared
  --page          records whose payloads are power pages, or nearly so, and their pages in place of the listing
  --report        records whose payloads are power pages, and the report over them in place of the listing; with --full the last
                  page is one more than a report takes, and none of the records cuts
  --pack          the records unpacked by both programs and packed again by both, and compared with the season
  --beesat        N frames of BEESAT-1 in place of records; --clean: only frames that read well; --cut L: then L bytes, 0 to 143
""",
    "bench": """\
usage: nolbreva bench

How fast this program and the independent one list the same passes, and the ratio; docs/BENCHMARKS.md says what is
measured. On a processor other than x86-64 this program runs under an emulator and is not measured.
""",
    "help": """\
usage: nolbreva help [COMMAND]
""",
}
