"""The commands `report` and `replay --report`, over a program that is a script; and the rows that are made of stored reports."""

import csv
import decimal
import glob
import io
import json
import os
import re
import socket
import subprocess
import unittest
from fractions import Fraction
from unittest import mock

import replay
import report
from messages import Unusable
from tests.repository import TOP, Repository, builds

# Notes its words. A report is its title and what the files hold; or it tells what it finds in the file `told`, after the title.
PROGRAM = """#!/bin/sh
echo "$# $*" >words
echo pass report
if [ -f told ]; then cat told >&2; else cat -- "$@"; fi
"""
BUILDS = builds("report_list")
INDEPENDENT = """#!/bin/sh
case $1 in
    season) echo "$*" ;;
    report) echo pass report; cat; cat expected ;;
esac
"""
SUN = "EPS_PGET_S00_CUR_SOLX_POS"
CHARGER = "EPS_PGET_S26_A_IN_CHARGER0"
HEAT = "THM_PGET_S31_TH_BAT0"
# lines of all sorts: a mean that does not end, a smallest that does not, and no page
ONE = (
    f"{SUN} count 3 smallest -12 page 1 largest 8869 page 0 sum 9041 mean 9041/3\n"
    f"{CHARGER} count 3 smallest -1 page 2 largest 32767 page 0 sum 33 mean 33/3\n"
)
TWO = f"{HEAT} count 0 smallest - page - largest - page - sum 0 mean -\ncut 0\ncut 2\nfull\nheard 70000 accepted 65537 pages 65535\n"
NAMES = (
    "kind,name,unit,spread,count,smallest,smallest_page,smallest_shown,smallest_numerator,smallest_denominator,"
    "largest,largest_page,largest_shown,largest_numerator,largest_denominator,"
    "sum,mean_shown,mean_numerator,mean_denominator,file_number,file,heard,accepted,pages\r\n"
)
ONE_CSV = (
    f"row,{SUN},mA,50,3,-12,1,-0.24,-6,25,8869,0,177.38,8869,50,9041,60.27333333,9041,150,,,,,\r\n"
    f"row,{CHARGER},mA,12,3,-1,2,-0.08333333,-1,12,32767,0,2730.58333333,32767,12,33,0.91666667,11,12,,,,,\r\n"
)
TWO_CSV = (
    f"row,{HEAT},°C,256,0,,,,,,,,,,,0,,,,,,,,\r\n"
    "cut,,,,,,,,,,,,,,,,,,,0,one,,,\r\n"
    "cut,,,,,,,,,,,,,,,,,,,2,-,,,\r\n"
    "full,,,,,,,,,,,,,,,,,,,,,,,\r\n"
    "total,,,,,,,,,,,,,,,,,,,,,70000,65537,65535\r\n"
)
ONE_JSON = (
    f'{{"kind": "row", "name": "{SUN}", "unit": "mA", "spread": 50, "count": 3, '
    '"smallest": -12, "smallest_page": 1, "smallest_shown": -0.24, "smallest_numerator": -6, "smallest_denominator": 25, '
    '"largest": 8869, "largest_page": 0, "largest_shown": 177.38, "largest_numerator": 8869, "largest_denominator": 50, '
    '"sum": 9041, "mean_shown": 60.27333333, "mean_numerator": 9041, "mean_denominator": 150}\n'
    f'{{"kind": "row", "name": "{CHARGER}", "unit": "mA", "spread": 12, "count": 3, '
    '"smallest": -1, "smallest_page": 2, "smallest_shown": -0.08333333, "smallest_numerator": -1, "smallest_denominator": 12, '
    '"largest": 32767, "largest_page": 0, "largest_shown": 2730.58333333, "largest_numerator": 32767, "largest_denominator": 12, '
    '"sum": 33, "mean_shown": 0.91666667, "mean_numerator": 11, "mean_denominator": 12}\n'
)
TWO_JSON = (
    f'{{"kind": "row", "name": "{HEAT}", "unit": "\\u00b0C", "spread": 256, "count": 0, '
    '"smallest": null, "smallest_page": null, "smallest_shown": null, "smallest_numerator": null, "smallest_denominator": null, '
    '"largest": null, "largest_page": null, "largest_shown": null, "largest_numerator": null, "largest_denominator": null, '
    '"sum": 0, "mean_shown": null, "mean_numerator": null, "mean_denominator": null}\n'
    '{"kind": "cut", "file_number": 0, "file": "one"}\n'
    '{"kind": "cut", "file_number": 2, "file": "-"}\n'
    '{"kind": "full"}\n'
    '{"kind": "total", "heard": 70000, "accepted": 65537, "pages": 65535}\n'
)


def written_again(row):
    """The line of a report, from a row alone."""
    if row["kind"] != "row":
        return {"cut": "cut {file_number}", "full": "full", "total": "heard {heard} accepted {accepted} pages {pages}"}[row["kind"]].format(**row)
    extremes = (f"{name} {told(row[name])} page {told(row[f'{name}_page'])}" for name in ("smallest", "largest"))
    mean = f"{row['sum']}/{row['count']}" if int(row["count"]) else "-"
    return f"{row['name']} count {row['count']} {' '.join(extremes)} sum {row['sum']} mean {mean}"


def told(value):
    return "-" if value in (None, "") else value


def stored(name):
    with open(os.path.join(TOP, "examples", "cases", name), encoding="utf-8") as file:
        return file.read()


class Report(Repository):
    def setUp(self):
        super().setUp()
        self.write("crates.txt", "base:\nreport_list: base io\n")
        self.write("crates/report_list/src/main.rt", "// a program\n")
        self.write("program", PROGRAM)
        self.write("build", BUILDS)
        self.write("one", ONE)
        self.write("two", TWO)
        self.called("report")

    def called(self, *words, first=(), given="", **options):
        """Runs a command, with the ends of lines as they are."""
        streams = dict(stdout=subprocess.PIPE, stderr=subprocess.PIPE)
        words = [*first, os.path.join(self.top, "nolbreva"), *words]
        done = subprocess.run(words, input=given.encode(), env=self.environment(), cwd=self.top, **{**streams, **options})
        return done.returncode, (done.stdout or b"").decode(), done.stderr.decode()

    def words(self):
        with open(os.path.join(self.top, "words"), encoding="utf-8") as file:
            return file.read()

    def test_one_report_over_all_files(self):
        self.write("--csv", "more\n")
        for words, handed, given in (
            ((), "0 ", "in\n"),
            (("-",), "1 -", "in\n"),
            (("--", "-"), "1 -", "in\n"),
            (("one",), "1 one", ONE),
            (("one", "two", "one"), "3 one two one", ONE + TWO + ONE),
            (("two", "-", "one"), "3 two - one", f"{TWO}in\n{ONE}"),
            (("one", "--", "--csv"), "2 one --csv", f"{ONE}more\n"),
        ):
            # the program is started once, and what it writes is passed on
            self.assertEqual(self.called("report", *words, given="in\n"), (0, f"pass report\n{given}", ""))
            self.assertEqual(self.words(), f"{handed}\n")

    def test_what_cannot_be_used(self):
        os.remove(os.path.join(self.top, "words"))
        with socket.socket(socket.AF_UNIX) as heard:
            heard.bind(os.path.join(self.top, "socket"))
        os.symlink("loop", os.path.join(self.top, "loop"))
        for words, why in (
            (("one", "none"), "none: No such file or directory"),
            (("crates", "one"), "crates: Is a directory"),
            (("one/none",), "one/none: Not a directory"),
            (("one", "socket"), "socket: No such device or address"),
            (("loop",), "loop: Too many levels of symbolic links"),
            (("",), ": No such file or directory"),
            (("--csv", "one", "none"), "none: No such file or directory"),
            (("--jsonl", "--csv", "one"), "--jsonl and --csv exclude each other"),
            (("--csv", "one", "--jsonl"), "--jsonl and --csv exclude each other"),
            (("--edition", "corrected"), "no such option: --edition"),
            (("--names", "one"), "no such option: --names"),
            (("--csv=x",), "no such option: --csv=x"),
            (("-",) * 65537, "65,537 files, and a report takes 65,536"),
        ):
            self.assertEqual(self.called("report", *words), (2, "", f"nolbreva: {why}\n"))
        self.assertFalse(os.path.exists(os.path.join(self.top, "words")), "the program was started")

    def test_a_file_without_permission(self):
        with mock.patch("os.access", return_value=False), self.assertRaises(Unusable) as raised:
            report.check(os.path.join(self.top, "one"))
        self.assertTrue(str(raised.exception).endswith("one: Permission denied"))

    def test_a_pipe_is_opened_once(self):
        name = os.path.join(self.top, "pipe")
        os.mkfifo(name)
        with mock.patch("os.open") as opened:
            report.check(name)
        opened.assert_not_called()
        with subprocess.Popen(["sh", "-c", "cat two >pipe"], cwd=self.top):
            self.assertEqual(self.called("report", "one", "pipe"), (0, f"pass report\n{ONE}{TWO}", ""))

    def test_failed_reads(self):
        self.write("a: read: b", "")
        for words, line in (
            (("one", "two"), "two: read: Input/output error"),
            (("two",), "two: open: Permission denied"),
            (("a: read: b",), "a: read: b: read: Input/output error"),
            (("one", "-"), "standard input: read: Input/output error"),
            ((), "standard input: read: Is a directory"),
        ):
            self.write("told", f"{line}\n")
            self.assertEqual(self.called("report", *words), (1, "pass report\n", f"nolbreva: {line}\n"))
            self.assertEqual(self.called("report", "--csv", *words), (1, NAMES, f"nolbreva: {line}\n"))
            self.assertEqual(self.called("report", "--jsonl", *words), (1, "", f"nolbreva: {line}\n"))

    def test_failed_writes(self):
        for form in ("--jsonl", "--csv"):
            with open("/dev/full", "wb") as full:
                self.assertEqual(self.called("report", form, "one", stdout=full), (1, "", "nolbreva: write: No space left on device\n"))
        self.write("told", "write: No space left on device\n")
        self.assertEqual(self.called("report", "one"), (1, "pass report\n", "nolbreva: write: No space left on device\n"))

    def test_what_an_emulator_tells_is_no_failure(self):
        self.write("told", "a warning\n")
        self.assertEqual(self.called("report", "one"), (0, "pass report\n", "nolbreva: a warning\n"))
        self.assertEqual(self.called("report", "one", "two"), (0, "pass report\n", "nolbreva: a warning\n"))

    def test_a_program_that_cannot_run(self):
        self.write("crates/report_list/src/main.rt", "// changed\n")
        self.write("program", "#!/bin/sh\nexit 127\n")
        self.called("report")
        self.assertEqual(self.called("report", "one"), (2, "", "nolbreva: report_list could not be run (status 127)\n"))

    def test_a_descriptor_as_a_file(self):
        # as `report one <(command)` hands it over
        reading, writing = os.pipe()
        os.write(writing, TWO.encode())
        os.close(writing)
        self.assertEqual(self.called("report", "one", f"/dev/fd/{reading}", pass_fds=(reading,)), (0, f"pass report\n{ONE}{TWO}", ""))
        os.close(reading)

    def test_csv(self):
        self.assertEqual(self.called("report", "--csv", "one", "two", "-"), (0, NAMES + ONE_CSV + TWO_CSV, ""))
        # one header line, also where there is nothing else; and of a single input that is cut
        self.assertEqual(self.called("report", "--csv"), (0, NAMES, ""))
        self.assertEqual(self.called("report", "--csv", given="cut 0\n"), (0, f"{NAMES}cut,,,,,,,,,,,,,,,,,,,0,-,,,\r\n", ""))

    def test_json_lines(self):
        self.assertEqual(self.called("report", "one", "two", "--jsonl", "-"), (0, ONE_JSON + TWO_JSON, ""))
        self.assertEqual(self.called("report", "--jsonl"), (0, "", ""))

    def test_any_name_of_a_cut_file(self):
        for name, text in ((b'a,"b"\r\nc', 'a,"b"\r\nc'), (b"caf\xe9", "caf\\xe9"), ("\u00e9\u2028".encode(), "\u00e9\u2028")):
            with open(os.path.join(os.fsencode(self.top), name), "w", encoding="ascii") as file:
                file.write("cut 0\n")
            rows = list(csv.DictReader(io.StringIO(self.called("report", "--csv", name)[1], newline="")))
            self.assertEqual([row["file"] for row in rows], [text])
            out = self.called("report", "--jsonl", name)[1]
            self.assertTrue(out.isascii())
            self.assertEqual(json.loads(out), {"kind": "cut", "file_number": 0, "file": text})

    def test_what_is_no_report(self):
        for line in ("", "cut", "cut 1", "full ", "heard 1 accepted 1", "EPS count 0 smallest - page - largest - page - sum 0 mean -",
                     f"{SUN} count 0 smallest - page - largest - page - sum 1 mean -", f"{SUN} count 1 smallest - page - largest - page - sum 0 mean -",
                     f"{SUN} count 2 smallest 1 page 0 largest 2 page 1 sum 3 mean 3/1", f"{SUN} count 0 smallest 0 page 0 largest 0 page 0 sum 0 mean 0/0"):
            self.write("two", f"{line}\n")
            for form in ("--jsonl", "--csv"):
                answer = self.called("report", form, "two")
                self.assertEqual(answer[0::2], (2, f"nolbreva: report_list wrote what is no line of a report: {line}\n"))
        self.write("two", "full")
        self.assertEqual(self.called("report", "--jsonl", "two"), (2, "", "nolbreva: report_list wrote what is no line of a report: full\n"))

    def test_replays(self):
        self.write("independent/program", INDEPENDENT)
        self.write("program", PROGRAM + "cat last\n")
        self.write("crates/report_list/src/main.rt", "// changed\n")
        for ends, left in (("", ""), ("cut 0\n", "; then both cut the season"), ("full\n", "; both are full"),
                           ("cut 0\nfull\n", "; then both cut the season; both are full")):
            for name in ("last", "expected"):
                self.write(name, f"{ONE}{ends}heard 65536 accepted 65536 pages 65535\n")
            lines = 5 + ends.count("\n")
            status, out, _ = self.called("replay", "--report", "7", "070000", "--clean")
            self.assertEqual((status, out), (0, f"65536 records, {lines} lines compared, no difference{left}\n"))
        self.write("last", ONE.replace("8869", "8868"))
        status, out, _ = self.called("replay", "--report", "7", "5")
        self.assertEqual((status, out.splitlines()[0]), (1, "first difference in line 3"))
        self.write("told", "read: Input/output error\n")
        self.assertEqual(self.called("replay", "--report", "7", "5"), (1, "", "nolbreva: the season: read: Input/output error\n"))
        self.assert_nothing_left()

    def test_the_words_of_a_season(self):
        season = replay.reports({"report": True, "cut": "lone", "clean": True}, ["07", "2"])
        self.assertEqual((season.made, season.listed), (["season", "7", "2", "--cut", "lone", "--clean", "--rows"], ["report"]))
        # told before anything is built
        self.write("crates/report_list/src/main.rt", "// changed\n")
        built = self.builds()
        for words, why in (
            (("1",), "replay takes a seed and a number of records"),
            (("1", "x"), "not a whole number: x"),
            (("1", "1", "--payload", "9"), "no such option: --payload"),
            (("1", "1", "--edition", "flown"), "no such option: --edition"),
            (("1", "1", "--full", "--full-exact"), "--full and --full-exact exclude each other"),
            (("1", "1", "--cut", "it"), "--cut takes one of length, lone, header, payload, not it"),
        ):
            self.assertEqual(self.called("replay", "--report", *words), (2, "", f"nolbreva: {why}\n"))
        self.assertEqual(self.builds(), built)


class Rows(unittest.TestCase):
    def test_the_scales_are_those_of_page(self):
        rows = re.findall(r"^0 (\w+) raw \S+ /(\d+) shown \S+ (\S+) f64 ", stored("page_pass.out"), re.MULTILINE)
        self.assertEqual([(name, int(spread), unit) for name, spread, unit in rows], [(name, *scale) for name, scale in report.SCALES.items()])

    def test_stored_reports_are_written_again(self):
        names = glob.glob(os.path.join(TOP, "examples", "cases", "report_*.out"))
        self.assertGreater(len(names), 15)
        for name in names:
            title, *lines = stored(name).splitlines()
            files = [str(number) for number in range(20)]
            for form in ("jsonl", "csv"):
                table = report.Rows(form, files)
                text = table.text([table.row(line) for line in lines])
                again = map(json.loads, text.splitlines()) if form == "jsonl" else csv.DictReader(io.StringIO(text, newline=""), table.columns)
                self.assertEqual([title, *map(written_again, again)], ["pass report", *lines])

    def test_values_are_exact(self):
        for name in glob.glob(os.path.join(TOP, "examples", "cases", "report_*.out")):
            for line in stored(name).splitlines()[1:18]:
                row = report.Rows("jsonl", []).row(line)
                for value, number, by in (("smallest", row["smallest"], 1), ("largest", row["largest"], 1), ("mean", row["sum"], row["count"])):
                    shown, numerator, denominator = (row[f"{value}_{part}"] for part in ("shown", "numerator", "denominator"))
                    if not row["count"]:
                        self.assertEqual((shown, numerator, denominator), (None, None, None))
                        continue
                    exact = Fraction(number, by * row["spread"])
                    self.assertEqual((numerator, denominator), (exact.numerator, exact.denominator))
                    self.assertLess(abs(Fraction(shown) - exact), Fraction(1, 2 * 10**8))

    def test_decimals(self):
        for numerator, denominator, digits in (
            (0, 1, "0"), (-5, 1, "-5"), (1, 2, "0.5"), (-1, 50, "-0.02"), (32767, 256, "127.99609375"), (1, 3, "0.33333333"), (2, 3, "0.66666667"),
            (-2, 3, "-0.66666667"), (10, 3, "3.33333333"), (-1, 65535 * 256, "-0.00000006"), (299999999, 3, "99999999.66666667"), (1, 7 * 10**7, "0.00000001"),
            (9999999999, 7 * 10**9, "1.42857143"), (2999999999, 3 * 10**9, "1.00000000"),
            # as many places as the mean of 32,768 temperatures may have
            (1, 2**23, "0.00000011920928955078125"), (-1, 5**8, "-0.00000256"),
        ):
            self.assertEqual(report.decimal(numerator, denominator), digits)

    def test_decimals_end_where_they_can(self):
        with decimal.localcontext() as context:
            context.prec = 60
            for denominator in [*range(1, 400), *(count * spread for count in (65535, 65534, 65536, 15625, 32768) for spread in (50, 1, 2, 12, 6, 8, 5, 256))]:
                for numerator in (1, -1, 7, 123457):
                    exact = Fraction(numerator, denominator)
                    digits = report.decimal(exact.numerator, exact.denominator)
                    # a decimal ends where no prime but 2 and 5 divides the denominator
                    ends = 10**40 % exact.denominator == 0
                    self.assertEqual(Fraction(digits) == exact, ends, (exact, digits))
                    if not ends:
                        nearest = decimal.Decimal(exact.numerator) / exact.denominator
                        self.assertEqual(digits, format(nearest.quantize(decimal.Decimal(1).scaleb(-8)), "f"))


if __name__ == "__main__":
    unittest.main()
