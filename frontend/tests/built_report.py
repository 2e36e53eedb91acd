"""The built program `report_list` behind the front end, and the independent program beside it."""

import csv
import glob
import io
import json
import os
import resource
import subprocess
import tempfile
import unittest

from tests.built_list import CLOSED, INDEPENDENT, NOLBREVA, read, run, season
from tests.repository import TOP
from tests.test_report import written_again

CASES = os.path.join("examples", "cases")
ONE, TIES, LIMITS, NOTHING, CUT_LENGTH, CUT_LONE = (
    os.path.join(CASES, f"report_{name}.in") for name in ("one", "ties", "limits", "nothing", "cut_length", "cut_lone")
)
TITLE = b"pass report\n"


def setUpModule():
    # builds what is not built, and what this tells is not part of any test
    status, _, told = run("replay", "--report", "1", "1")
    if status != 0:
        raise RuntimeError(told)


def independent(*files, given=b""):
    """The independent program's report over files."""
    return subprocess.run([INDEPENDENT, "report", *files], input=given, stdout=subprocess.PIPE, cwd=TOP, check=True).stdout


def texts(rows):
    """The values of rows as CSV has them: what is not there is empty."""
    return [{name: "" if value is None else str(value) for name, value in row.items()} for row in rows]


class Reports(unittest.TestCase):
    def same(self, *files, given=b""):
        """The report over files, and the text written again from its rows in both forms, beside the independent program's report."""
        expected = independent(*files, given=given)
        self.assertEqual(run("report", *files, given=given), (0, expected, ""))
        status, out, told = run("report", "--jsonl", *files, given=given)
        self.assertEqual((status, told), (0, ""))
        # decimals are compared as they are written
        objects = [json.loads(line, parse_float=str) for line in out.decode("ascii").splitlines()]
        status, out, told = run("report", "--csv", *files, given=given)
        self.assertEqual((status, told), (0, ""))
        table = list(csv.DictReader(io.StringIO(out.decode(), newline="")))
        self.assertEqual([{name: value for name, value in row.items() if value} for row in texts(objects)],
                         [{name: value for name, value in row.items() if value} for row in table])
        for row in objects, table:
            self.assertEqual("".join(f"{line}\n" for line in ["pass report", *map(written_again, row)]).encode(), expected)
        return objects

    def test_the_cases(self):
        for name in glob.glob(os.path.join(TOP, CASES, "report_*.files")):
            with open(name, encoding="utf-8") as file:
                files = file.read().splitlines()
            self.same(*files)
            self.assertEqual(run("report", *files)[1], read(name.replace(".files", ".out")))
        self.assertEqual(run("report", ONE)[1], read(ONE.replace(".in", ".out")))
        # those of docs/DATABASE.md, which tests/built_rows.py tries
        self.same(*(os.path.join("examples", "season", name) for name in sorted(os.listdir(os.path.join(TOP, "examples", "season")))))

    def test_standard_input(self):
        for files in ((), ("-",), ("--", "-"), (TIES, "-"), ("-", TIES), (ONE, "-", LIMITS, NOTHING)):
            for given in (b"", read(LIMITS), read(CUT_LENGTH), read(CUT_LONE)):
                self.same(*(name for name in files if name != "--"), given=given)
        # what a cut left of standard input is no second file
        for given in (read(TIES), read(CUT_LENGTH), read(CUT_LENGTH) + 100 * read(TIES)):
            self.same("-", ONE, "-", given=given)

    def test_more_files_than_can_be_open_at_once(self):
        most = resource.getrlimit(resource.RLIMIT_NOFILE)[0]
        self.addCleanup(resource.setrlimit, resource.RLIMIT_NOFILE, (most, resource.getrlimit(resource.RLIMIT_NOFILE)[1]))
        resource.setrlimit(resource.RLIMIT_NOFILE, (min(most, 256), resource.getrlimit(resource.RLIMIT_NOFILE)[1]))
        self.same(*[ONE] * 300)

    def test_a_name_that_looks_like_an_option(self):
        with tempfile.TemporaryDirectory() as room:
            name = os.path.join(room, "--csv")
            with open(name, "wb") as file:
                file.write(read(ONE))
            there = ["sh", "-c", 'cd "$0" && exec "$@"', room]
            self.assertEqual(run("report", "--", "--csv", first=there), (0, independent(name), ""))

    def test_a_descriptor_as_a_file(self):
        reading, writing = os.pipe()
        with os.fdopen(writing, "wb") as file:
            file.write(read(TIES))
        self.assertEqual(run("report", ONE, f"/dev/fd/{reading}", pass_fds=(reading,)), (0, independent(ONE, TIES), ""))
        os.close(reading)

    def test_a_full_report(self):
        with tempfile.TemporaryDirectory() as room:
            name = os.path.join(room, "pass")
            with open(name, "wb") as file:
                file.write(season("3", "0", "--rows", "--clean", "--full-exact"))
            rows = self.same(name)
            self.assertEqual((rows[-1]["pages"], [row["kind"] for row in rows][-2:]), (65535, ["row", "total"]))
            # the pages of a further file are not taken, and its records are heard; a cut file comes before `full`
            rows = self.same(name, CUT_LONE, ONE)
            self.assertEqual([row["kind"] for row in rows][-4:], ["row", "cut", "full", "total"])
            self.assertEqual(rows[-1]["pages"], 65535)
            self.assertGreater(rows[-1]["heard"], 65536)

    def test_failed_reads_and_writes(self):
        with open("/dev/full", "wb") as full:
            for words in ((), ("--csv",), ("--jsonl",)):
                self.assertEqual(run("report", *words, ONE, stdout=full)[0::2], (1, "nolbreva: write: No space left on device\n"))
        self.assertEqual(run("report", ONE, first=CLOSED), (1, b"", "nolbreva: write: Bad file descriptor\n"))
        unread = ["sh", "-c", 'exec "$@" <&-', "sh"]
        status, out, told = run("report", first=unread)
        self.assertEqual((status, out), (1, TITLE))
        self.assertRegex(told, r"\Anolbreva: standard input: .*Bad file descriptor\n\Z")
        # a file that opens and cannot be read: there is no report, whichever file it is
        for files in (("/proc/self/mem",), (ONE, "/proc/self/mem"), ("/proc/self/mem", ONE)):
            status, out, told = run("report", *files)
            self.assertEqual((status, out), (1, TITLE))
            self.assertRegex(told, r"\Anolbreva: .*Input/output error\n\Z")

    def test_a_name_that_is_no_utf8(self):
        with tempfile.TemporaryDirectory() as room:
            name = os.path.join(os.fsencode(room), b"pass\xe9")
            os.symlink(os.path.join(TOP, ONE), name)
            self.assertEqual(run("report", name, ONE, name), run("report", ONE, ONE, ONE))
            # what goes wrong with such a file is told by its name
            unread = os.path.join(os.fsencode(room), b"memory\xe9")
            os.symlink("/proc/self/mem", unread)
            done = subprocess.run([NOLBREVA, "report", unread], stdin=subprocess.DEVNULL, capture_output=True, cwd=TOP)
            told = b"nolbreva: " + unread + b": read: Input/output error\n"
            self.assertEqual((done.returncode, done.stdout, done.stderr), (1, TITLE, told))

    def test_replays(self):
        for words, said in (
            (("7", "300"), b"300 records, 19 lines compared, no difference\n"),
            (("8", "300", "--clean"), b"300 records, 19 lines compared, no difference\n"),
            (("9", "20", "--cut", "payload"), b"20 records, 20 lines compared, no difference; then both cut the season\n"),
            (("9", "20", "--cut", "length"), b"20 records, 20 lines compared, no difference; then both cut the season\n"),
            (("9", "20", "--cut", "lone"), b"20 records, 20 lines compared, no difference; then both cut the season\n"),
            (("1", "1", "--full-exact", "--clean"), b"65535 records, 19 lines compared, no difference\n"),
            (("1", "1", "--full", "--clean"), b"65536 records, 20 lines compared, no difference; both are full\n"),
        ):
            self.assertEqual(run("replay", "--report", *words), (0, said, ""))


if __name__ == "__main__":
    unittest.main()
