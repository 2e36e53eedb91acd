"""The rows that `list --jsonl` and `list --csv` make of listings, over a program that is a script."""

import csv
import io
import json
import os
import shutil
import subprocess
import unittest

import refusals
import rows
from listing import CORRECTED, FLOWN
from messages import Unusable
from tests.repository import TOP, Repository

TABLE = refusals.read(TOP)
# A listing is its title and the input; then it tells what it finds in the file `told`.
PROGRAM = "#!/bin/sh\necho pass sheet\ncat\nif [ -f told ]; then cat told >&2; fi\n"
ONE = "0 accepted B radio 2 tx 5 repaired 7 worst 4 bytes 42\n1 refused 3 4\nheard 2 accepted 1 refused 1\n"
TWO = "cut\nheard 0 accepted 0 refused 0\n"
NAMES = "file,kind,record,verdict,satellite,radio,tx,repaired,worst,bytes,number,place,meaning,heard,accepted,refused\r\n"
MEANING = "word 4 of 0 to 13 differs from every valid word in more than three places"


def csv_of(name):
    return (
        f"{name},record,0,accepted,B,2,5,7,4,42,,,,,,\r\n"
        f"{name},record,1,refused,,,,,,,3,4,{MEANING},,,\r\n"
        f"{name},total,,,,,,,,,,,,2,1,1\r\n"
    )


class Lines(unittest.TestCase):
    def row(self, edition, line):
        return rows.Rows("jsonl", edition, TABLE).row("f", line)

    def test_who_spoke(self):
        numbers = dict(tx=15, repaired=42, worst=13, bytes=1023)
        said = "tx 15 repaired 42 worst 13 bytes 1023"
        flown = dict(file="f", kind="record", record=65534, verdict="accepted", satellite="D", radio=2, **numbers)
        self.assertEqual(self.row(FLOWN, f"65534 accepted D radio 2 {said}"), flown)
        corrected = dict(file="f", kind="record", record=0, verdict="accepted", source=127, **numbers)
        self.assertEqual(self.row(CORRECTED, f"0 accepted source 127 {said}"), corrected)
        for edition, line in ((CORRECTED, f"0 accepted D radio 2 {said}"), (FLOWN, f"0 accepted source 127 {said}")):
            with self.assertRaises(Unusable):
                self.row(edition, line)

    def test_refusals_have_the_meaning_that_explain_gives(self):
        for number, place in ((2, 209), (3, 13), (4, 0), (5, 97), (6, 15), (7, 1023), (8, 8191)):
            row = self.row(FLOWN, f"9 refused {number} {place}")
            self.assertEqual(refusals.explain(TABLE, number, place), f"{number} {place}: {row['meaning']}\n")

    def test_what_is_no_line(self):
        for line in ("", "cut ", " cut", "heard 1 accepted 1", "0 accepted", "0 refused 3", "0 refused 99 1", "0 refused 3 14", "-1 refused 3 4",
                     "0 accepted E radio 2 tx 5 repaired 7 worst 4 bytes 42", "0 refused 3 4 5", "x"):
            with self.subTest(line), self.assertRaises(Unusable):
                self.row(FLOWN, line)

    def test_names_of_columns(self):
        flown, corrected = (rows.Rows("csv", edition, TABLE).columns for edition in (FLOWN, CORRECTED))
        self.assertEqual(",".join(flown) + "\r\n", NAMES)
        self.assertEqual(corrected, NAMES.replace("satellite,radio", "source").strip().split(","))


class Rows(Repository):
    def setUp(self):
        super().setUp()
        os.mkdir(os.path.join(self.top, "docs"))
        shutil.copy(os.path.join(TOP, "docs", "REFUSALS.md"), os.path.join(self.top, "docs"))
        self.write("program", PROGRAM)
        self.write("one", ONE)
        self.write("two", TWO)
        self.listed()

    def listed(self, *words, **options):
        """Lists, with the ends of lines as they are."""
        options.setdefault("given", "")
        words = [*options.pop("first", ()), os.path.join(self.top, "nolbreva"), "list", *words]
        given = options.pop("given").encode()
        done = subprocess.run(words, input=given, env=self.environment(), cwd=self.top, **{**dict(stdout=subprocess.PIPE, stderr=subprocess.PIPE), **options})
        return done.returncode, (done.stdout or b"").decode(), done.stderr.decode()

    def test_csv(self):
        self.assertEqual(self.listed("--csv", "one"), (0, NAMES + csv_of("one"), ""))
        cut = "two,cut,,,,,,,,,,,,,,\r\ntwo,total,,,,,,,,,,,,0,0,0\r\n"
        # one header line, and standard input is -
        self.assertEqual(self.listed("one", "--csv", "two", "-", given=ONE), (0, NAMES + csv_of("one") + cut + csv_of("-"), ""))
        self.assertEqual(self.listed("--csv", given=ONE), (0, NAMES + csv_of("-"), ""))

    def test_json_lines(self):
        accepted = '{"file": "one", "kind": "record", "record": 0, "verdict": "accepted", "satellite": "B", "radio": 2, "tx": 5, "repaired": 7, "worst": 4, "bytes": 42}'
        refused = f'{{"file": "one", "kind": "record", "record": 1, "verdict": "refused", "number": 3, "place": 4, "meaning": "{MEANING}"}}'
        total = '{"file": "one", "kind": "total", "heard": 2, "accepted": 1, "refused": 1}'
        cut = '{"file": "two", "kind": "cut"}\n{"file": "two", "kind": "total", "heard": 0, "accepted": 0, "refused": 0}'
        self.assertEqual(self.listed("--jsonl", "one", "two"), (0, "\n".join((accepted, refused, total, cut, "")), ""))

    def test_options_that_exclude_each_other(self):
        for words, told in (
            (("--jsonl", "--csv"), "--jsonl and --csv"),
            (("--csv", "one", "--jsonl"), "--jsonl and --csv"),
            (("--csv", "--names", "one"), "--names and --csv"),
            (("--names", "--jsonl", "one"), "--names and --jsonl"),
        ):
            self.assertEqual(self.listed(*words), (2, "", f"nolbreva: {told} exclude each other\n"))

    def test_any_name(self):
        for name, text in ((b'a,"b"\r\nc', 'a,"b"\r\nc'), (b"caf\xe9", "caf\\xe9"), ("\u00e9\u2028\U0001f6f0".encode(), "\u00e9\u2028\U0001f6f0"), (b" x", " x")):
            with open(os.path.join(os.fsencode(self.top), name), "w", encoding="ascii") as file:
                file.write(TWO)
            status, out, _ = self.listed("--csv", name)
            table = list(csv.reader(io.StringIO(out, newline="")))
            self.assertEqual((status, [row[:2] for row in table[1:]]), (0, [[text, "cut"], [text, "total"]]))
            status, out, _ = self.listed("--jsonl", name)
            self.assertTrue(out.isascii())
            self.assertEqual((status, [json.loads(line)["file"] for line in out.splitlines()]), (0, [text, text]))

    def test_statuses_and_messages_are_those_of_a_listing(self):
        rows_of = NAMES + csv_of("one")
        for line, words in (("cut at byte 5: too few bytes for a record", ("--strict",)), ("read: Input/output error", ())):
            self.write("told", f"{line}\n")
            self.assertEqual(self.listed(*words, "--csv", "one", "one"), (1, rows_of + csv_of("one"), f"nolbreva: one: {line}\n" * 2))
        self.write("told", "edition: flown or corrected\n")
        self.assertEqual(self.listed("--csv", "one", "two"), (2, rows_of, "nolbreva: edition: flown or corrected\n"))
        self.assertEqual(self.listed("--csv", "one", "none"), (2, "", "nolbreva: none: No such file or directory\n"))
        self.assertEqual(self.listed("--csv", "--edition", "salsat")[:2], (2, ""))

    def test_what_is_no_listing(self):
        self.write("two", "cut\nmore\n")
        told = "nolbreva: list wrote what is no line of a listing: more\n"
        self.assertEqual(self.listed("--csv", "two", "one")[0::2], (2, told))
        for text in ("cut", "x" * 200000):
            self.write("two", text)
            told = f"nolbreva: list wrote what is no line of a listing: {text[:80]}\n"
            self.assertEqual(self.listed("--jsonl", "two", "one"), (2, "", told))

    def test_rows_come_as_the_lines_come(self):
        self.write("program", "#!/bin/sh\necho pass sheet\necho cut\nwhile [ ! -f go ]; do sleep 0.02; done\necho heard 0 accepted 0 refused 0\n")
        self.write("crates/list/src/main.rt", "// changed\n")
        self.write("go", "")
        self.listed()
        os.remove(os.path.join(self.top, "go"))
        process = self.start("list", "--jsonl", "one", cwd=self.top, stdout=subprocess.PIPE)
        with process.stdout:
            self.assertEqual(process.stdout.readline(), '{"file": "one", "kind": "cut"}\n')
            self.write("go", "")
            self.assertEqual(len(process.stdout.readlines()), 1)
        self.assertEqual(process.wait(), 0)

    def test_failed_writes(self):
        for form in ("--jsonl", "--csv"):
            with open("/dev/full", "wb") as full:
                self.assertEqual(self.listed(form, "one", "two", stdout=full), (1, "", "nolbreva: write: No space left on device\n"))
            told = self.listed(form, "one", first=["sh", "-c", 'exec "$@" >&-', "sh"])
            self.assertEqual(told, (1, "", "nolbreva: write: Bad file descriptor\n"))

    def test_a_reader_that_goes_away(self):
        self.write("program", "#!/bin/sh\nwhile echo cut; do :; done\n")
        self.write("crates/list/src/main.rt", "// changed\n")
        for form in ("--jsonl", "--csv"):
            process = self.start("list", form, "one", cwd=self.top, stdout=subprocess.PIPE, stderr=subprocess.DEVNULL)
            process.stdout.readline()
            process.stdout.close()
            self.assertEqual(process.wait(), -13)


if __name__ == "__main__":
    unittest.main()
