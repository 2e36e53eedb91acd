"""Rows of the built program's listings: they say what the listing says, and a database takes them. docs/DATABASE.md is tried."""

import collections
import csv
import glob
import io
import json
import os
import re
import shutil
import subprocess
import sys
import tempfile
import unittest

import refusals
from tests.built_list import CORRECTED, CORRECTED_PASS, INDEPENDENT, NOLBREVA, PASS, build_all, read, run
from tests.repository import TOP
from tests.test_documents import quoted

PAGE = os.path.join("docs", "DATABASE.md")
TABLE = refusals.read(TOP)
# The line of a row, by its kind and its verdict; who spoke is another thing under the corrected edition.
LINES = {
    ("record", "accepted"): "{record} accepted {speaker} tx {tx} repaired {repaired} worst {worst} bytes {bytes}",
    ("record", "refused"): "{record} refused {number} {place}",
    ("cut", ""): "cut",
    ("total", ""): "heard {heard} accepted {accepted} refused {refused}",
}


def independent(*words, given=b""):
    return subprocess.run([INDEPENDENT, *words], input=given, stdout=subprocess.PIPE, cwd=TOP, check=True).stdout


def written_again(row):
    """The listing's line, from a row alone."""
    speaker = f"source {row['source']}" if "source" in row else "{satellite} radio {radio}".format_map(collections.defaultdict(str, row))
    return LINES[row["kind"], row.get("verdict", "")].format(speaker=speaker, **row)


def setUpModule():
    build_all()
    # the page has a report too
    run("report")


class Rows(unittest.TestCase):
    def same(self, edition, *files, given=b""):
        """The rows of files in both forms, held against the independent program's listing of these files."""
        status, out, told = run("list", *edition, "--jsonl", *files, given=given)
        self.assertEqual((status, told), (0, ""))
        objects = [json.loads(line) for line in out.decode("ascii").splitlines()]
        status, out, told = run("list", *edition, "--csv", *files, given=given)
        self.assertEqual((status, told), (0, ""))
        table = list(csv.DictReader(io.StringIO(out.decode("ascii"), newline="")))
        self.assertEqual([{k: str(v) for k, v in row.items()} for row in objects], [{k: v for k, v in row.items() if v} for row in table])
        for name in files or ["-"]:
            lines = independent("list", *edition, given=read(name) if files else given).decode().splitlines()
            rows = [row for row in objects if row["file"] == name]
            self.assertEqual(["pass sheet", *map(written_again, rows)], lines)
            for row in rows:
                self.assertEqual(row.get("meaning"), TABLE[row["number"]].meaning(row["place"]) if "number" in row else None)
                self.assertTrue(all(type(row[k]) is int for k in set(row) - {"file", "kind", "verdict", "satellite", "meaning"}))
        return objects

    def test_the_cases(self):
        cases = [os.path.relpath(name, TOP) for name in sorted(glob.glob(os.path.join(TOP, "examples", "cases", "*.in")))]
        corrected = [name for name in cases if "corrected" in name]
        self.same((), PASS, *(name for name in cases if "beesat" not in name and name not in corrected))
        self.same(CORRECTED, *corrected)

    def test_seasons(self):
        for edition in ((), CORRECTED):
            self.same(edition, given=independent("season", "17", "3000", *edition, "--cut", "length"))

    def test_a_full_sheet(self):
        self.assertEqual([row["kind"] for row in self.same((), given=independent("season", "1", "1", "--full"))][-3:], ["record", "cut", "total"])

    def test_a_live_pass(self):
        given = read(PASS)
        first = 212 + int.from_bytes(given[:2], "big")
        for form, header in (("--jsonl", 0), ("--csv", 1)):
            expected = run("list", form, given=given)[1].splitlines(keepends=True)
            process = subprocess.Popen([NOLBREVA, "list", form], stdin=subprocess.PIPE, stdout=subprocess.PIPE, cwd=TOP)
            with process.stdin, process.stdout:
                # a record's row comes with its last byte
                process.stdin.write(given[:first])
                process.stdin.flush()
                self.assertEqual([process.stdout.readline() for _ in range(header + 1)], expected[:header + 1])
                process.stdin.write(given[first:])
                process.stdin.close()
                self.assertEqual(process.stdout.readlines(), expected[header + 1:])
            self.assertEqual(process.wait(), 0)

    def test_strict(self):
        given = independent("season", "4", "7", "--cut", "header")
        whole = independent("season", "4", "7")
        for form in ("--jsonl", "--csv"):
            told = f"nolbreva: standard input: cut at byte {len(whole)}: too few bytes for a record\n"
            self.assertEqual(run("list", "--strict", form, given=given), (1, run("list", form, given=given)[1], told))

    def test_what_the_readme_shows(self):
        readme = read("README.md").decode()
        words = ["list", "--csv", *CORRECTED, CORRECTED_PASS]
        self.assertIn(f"\n\n    ./nolbreva {' '.join(words)}\n", readme)
        self.assertIn(f"\n\n{quoted(run(*words)[1].decode())}\n", readme)


class Database(unittest.TestCase):
    def blocks(self):
        """The commands of the page, each with what it prints."""
        found, before = [], ""
        for part in re.split(r"\n\n+", read(PAGE).decode().rstrip("\n")):
            if part.startswith("    "):
                text = re.sub(r"^    ", "", part, flags=re.MULTILINE) + "\n"
                found.append((found.pop()[0], text) if before == "prints" else (text, ""))
            before = part
        return found

    def test_the_page(self):
        if not shutil.which("sqlite3"):
            print(f"sqlite3 is not on the PATH: the commands of {PAGE} were not run", file=sys.stderr)
            self.skipTest("no sqlite3")
        blocks = self.blocks()
        self.assertGreater(len(blocks), 4)
        with tempfile.TemporaryDirectory() as room:
            for name in ("nolbreva", "examples"):
                os.symlink(os.path.join(TOP, name), os.path.join(room, name))
            for commands, printed in blocks:
                done = subprocess.run(["bash", "-euc", commands], cwd=room, capture_output=True, text=True)
                self.assertEqual((done.returncode, done.stdout, done.stderr), (0, printed, ""))

    def test_its_answer(self):
        """The answer of the page's first query, counted from the independent program's listings."""
        sums = collections.Counter()
        for name in sorted(os.listdir(os.path.join(TOP, "examples", "season"))):
            name = os.path.join("examples", "season", name)
            for satellite, repaired in re.findall(r" accepted (.) .* repaired (\d+) ", independent("list", name).decode()):
                sums[name, satellite] += 1
                sums[name, satellite, "repaired"] += int(repaired)
        answer = [f"{key[0]}|{key[1]}|{sums[key]}|{sums[(*key, 'repaired')]}\n" for key in sorted(sums) if len(key) == 2]
        self.assertIn("station|satellite|frames|repaired\n" + "".join(answer), [printed for _, printed in self.blocks()])


if __name__ == "__main__":
    unittest.main()
