"""Commands that need no program."""

import os
import re
import subprocess
import unittest

import usage
from tests.repository import TOP, Repository

NOLBREVA = os.path.join(TOP, "nolbreva")


def run(*words, first=(), **options):
    done = subprocess.run([*first, NOLBREVA, *words], text=True, stdin=subprocess.DEVNULL, capture_output=True, **options)
    return done.returncode, done.stdout, done.stderr


class Commands(unittest.TestCase):
    def test_help(self):
        for words in (["help"], ["--help"], ["-h"]):
            self.assertEqual(run(*words), (0, usage.ALL, ""))
        for command, text in usage.COMMANDS.items():
            self.assertEqual(run("help", command), (0, text, ""))
            for words in (["--help"], ["-h"]):
                self.assertEqual(run(command, *words), (0, text, ""))
        self.assertEqual(run("list", "none", "--help")[0], 0)
        self.assertEqual(run("list", "--", "--help"), (2, "", "nolbreva: --help: No such file or directory\n"))

    def test_every_command_is_in_the_help(self):
        for command in usage.COMMANDS:
            self.assertRegex(usage.ALL, rf"\n  {command} ")

    def test_version(self):
        status, out, told = run("--version")
        self.assertEqual((status, told), (0, ""))
        self.assertRegex(out, r"\Anolbreva \d+\.\d+\.\d+\ncommit .+\nkit .+\n\Z")

    def test_what_is_not_understood(self):
        for words in ([], ["fly"], ["bench", "now"], ["replay", "1"], ["replay", "1", "2", "3"], ["replay", "1", "x"], ["replay", "-1", "1"],
                      ["replay", "1", "1", "--payload", "1024"], ["replay", "1", "1", "--payload"], ["replay", "1", "1", "--cut", "it"],
                      ["replay", "1", "1", "--full", "--full-exact"], ["replay", "1", str(2**64)], ["replay", "--edition", "1", "1"],
                      ["replay", "1", "1", "--edition"], ["explain", "x"], ["explain", "1", "2", "3"],
                      ["help", "fly"], ["--version", "now"], ["list", "--bogus"], ["list", "--edition"], ["list", "--edition", "salsat"], ["list", "--jsonl", "--csv"],
                      ["list", "--csv", "--names"], ["list", "--csv=x"], ["beesat", "--csv"],
                      ["list", "examples/none"], ["list", "crates"], ["beesat", "--strict"], ["beesat", "examples/none"], ["beesat", "crates"],
                      ["report", "--jsonl", "--csv"], ["report", "--names"], ["report", "examples/pass", "examples/none"], ["report", "crates"],
                      ["replay", "--report", "1"], ["replay", "--report", "1", "1", "--payload", "9"],
                      ["write", "SrcId"], ["write", "SrcId=x"], ["write", "--payload", "0"], ["write", "--payload-file", "examples/none"], ["write", "--", "--payload"],
                      ["replay", "--write", "1"], ["replay", "--write", "1", "1", "--clean"],
                      ["beesat", "examples/pass", "examples/pass"], ["beesat", "-", "-"], ["beesat-set"], ["beesat-set", "0"],
                      ["beesat-set", "0", "x"], ["beesat-set", "x", "0"], ["beesat-set", "", "0"], ["beesat-set", "0", "-1"], ["beesat-set", "+1", "0"],
                      ["beesat-set", "0x1", "0"], ["beesat-set", "1.0", "0"], ["beesat-set", "0", "4294967296"], ["beesat-set", "4294967296", "0"],
                      ["beesat-set", "9" * 5000, "0"], ["beesat-set", "0", "0", "examples/none"], ["beesat-set", "0", "0", "crates"],
                      ["beesat-set", "0", "0", "examples/pass", "examples/pass"], ["replay", "--beesat", "1"], ["replay", "--beesat", "1", "x"],
                      ["replay", "--beesat", "1", "1", "--cut", "144"], ["replay", "--beesat", "1", "1", "--cut", "lone"],
                      ["replay", "--beesat", "1", "1", "--full"], ["replay", "--beesat", "--edition", "flown", "1", "1"]):
            with self.subTest(words):
                status, out, told = run(*words, cwd=TOP)
                self.assertEqual((status, out), (2, ""))
                self.assertRegex(told, r"\Anolbreva: .+\n")
                self.assertNotIn("independent:", told)

    def test_explain(self):
        said = "3 4: word 4 of 0 to 13 differs from every valid word in more than three places\n"
        self.assertEqual(run("explain", "3", "4"), (0, said, ""))
        self.assertEqual(run("explain", "3"), (0, "3: a word is beyond repair; place: lowest word (0 to 13)\n", ""))
        self.assertRegex(run("explain")[1], r"\A1: header slice is not 210 long; .*\n2: ")
        self.assertEqual(run("explain", "3", "14"), (2, "", "nolbreva: refusal 3 has no place 14; its places: 0 to 13\n"))
        self.assertEqual(run("explain", "99")[0], 2)

    def test_standard_output_closed_or_full(self):
        for words in (["help"], ["--version"], ["explain", "3", "4"], ["list", "--help"]):
            for how, why in ((">&-", "Bad file descriptor"), (">/dev/full", "No space left on device")):
                with self.subTest(words=words, how=how):
                    told = run(*words, first=["sh", "-c", f'exec "$@" {how}', "sh"])
                    self.assertEqual(told, (1, "", f"nolbreva: write: {why}\n"))

    def test_standard_error_closed(self):
        self.assertEqual(run("fly", first=["sh", "-c", 'exec "$@" 2>&-', "sh"]), (2, "", ""))

    def test_a_reader_that_goes_away(self):
        reading, writing = os.pipe()
        os.close(reading)
        with os.fdopen(writing) as closed:
            done = subprocess.run([NOLBREVA, "help"], stdout=closed, stderr=subprocess.PIPE)
        self.assertEqual((done.returncode, done.stderr), (-13, b""))


class Links(Repository):
    def test_through_links(self):
        os.makedirs(self.at("links", "more"))
        os.symlink("../repository/nolbreva", self.at("links", "first"))
        os.symlink("../first", self.at("links", "more", "second"))
        os.symlink(self.at("links", "more", "second"), self.at("third"))
        for name in (self.at("links", "first"), self.at("links", "more", "second"), self.at("third")):
            done = subprocess.run([name, "help"], env=self.environment(), capture_output=True, text=True)
            self.assertEqual((done.returncode, done.stdout, done.stderr), (0, usage.ALL, ""))
        os.symlink(self.at("third"), self.at("bin", "nolbreva"))
        done = subprocess.run(["nolbreva", "help"], env=self.environment(), cwd="/", executable=self.at("bin", "nolbreva"), capture_output=True, text=True)
        self.assertEqual((done.returncode, done.stdout), (0, usage.ALL))

    def test_no_python(self):
        os.remove(self.at("tools", "python3"))
        self.assertEqual(self.run_it("help"), (2, "", "nolbreva: Python 3's python3 is not on the PATH\n"))

    def test_version_without_repository_and_kit(self):
        status, out, told = self.run_it("--version", path=("tools",))
        self.assertEqual((status, told), (0, ""))
        self.assertEqual(len(re.findall("unknown", out)), 2)


if __name__ == "__main__":
    unittest.main()
