"""The built program `list` behind the front end, and the independent program beside it. They need the programs as `rt ci` leaves them."""

import os
import re
import signal
import subprocess
import tempfile
import unittest

import builds
from tests.repository import TOP

NOLBREVA = os.path.join(TOP, "nolbreva")
INDEPENDENT = os.path.join(TOP, "independent", "target", "release", "independent")
PASS = os.path.join("examples", "pass")
CORRECTED = ("--edition", "corrected")
CORRECTED_PASS, CORRECTED_LISTING = (os.path.join("examples", "cases", f"corrected_pass.{end}") for end in ("in", "out"))
CLOSED = ["sh", "-c", 'exec "$@" >&-', "sh"]


def read(name):
    with open(os.path.join(TOP, name), "rb") as file:
        return file.read()


def run(*words, first=(), given=b"", **options):
    streams = dict(stdout=subprocess.PIPE, stderr=subprocess.PIPE)
    done = subprocess.run([*first, NOLBREVA, *words], input=given, cwd=TOP, **{**streams, **options})
    return done.returncode, done.stdout, done.stderr.decode()


def season(*words):
    return subprocess.run([INDEPENDENT, "season", *words], stdout=subprocess.PIPE, check=True).stdout


def build_all():
    """Builds what is not built; what this tells is not part of any test."""
    for words in (["replay", "1", "1"], ["write"]):
        status, _, told = run(*words)
        if status != 0:
            raise RuntimeError(told)


def setUpModule():
    build_all()


class Listings(unittest.TestCase):
    def test_the_example(self):
        listing = read("examples/listing")
        self.assertEqual(run("list", PASS), (0, listing, ""))
        for words in (["list"], ["list", "-"], ["list", "--", "-"], ["list", "--strict"]):
            self.assertEqual(run(*words, given=read(PASS)), (0, listing, ""))
        named = b"==> examples/pass <==\n" + listing + b"==> standard input <==\n" + listing
        self.assertEqual(run("list", "--names", PASS, "-", given=read(PASS)), (0, named, ""))

    def test_the_corrected_edition(self):
        given, listing = read(CORRECTED_PASS), read(CORRECTED_LISTING)
        self.assertEqual(run("list", *CORRECTED, CORRECTED_PASS), (0, listing, ""))
        for words in ([], ["--strict"], ["-"]):
            self.assertEqual(run("list", *words, *CORRECTED, given=given), (0, listing, ""))
        for words in ([], ["--edition", "flown"]):
            status, out, told = run("list", *words, given=given)
            self.assertEqual((status, told), (0, ""))
            self.assertIn(b" accepted B radio 2 ", out)
            self.assertNotIn(b"source", out)

    def test_the_program_and_its_words(self):
        program = builds.words_for(builds.proved_program(TOP, "list"), os.uname().machine)
        for words in (CORRECTED, (*CORRECTED, "--strict"), ("--strict", *CORRECTED)):
            done = subprocess.run([*program, *words], input=read(CORRECTED_PASS), capture_output=True)
            self.assertEqual((done.stdout, done.stderr), (read(CORRECTED_LISTING), b""))
        for words in (("--edition", "salsat"), ("--strict", "--edition", "salsat")):
            done = subprocess.run([*program, *words], input=read(CORRECTED_PASS), capture_output=True)
            self.assertEqual((done.stdout, done.stderr[:7]), (b"", b"edition"))

    def test_strict(self):
        for edition in ((), CORRECTED):
            self.cut_in_each_way(edition)

    def cut_in_each_way(self, edition):
        whole = season("4", "7", *edition)
        for cut, why in (
            ("length", "the length there is over 1,023"),
            ("lone", "too few bytes for a record"),
            ("header", "too few bytes for a record"),
            ("payload", "too few bytes for a record"),
        ):
            given = season("4", "7", *edition, "--cut", cut)
            status, plain, told = run("list", *edition, given=given)
            self.assertEqual((status, told), (0, ""))
            said = f"nolbreva: standard input: cut at byte {len(whole)}: {why}\n"
            self.assertEqual(run("list", "--strict", *edition, given=given), (1, plain, said))
            self.assertIn(b"\ncut\n", plain)

    def test_strict_and_a_full_sheet(self):
        whole = season("1", "1", "--full-exact")
        self.assertEqual(run("list", "--strict", given=whole)[0::2], (0, ""))
        said = f"nolbreva: standard input: cut at byte {len(whole)}: the sheet is full\n"
        self.assertEqual(run("list", "--strict", given=season("1", "1", "--full"))[0::2], (1, said))

    def test_strict_goes_on_with_the_next_file(self):
        with tempfile.NamedTemporaryFile() as file:
            file.write(b"\0")
            file.flush()
            status, out, told = run("list", "--strict", file.name, PASS)
        self.assertEqual((status, out[-len(read("examples/listing")):]), (1, read("examples/listing")))
        self.assertEqual(told, f"nolbreva: {file.name}: cut at byte 0: too few bytes for a record\n")

    def test_a_live_pass_is_listed_as_it_comes(self):
        given, listing = read(PASS), read("examples/listing").splitlines(keepends=True)
        first = 212 + int.from_bytes(given[:2], "big")
        process = subprocess.Popen([NOLBREVA, "list"], stdin=subprocess.PIPE, stdout=subprocess.PIPE, cwd=TOP)
        with process.stdin, process.stdout:
            # the title comes before any byte, a record's line with its last byte
            self.assertEqual(process.stdout.readline(), listing[0])
            process.stdin.write(given[:first])
            process.stdin.flush()
            self.assertEqual(process.stdout.readline(), listing[1])
            process.stdin.write(given[first:])
            process.stdin.close()
            self.assertEqual(process.stdout.readlines(), listing[2:])
        self.assertEqual(process.wait(), 0)

    def test_failed_writes(self):
        with open("/dev/full", "wb") as full:
            self.assertEqual(run("list", PASS, PASS, stdout=full)[0::2], (1, "nolbreva: write: No space left on device\n"))
        for words in (["list", PASS], ["list", "--names", PASS]):
            self.assertEqual(run(*words, first=CLOSED), (1, b"", "nolbreva: write: Bad file descriptor\n"))

    def test_a_reader_that_goes_away(self):
        with tempfile.NamedTemporaryFile() as file:
            # its listing is longer than what a pipe holds
            file.write(season("1", "5000", "--clean", "--payload", "0"))
            file.flush()
            process = subprocess.Popen([NOLBREVA, "list", file.name], stdout=subprocess.PIPE, stderr=subprocess.PIPE, cwd=TOP)
            with process.stderr:
                process.stdout.readline()
                process.stdout.close()
                self.assertEqual((process.stderr.read(), process.wait()), (b"", -signal.SIGPIPE))

    def test_failed_reads(self):
        told = "nolbreva: standard input: read: Bad file descriptor\n"
        self.assertEqual(run("list", first=["sh", "-c", 'exec "$@" <&-', "sh"]), (1, b"pass sheet\n", told))

    def test_replays(self):
        full = b"65535 records, 65538 lines compared, no difference; a sheet takes 65535, and both cut the listing there\n"
        for words, said in (
            (("7", "300"), b"300 records, 302 lines compared, no difference\n"),
            ((*CORRECTED, "7", "300"), b"300 records, 302 lines compared, no difference\n"),
            (("7", "20", "--cut", "header"), b"20 records, 23 lines compared, no difference; then both cut the listing\n"),
            (("1", "1", "--full"), full),
            ((*CORRECTED, "1", "1", "--full"), full),
            (
                ("7", "66000", "--clean", "--payload", "0"),
                b"65535 records, 65538 lines compared, no difference; a sheet takes 65535 of the 66000 records, and both cut the listing there\n",
            ),
        ):
            self.assertEqual(run("replay", *words), (0, said, ""))

    def test_the_commands_of_the_readme(self):
        commands = re.findall(r"^    \./nolbreva (.*?)(?: +#.*)?$", read("README.md").decode(), re.MULTILINE)
        self.assertIn("bench", commands)
        for words in commands:
            with self.subTest(words):
                out = b""
                for part in words.replace("FIELD=VALUE ..", "SrcId=2").replace("FILE ..", PASS).replace("FILE", PASS).split(" | ./nolbreva "):
                    status, out, told = run(*part.split(), given=out)
                    self.assertEqual((status, told), (0, ""))
                self.assertTrue(out)
                if words == "bench":
                    # under an emulator there is no ratio
                    self.assertEqual(len(re.findall(rb", ratio \d", out)), 2 if os.uname().machine == "x86_64" else 0)

    def test_replay_without_room(self):
        with tempfile.TemporaryDirectory() as room:
            limited = ["sh", "-c", 'ulimit -f 1; exec "$@"', "sh"]
            status, out, told = run("replay", "7", "300", first=limited, env=dict(os.environ, TMPDIR=room))
            self.assertEqual((status, out, os.listdir(room)), (1, b"", []))
            self.assertRegex(told, r"\Anolbreva: .*\n\Z")


if __name__ == "__main__":
    unittest.main()
