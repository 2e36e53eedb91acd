"""The built program `page_list` behind the front end, and the independent program beside it."""

import os
import subprocess
import unittest

from tests.built_list import CLOSED, NOLBREVA, read, run
from tests.repository import TOP

PASS, LISTING = (os.path.join("examples", "cases", f"page_pass.{end}") for end in ("in", "out"))


def setUpModule():
    # builds what is not built, and what this tells is not part of any test
    status, _, told = run("replay", "--page", "1", "1")
    if status != 0:
        raise RuntimeError(told)


class Pages(unittest.TestCase):
    def test_the_example(self):
        for words, given in (((PASS,), b""), ((), read(PASS)), (("-",), read(PASS)), (("--", PASS), b"")):
            self.assertEqual(run("page", *words, given=given), (0, read(LISTING), ""))

    def test_pages_are_listed_as_they_come(self):
        given, listing = read(PASS), read(LISTING).splitlines(keepends=True)
        first = 212 + int.from_bytes(given[:2], "big")
        process = subprocess.Popen([NOLBREVA, "page"], stdin=subprocess.PIPE, stdout=subprocess.PIPE, cwd=TOP)
        with process.stdin, process.stdout:
            # the title comes before any byte, a page's lines with its record's last byte
            self.assertEqual(process.stdout.readline(), listing[0])
            process.stdin.write(given[:first])
            process.stdin.flush()
            self.assertEqual([process.stdout.readline() for _ in range(18)], listing[1:19])
            process.stdin.write(given[first:])
            process.stdin.close()
            self.assertEqual(process.stdout.readlines(), listing[19:])
        self.assertEqual(process.wait(), 0)

    def test_failed_reads_and_writes(self):
        with open("/dev/full", "wb") as full:
            self.assertEqual(run("page", PASS, stdout=full)[0::2], (1, "nolbreva: write: No space left on device\n"))
            self.assertEqual(run("page", PASS, first=CLOSED), (1, b"", "nolbreva: write: Bad file descriptor\n"))
        unread = ["sh", "-c", 'exec "$@" <&-', "sh"]
        self.assertEqual(run("page", first=unread), (1, b"power pages\n", "nolbreva: standard input: read: Bad file descriptor\n"))

    def test_replays(self):
        for words, said in (
            (("7", "300"), rb"300 records, \d+ lines compared, no difference\n"),
            (("8", "300", "--clean"), rb"300 records, \d+ lines compared, no difference\n"),
            (("9", "20", "--cut", "payload"), rb"20 records, \d+ lines compared, no difference; then both cut the listing\n"),
            (("9", "20", "--cut", "length"), rb"20 records, \d+ lines compared, no difference; then both cut the listing\n"),
            (("1", "1", "--full"), rb"65535 records, 65538 lines compared, no difference; a sheet takes 65535, and both cut the listing there\n"),
            (("1", "1", "--full-exact"), rb"65535 records, 65537 lines compared, no difference\n"),
        ):
            status, out, told = run("replay", "--page", *words)
            self.assertEqual((status, told), (0, ""))
            self.assertRegex(out, rb"\A" + said + rb"\Z")


if __name__ == "__main__":
    unittest.main()
