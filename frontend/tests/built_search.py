"""The built program `night` behind the front end, and the independent program beside it."""

import os
import subprocess
import unittest

from tests.built_list import CLOSED, INDEPENDENT, NOLBREVA, read, run
from tests.repository import TOP

SHORT, FOUND, DENSE = (os.path.join("examples", "cases", f"recording_{name}") for name in ("short.in", "short.out", "dense.in"))
WINDOW = 242


def independent(given, *words):
    return subprocess.run([INDEPENDENT, "search", *words], input=given, capture_output=True, check=True).stdout


def setUpModule():
    # builds what is not built, and what this tells is not part of any test
    status, _, told = run("replay", "--recording", "1", "1")
    if status != 0:
        raise RuntimeError(told)


class Search(unittest.TestCase):
    def test_the_example(self):
        for words, given in (((SHORT,), b""), ((), read(SHORT)), (("-",), read(SHORT)), (("--", SHORT), b"")):
            self.assertEqual(run("search", *words, given=given), (0, read(FOUND), ""))

    def test_lines_come_as_the_bits_come(self):
        given, lines = read(SHORT), read(FOUND).splitlines(keepends=True)
        process = subprocess.Popen([NOLBREVA, "search"], stdin=subprocess.PIPE, stdout=subprocess.PIPE, cwd=TOP)
        with process.stdin, process.stdout:
            # the heading comes before any bit, a header's line with its 242nd
            self.assertEqual(process.stdout.readline(), lines[0])
            at = 0
            for line in lines[1:-1]:
                end = int(line.split()[0]) + WINDOW
                process.stdin.write(given[at:end])
                process.stdin.flush()
                self.assertEqual(process.stdout.readline(), line)
                at = end
            process.stdin.close()
            self.assertEqual(process.stdout.readline(), b"bits %d %s" % (at, lines[-1].split(maxsplit=2)[2]))
        self.assertEqual(process.wait(), 0)

    def test_cut_short_everywhere(self):
        # around the 242nd bit of each header
        given = read(DENSE)
        ends = [int(line.split()[0]) + WINDOW for line in independent(given).splitlines()[1:-1]]
        for end in sorted({end + by for end in ends[:8] for by in (-1, 0, 1)} | {0, 1, WINDOW - 1, WINDOW}):
            self.assertEqual(run("search", given=given[:end]), (0, independent(given[:end]), ""))

    def test_bytes_above_1(self):
        given = read(SHORT)
        for at in (0, 1, 653 + WINDOW - 1, 653 + WINDOW, len(given) - 1):
            for byte in (2, 48, 255):
                bits = given[:at] + bytes([byte]) + given[at + 1:]
                status, out, told = run("search", given=bits)
                self.assertEqual((status, out, told), (0, independent(bits), ""))
                self.assertEqual(out.splitlines()[-2], b"stopped 19 %d" % at)

    def test_failed_reads_and_writes(self):
        with open("/dev/full", "wb") as full:
            self.assertEqual(run("search", SHORT, stdout=full)[0::2], (1, "nolbreva: write: No space left on device\n"))
        self.assertEqual(run("search", SHORT, first=CLOSED), (1, b"", "nolbreva: write: Bad file descriptor\n"))
        told = "nolbreva: standard input: read: Bad file descriptor\n"
        self.assertEqual(run("search", first=["sh", "-c", 'exec "$@" <&-', "sh"]), (1, b"recording\n", told))

    def test_replays(self):
        for words in (("7", "300000"), ("8", "300000", "--edition", "corrected"), ("9", "200000", "--gap", "0"), ("9", "70000", "--bad")):
            status, out, told = run("replay", "--recording", *words)
            self.assertEqual((status, told), (0, ""))
            self.assertRegex(out, rb"\A%s bits, \d+ lines compared, no difference\n\Z" % words[1].encode())


if __name__ == "__main__":
    unittest.main()
