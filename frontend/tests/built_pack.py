"""The built programs `unpack` and `pack` behind the front end, and the independent program beside them."""

import os
import subprocess
import unittest

from tests.built_list import CLOSED, INDEPENDENT, NOLBREVA, read, run
from tests.repository import TOP

PASS = os.path.join("examples", "pass")
BY_HAND, PACKED, ZEROS = (os.path.join("examples", "cases", name) for name in ("pack_by_hand.in", "pack_by_hand.out", "zeros.in"))
BITS = b"01" * 105


def independent(*words, given=b""):
    done = subprocess.run([INDEPENDENT, *words], input=given, capture_output=True)
    return done.returncode, done.stdout, done.stderr.decode().replace("independent: ", "nolbreva: standard input: ")


def setUpModule():
    # builds what is not built, and what this tells is not part of any test
    status, _, told = run("replay", "--pack", "1", "1")
    if status != 0:
        raise RuntimeError(told)


class Text(unittest.TestCase):
    def same(self, command, given):
        """What both programs make of an input, and tell of it."""
        ours = run(command, given=given)
        self.assertEqual(ours, independent(command, given=given))
        return ours

    def test_there_and_back(self):
        records = read(PASS)
        status, text, told = run("unpack", PASS)
        self.assertEqual((status, told), (0, ""))
        self.assertEqual(run("pack", given=text), (0, records, ""))
        self.assertEqual(run("unpack", ZEROS), (0, b"0" * 210 + b"\n", ""))

    def test_lines_by_hand(self):
        self.assertEqual(run("pack", BY_HAND), (0, read(PACKED), ""))
        for text in (b"", b"\n", b"\r\n", b"#", b"# no record\r\n\n", BITS + b" ", BITS + b" \r\n", BITS + b" 0aFf"):
            self.assertEqual(self.same("pack", text)[0], 0)

    def test_cut_inputs(self):
        for rest, why in ((b"\0", "too few bytes for a record"), (b"\0\0" + b"\1" * 209, "too few bytes for a record"), (b"\4\0", "the length there is over 1,023")):
            status, _, told = self.same("unpack", read(ZEROS) * 500 + rest)
            self.assertEqual((status, told), (1, f"nolbreva: standard input: cut at byte {212 * 500}: {why}\n"))

    def test_wrong_lines(self):
        digits = b"a" * 420
        for line, column in (
            (b"01", 3),
            (b" 00", 1),
            (b"\t", 2),
            (BITS + b"0", 212),
            (BITS[:-1] + b"2", 210),
            (BITS[:-1] + b"\xff 00", 210),
            (b"g" + digits[1:], 1),
            (BITS + b" 0x", 213),
            (BITS + b"  00", 212),
            (BITS + b" 000", 215),
            (BITS + b" " + b"0" * 2047, 2258),
            (b"#" * 4096, 4096),
            (digits + b" " + b"0" * 70000, 4096),
        ):
            for end in (b"", b"\n" + BITS):
                status, out, told = self.same("pack", (BITS + b"\n") * 300 + b"\n" + line + end)
                self.assertEqual((status, len(out)), (1, 212 * 300))
                self.assertTrue(told.startswith(f"nolbreva: standard input: line 302 column {column}: "), told)

    def test_the_longest_lines(self):
        for line in (b"a" * 420 + b" " + b"5" * 2046, b"#" * 4095):
            self.assertEqual(self.same("pack", line)[0], 0)
            self.assertEqual(self.same("pack", line + b"\r\n" if line[:1] != b"#" else line + b"\n")[0], 0)

    def test_records_come_as_lines_come(self):
        process = subprocess.Popen([NOLBREVA, "pack"], stdin=subprocess.PIPE, stdout=subprocess.PIPE, cwd=TOP)
        with process.stdin, process.stdout:
            process.stdin.write(BITS + b" 07\n" + BITS)
            process.stdin.flush()
            self.assertEqual(process.stdout.read(213), b"\0\1" + bytes(k % 2 for k in range(210)) + b"\7")
            process.stdin.close()
            self.assertEqual(len(process.stdout.read()), 212)
        self.assertEqual(process.wait(), 0)

    def test_failed_reads_and_writes(self):
        with open("/dev/full", "wb") as full:
            for words in (("unpack", PASS), ("pack", BY_HAND)):
                self.assertEqual(run(*words, stdout=full)[0::2], (1, "nolbreva: write: No space left on device\n"))
                self.assertEqual(run(*words, first=CLOSED), (1, b"", "nolbreva: write: Bad file descriptor\n"))
        unread = ["sh", "-c", 'exec "$@" <&-', "sh"]
        for command in ("unpack", "pack"):
            self.assertEqual(run(command, first=unread), (1, b"", "nolbreva: standard input: read: Bad file descriptor\n"))

    def test_replays(self):
        for words, count in ((("7", "3000"), 3000), (("8", "70000", "--payload", "0"), 70000)):
            self.assertEqual(run("replay", "--pack", *words), (0, f"{count} records unpacked and packed, no difference\n".encode(), ""))


if __name__ == "__main__":
    unittest.main()
