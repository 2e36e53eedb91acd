"""The built programs `beesat_list` and `beesat_set` behind the front end, and the independent program beside them."""

import os
import subprocess
import tempfile
import unittest

from tests.built_list import CLOSED, INDEPENDENT, NOLBREVA, read, run
from tests.repository import TOP

FRAMES, LISTING, ONE = (os.path.join("examples", "cases", f"beesat_{name}") for name in ("frames.in", "frames.out", "one.in"))
FRAME = 144


def independent(*words, given=b""):
    done = subprocess.run([INDEPENDENT, *words], input=given, capture_output=True)
    return done.returncode, done.stdout


def setUpModule():
    # builds what is not built, and what this tells is not part of any test
    for words in (("replay", "--beesat", "1", "1"), ("beesat-set", "0", "0", ONE)):
        status, _, told = run(*words)
        if status != 0:
            raise RuntimeError(told)


class Frames(unittest.TestCase):
    def test_the_example(self):
        for words, given in (((FRAMES,), b""), ((), read(FRAMES)), (("-",), read(FRAMES)), (("--", FRAMES), b"")):
            self.assertEqual(run("beesat", *words, given=given), (0, read(LISTING), ""))

    def test_frames_are_listed_as_they_come(self):
        given, listing = read(FRAMES), read(LISTING).splitlines(keepends=True)
        process = subprocess.Popen([NOLBREVA, "beesat"], stdin=subprocess.PIPE, stdout=subprocess.PIPE, cwd=TOP)
        with process.stdin, process.stdout:
            # the title comes before any byte, a frame's line with its last byte
            self.assertEqual(process.stdout.readline(), listing[0])
            process.stdin.write(given[:FRAME + 1])
            process.stdin.flush()
            self.assertEqual(process.stdout.readline(), listing[1])
            process.stdin.write(given[FRAME + 1:])
            process.stdin.close()
            self.assertEqual(process.stdout.readlines(), listing[2:])
        self.assertEqual(process.wait(), 0)

    def test_failed_reads_and_writes(self):
        with open("/dev/full", "wb") as full:
            for words in (("beesat", FRAMES), ("beesat-set", "0", "1", ONE)):
                self.assertEqual(run(*words, stdout=full)[0::2], (1, "nolbreva: write: No space left on device\n"))
                self.assertEqual(run(*words, first=CLOSED), (1, b"", "nolbreva: write: Bad file descriptor\n"))
        unread = ["sh", "-c", 'exec "$@" <&-', "sh"]
        told = "nolbreva: standard input: read: Bad file descriptor\n"
        self.assertEqual(run("beesat", first=unread), (1, b"beesat frames\n", told))
        self.assertEqual(run("beesat-set", "0", "1", first=unread), (1, b"", told))

    def test_replays(self):
        for words, said in (
            (("7", "300"), b"300 frames, 302 lines compared, no difference\n"),
            (("7", "300", "--clean"), b"300 frames, 302 lines compared, no difference\n"),
            (("7", "20", "--cut", "143"), b"20 frames, 23 lines compared, no difference; then both cut the listing\n"),
            (("7", "70000", "--clean"), b"70000 frames, 70002 lines compared, no difference\n"),
        ):
            self.assertEqual(run("replay", "--beesat", *words), (0, said, ""))


class Fields(unittest.TestCase):
    def same(self, field, value, frame):
        """A field written by both; where it is refused, number and place are told and no byte is written."""
        status, out = independent("beesat-set", str(field), str(value), given=frame)
        ours = run("beesat-set", str(field), str(value), given=frame)
        self.assertEqual(ours[:2], (status, out))
        if status == 0:
            self.assertEqual((len(out), ours[2]), (FRAME, ""))
        else:
            self.assertRegex(ours[2], r"\Anolbreva: standard input: refused \d+ \d+\n\Z")
        return ours

    def test_values_at_and_past_the_limits(self):
        frame = read(ONE)
        for field, most in ((0, 4095), (15, 4095), (16, 1), (79, 1), (80, 7), (81, 255), (83, 2047), (84, 3), (85, 16383)):
            self.assertEqual(self.same(field, most, frame)[0], 0)
            self.assertEqual(self.same(field, most + 1, frame)[2], f"nolbreva: standard input: refused 29 {most + 1}\n")
        for field, value in ((86, 0), (86, 4294967295), (4294967295, 4294967295)):
            self.assertEqual(self.same(field, value, frame)[2], f"nolbreva: standard input: refused 38 {field}\n")

    def test_frames_that_are_refused(self):
        frames = read(FRAMES)
        self.same(0, 0, frames[FRAME:2 * FRAME])
        for k in (2, 3):
            self.same(0, 5000, frames[k * FRAME:(k + 1) * FRAME])

    def test_other_lengths(self):
        for size in (0, 1, 143, 145, 288, 4095, 4096, 4097, 65536, 70001):
            given = (read(ONE) * 500)[:size]
            self.assertEqual(run("beesat-set", "0", "0", given=given), (1, b"", f"nolbreva: standard input: refused 25 {size}\n"))

    def test_files(self):
        with tempfile.NamedTemporaryFile() as file:
            file.write(read(ONE))
            file.flush()
            status, out, told = run("beesat-set", "83", "0002047", file.name)
            self.assertEqual((status, told), (0, ""))
            with open(file.name, "rb") as again:
                self.assertEqual(again.read(), read(ONE))
            file.seek(0)
            file.write(out)
            file.flush()
            # the frame is idle now
            self.assertEqual(run("beesat-set", "83", "1", file.name), (1, b"", f"nolbreva: {file.name}: refused 38 83\n"))
            self.assertEqual(run("beesat", file.name)[1].splitlines()[1][:6], b"0 idle")


if __name__ == "__main__":
    unittest.main()
