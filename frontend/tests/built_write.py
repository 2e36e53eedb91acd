"""The built program `write` behind the front end, and the independent program beside it."""

import os
import subprocess
import tempfile
import unittest

from tests.built_list import CLOSED, INDEPENDENT, run
from tests.repository import TOP
from tests.test_documents import WRITTEN, WRITTEN_LISTING
from writing import FIELDS

# the most that each field may be under the flown edition; under the corrected one SrcId goes to 127
MOST = dict(zip(FIELDS, (7, 127, 15, 15, 15, 3, 15, 3, 1, 1, 1, 1, 1, 1)))
OUT_OF_RANGE = (
    "nolbreva: refused 14 {0}: field {0} of 0 to 13 is out of range (SrcId, DstId, FrCntTx, FrCntRx, SNR, AiTypeSrc, AiTypeDst, DfcId, Caller, Arq, "
    "PduTypeId, BchRq, Hailing, UdFl1)\n"
)


def setUpModule():
    # builds what is not built, and what this tells is not part of any test
    for words in (("write",), ("replay", "--write", "1", "1"), ("list", os.devnull)):
        status, _, told = run(*words)
        if status != 0:
            raise RuntimeError(told)


def written_by_other(edition, values, payload):
    words = [INDEPENDENT, "write", edition, *map(str, values)]
    done = subprocess.run(words, input=payload, capture_output=True)
    return done.returncode, done.stdout


class Write(unittest.TestCase):
    def same(self, edition, given, payload):
        """A record written by both: the same status, and the same bytes."""
        with tempfile.NamedTemporaryFile() as file:
            file.write(payload)
            file.flush()
            ours = run("write", "--edition", edition, *(f"{name}={value}" for name, value in given.items()), "--payload-file", file.name)
        self.assertEqual(ours[:2], written_by_other(edition, [given.get(name, 0) for name in FIELDS], payload))
        return ours

    def test_the_example(self):
        done = subprocess.run(WRITTEN, shell=True, cwd=TOP, capture_output=True, text=True)
        self.assertEqual((done.returncode, done.stdout, done.stderr), (0, WRITTEN_LISTING, ""))

    def test_fields_at_and_past_their_limits(self):
        self.assertEqual(self.same("flown", MOST, b"\0")[::2], (0, ""))
        for place, name in enumerate(FIELDS):
            self.assertEqual(self.same("flown", {name: MOST[name] + 1}, b""), (1, b"", OUT_OF_RANGE.format(place)))
        self.assertEqual(self.same("corrected", dict(MOST, SrcId=127), b"payload")[::2], (0, ""))
        self.assertEqual(self.same("corrected", {"SrcId": 128}, b""), (1, b"", OUT_OF_RANGE.format(0)))
        for value in (255, 256, 65536, 4294967295):
            self.assertEqual(self.same("flown", {"UdFl1": value, "Arq": value}, b""), (1, b"", OUT_OF_RANGE.format(9)))
        self.assertEqual(run("write", "SNR=99999999999999999999"), (1, b"", OUT_OF_RANGE.format(4)))

    def test_payloads_of_several_lengths(self):
        for size in (0, 1, 62, 255, 256, 1022, 1023):
            status, out, told = self.same("flown", {"SrcId": 3}, (bytes(range(256)) * 4)[:size])
            self.assertEqual((status, len(out), told), (0, 212 + size, ""))
        for size in (1024, 4095, 4096, 4097, 70001):
            told = f"nolbreva: refused 15 {size}: the payload has {size} bytes, and 1,023 is the most\n"
            self.assertEqual(self.same("flown", {}, b"x" * size), (1, b"", told))
            # a field out of range comes first, however long the payload is
            self.assertEqual(self.same("flown", {"Caller": 2}, b"x" * size), (1, b"", OUT_OF_RANGE.format(8)))

    def test_payloads_from_words_and_standard_input(self):
        for words, given in ((("--payload", "00fF"), b""), (("--payload-file", "-"), b"\0\xff")):
            status, out, told = run("write", "dstid=9", *words, given=given)
            self.assertEqual((status, told, out), (0, "", written_by_other("flown", [0, 9] + [0] * 12, b"\0\xff")[1]))

    def test_failed_reads_and_writes(self):
        with open("/dev/full", "wb") as full:
            self.assertEqual(run("write", stdout=full)[0::2], (1, "nolbreva: write: No space left on device\n"))
        self.assertEqual(run("write", first=CLOSED), (1, b"", "nolbreva: write: Bad file descriptor\n"))
        unread = ["sh", "-c", 'exec "$@" <&-', "sh"]
        self.assertEqual(run("write", "--payload-file", "-", first=unread), (1, b"", "nolbreva: standard input: read: Bad file descriptor\n"))

    def test_replays(self):
        status, out, told = run("replay", "--write", "7", "150")
        self.assertEqual((status, told), (0, ""))
        self.assertRegex(out, rb"\A150 records written, \d\d of them refused, no difference\n\Z")


if __name__ == "__main__":
    unittest.main()
