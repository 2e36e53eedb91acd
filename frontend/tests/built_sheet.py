"""The built program `sheet_list` behind the front end, and the independent program beside it."""

import os
import unittest

from tests.built_list import CLOSED, CORRECTED, CORRECTED_PASS, PASS, read, run

SHEET = os.path.join("examples", "sheet")
CORRECTED_SHEET = os.path.join("examples", "cases", "corrected_pass.sheet")


def setUpModule():
    # builds what is not built, and what this tells is not part of any test
    status, _, told = run("replay", "--sheet", "1", "1")
    if status != 0:
        raise RuntimeError(told)


class Sheets(unittest.TestCase):
    def test_the_examples(self):
        for words, given in (((PASS,), b""), ((), read(PASS)), (("-",), read(PASS)), (("--edition", "flown", PASS), b"")):
            self.assertEqual(run("sheet", *words, given=given), (0, read(SHEET), ""))
        self.assertEqual(run("sheet", *CORRECTED, CORRECTED_PASS), (0, read(CORRECTED_SHEET), ""))
        self.assertEqual(run("sheet", PASS, PASS), (0, 2 * read(SHEET), ""))

    def test_failed_reads_and_writes(self):
        with open("/dev/full", "wb") as full:
            self.assertEqual(run("sheet", PASS, stdout=full)[0::2], (1, "nolbreva: write: No space left on device\n"))
        self.assertEqual(run("sheet", PASS, first=CLOSED), (1, b"", "nolbreva: write: Bad file descriptor\n"))
        unread = ["sh", "-c", 'exec "$@" <&-', "sh"]
        told = "nolbreva: standard input: read: Bad file descriptor\n"
        self.assertEqual(run("sheet", first=unread), (1, b"pass sheet totals\n", told))

    def test_replays(self):
        for words in (("7", "300"), (*CORRECTED, "7", "300"), ("7", "300", "--cut", "lone")):
            status, said, told = run("replay", "--sheet", *words)
            self.assertEqual((status, told), (0, ""))
            self.assertTrue(said.startswith(b"300 records, ") and b"no difference" in said, said)

    def test_full_sheets(self):
        for words, cut in (("--full-exact", False), ("--full", True)):
            for edition in ((), CORRECTED):
                status, said, _ = run("replay", "--sheet", *edition, "3", "0", words)
                self.assertEqual((status, b"both cut" in said), (0, cut), said)


if __name__ == "__main__":
    unittest.main()
