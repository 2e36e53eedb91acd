"""docs/REFUSALS.md is the table of the refusals that the library has, and holds those that stored outputs show."""

import glob
import os
import re
import unittest

import refusals
from messages import Unusable
from tests.repository import TOP

REASON = re.compile(r'^    // [^"\n]*"([^"\n]+)"[^"\n]*\n    \w+ = (\d+),', re.MULTILINE)


def read(*names):
    with open(os.path.join(TOP, *names), encoding="utf-8") as file:
        return file.read()


class Table(unittest.TestCase):
    def setUp(self):
        self.rows = refusals.read(TOP)

    def test_it_has_the_reasons_of_base_and_their_words(self):
        source = read("crates", "base", "src", "lib.rt")
        reasons = {int(number): words for words, number in REASON.findall(source)}
        self.assertEqual(len(reasons), len(re.findall(r"^    \w+ = \d+,", source, re.MULTILINE)))
        self.assertEqual({number: row.when for number, row in self.rows.items()}, reasons)

    def test_each_number_has_one_row(self):
        numbers = [int(number) for number in re.findall(r"^\| (\d+) \|", read("docs", "REFUSALS.md"), re.MULTILINE)]
        self.assertEqual(numbers, sorted(set(numbers)))

    def test_each_row_says_its_place(self):
        for row in self.rows.values():
            self.assertTrue(row.place and row.says)
            self.assertRegex(row.places, r"\A(\d[\d,]*( to \d[\d,]*| or more)?|any but \d+|\d+(, \d+)* or \d+)\Z")
            lowest = 0 if row.places.startswith("any") else int(re.match(r"\d+(,\d+)*", row.places)[0].replace(",", ""))
            self.assertTrue(row.allows(lowest))
            self.assertTrue(lowest == 0 or not row.allows(lowest - 1))
            # a place that is always the same needs no word
            self.assertEqual(bool(re.search(r"\bP\b", row.says)), row.places != "0", row.number)

    def test_places(self):
        for number, allowed, others in ((1, (0, 209, 211), (210,)), (3, (0, 13), (14,)), (15, (1024, 9999), (0, 1023)), (17, (65535,), (0, 65534, 65536)),
                                        (28, (4, 5, 8, 9, 10, 14, 15), (3, 6, 7, 11, 12, 13, 16))):
            for place in allowed:
                self.assertTrue(self.rows[number].allows(place), (number, place))
            for place in others:
                self.assertFalse(self.rows[number].allows(place), (number, place))

    def test_stored_refusals_are_in_it(self):
        seen = set()
        listings = [os.path.join("examples", "listing"), os.path.join("crates", "list", "stdout"), *glob.glob(os.path.join(TOP, "examples", "cases", "*.out"))]
        # what `pack` writes is no text
        listings = [name for name in listings if not os.path.basename(name).startswith("pack_")]
        for name in listings:
            for number, place in re.findall(r"refused (\d+) (\d+)\b", read(name)):
                seen.add((int(number), int(place)))
        self.assertGreater(len(seen), 50)
        for number, place in seen:
            self.assertTrue(number in self.rows and self.rows[number].allows(place), (number, place))

    def test_explanations(self):
        self.assertEqual(refusals.explain(self.rows, 5, 97), "5 97: SrcId is 97, and S-NET has the sources 0 to 7\n")
        self.assertEqual(refusals.explain(self.rows).count("\n"), len(self.rows))
        for number, place in ((0, None), (99, 1), (5, 7)):
            with self.assertRaises(Unusable):
                refusals.explain(self.rows, number, place)


if __name__ == "__main__":
    unittest.main()
