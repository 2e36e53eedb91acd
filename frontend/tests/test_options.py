"""Options, and words that are none."""

import unittest

from messages import Unusable
from options import Help, only_one_of, taken, whole_number


class Options(unittest.TestCase):
    def taken(self, *words):
        return taken(words, flags=("--flag",), valued={"--value": (), "--choice": ("left", "right")})

    def test_options_and_the_rest(self):
        self.assertEqual(self.taken(), ({}, []))
        self.assertEqual(self.taken("a", "--flag", "-", "b"), ({"flag": True}, ["a", "-", "b"]))
        self.assertEqual(self.taken("--value", "7", "a"), ({"value": "7"}, ["a"]))
        self.assertEqual(self.taken("--value=7", "--value=8=9"), ({"value": "8=9"}, []))
        self.assertEqual(self.taken("--choice", "left", "a", "--choice=right"), ({"choice": "right"}, ["a"]))

    def test_the_end_of_options(self):
        self.assertEqual(self.taken("--flag", "--", "--flag", "--", "-h"), ({"flag": True}, ["--flag", "--", "-h"]))

    def test_help(self):
        for word in ("-h", "--help"):
            with self.assertRaises(Help):
                self.taken("a", word, "--bogus")

    def test_what_is_no_option(self):
        for words, why in (
            (["--bogus"], "no such option: --bogus"),
            (["-x"], "no such option: -x"),
            (["--fla"], "no such option: --fla"),
            (["--flag=1"], "no such option: --flag=1"),
            (["--value=1", "--other=2"], "no such option: --other=2"),
            (["--value"], "--value takes a value"),
            (["--value="], "--value takes a value"),
            (["--choice"], "--choice takes one of left, right"),
            (["--choice", ""], "--choice takes one of left, right"),
            (["--choice", "up"], "--choice takes one of left, right, not up"),
        ):
            with self.subTest(words), self.assertRaises(Unusable) as raised:
                self.taken(*words)
            self.assertEqual(str(raised.exception), why)

    def test_options_that_exclude_each_other(self):
        self.assertIsNone(only_one_of({"flag": True}, "left", "right"))
        self.assertEqual(only_one_of({"flag": True, "right": True}, "left", "right"), "right")
        with self.assertRaises(Unusable) as raised:
            only_one_of({"right": True, "left": True}, "left", "right")
        self.assertEqual(str(raised.exception), "--left and --right exclude each other")

    def test_whole_numbers(self):
        self.assertEqual(whole_number("007"), 7)
        self.assertEqual(whole_number(str(2**64 - 1)), 2**64 - 1)
        # as long as it likes, where most of it are zeros
        self.assertEqual(whole_number("0" * 5000 + "7", 9), 7)
        for word in ("", "-1", "+1", "1.5", "x", "1_000", "\u0663", str(2**64), "1" * 5000):
            with self.subTest(word), self.assertRaises(Unusable):
                whole_number(word)


if __name__ == "__main__":
    unittest.main()
