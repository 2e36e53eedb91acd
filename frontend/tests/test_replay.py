"""The commands `replay` and `bench`, over programs that are scripts."""

import os
import tempfile
import unittest
from unittest import mock

import bench
import replay
from messages import Unusable
from tests.repository import Repository

SHEET = "pass sheet\n0 refused 4 6\n1 refused 4 6\nheard 2 accepted 0 refused 2\n"
INDEPENDENT = """#!/bin/sh
case $1 in
    season) if [ -f bad-season ]; then cat bad-season >&2; exit 1; fi; echo "$*" ;;
    list) cat >/dev/null; echo "$*" >expected-by; cat expected ;;
esac
"""
PROGRAM = "#!/bin/sh\necho list $* >listed-by\ncat >season\ncat listed\nif [ -f told ]; then cat told >&2; fi\n"


class Replays(Repository):
    def setUp(self):
        super().setUp()
        self.write("program", PROGRAM)
        self.write("independent/program", INDEPENDENT, 0o755)
        self.write("listed", SHEET)
        self.write("expected", SHEET)

    def replay(self, *words):
        answer = self.run_it("replay", *(words or ("7", "2")), cwd=self.top)
        self.assert_nothing_left()
        return answer

    def written(self, name):
        with open(os.path.join(self.top, name), encoding="ascii") as file:
            return file.read()

    def test_no_difference(self):
        self.assertEqual(self.replay()[:2], (0, "2 records, 4 lines compared, no difference\n"))
        self.assertEqual(self.replay("007", "2", "--cut=lone", "--clean")[0], 0)
        self.assertEqual(self.written("season"), "season 7 2 --cut lone --clean\n")

    def test_editions(self):
        for words, season, ours, theirs in (
            (("7", "2"), "season 7 2", "list", "list --edition flown"),
            (("--edition", "flown", "7", "2"), "season 7 2 --edition flown", "list", "list --edition flown"),
            (("7", "--edition=corrected", "2"), "season 7 2 --edition corrected", "list --edition corrected", "list --edition corrected"),
        ):
            self.assertEqual(self.replay(*words)[0], 0)
            self.assertEqual([self.written(name) for name in ("season", "listed-by", "expected-by")], [f"{season}\n", f"{ours}\n", f"{theirs}\n"])

    def test_a_difference(self):
        self.write("listed", SHEET.replace("1 refused 4 6", "1 refused 4 7"))
        said = "first difference in line 3 (record 1)\n  nolbreva:    1 refused 4 7\n  independent: 1 refused 4 6\n"
        self.assertEqual(self.replay()[:2], (1, said))

    def test_a_failed_write_is_no_difference(self):
        self.write("listed", "pass sheet\n")
        self.write("told", "write: No space left on device\n")
        status, out, told = self.replay()
        self.assertEqual((status, out), (1, ""))
        self.assertTrue(told.endswith("nolbreva: write: No space left on device\n"))

    def test_a_failed_season_speaks_of_nolbreva(self):
        self.write("bad-season", "independent: standard output: No space left on device (os error 28)\n")
        status, out, told = self.replay()
        self.assertEqual((status, out), (1, ""))
        self.assertTrue(told.endswith("nolbreva: making the season failed: No space left on device\n"))


class Compared(unittest.TestCase):
    def compare(self, ours, theirs, wanted=2):
        with tempfile.TemporaryDirectory() as room, mock.patch.object(replay, "say") as say:
            names = [os.path.join(room, name) for name in ("ours", "theirs")]
            for name, text in zip(names, (ours, theirs)):
                with open(name, "w", encoding="ascii") as file:
                    file.write(text)
            status = replay.compare(*names, wanted)
            return status, "".join(call.args[0] for call in say.call_args_list)

    def test_cut(self):
        text = SHEET.replace("heard", "cut\nheard")
        self.assertEqual(self.compare(text, text), (0, "2 records, 5 lines compared, no difference; then both cut the listing\n"))

    def test_more_records_than_a_sheet_takes(self):
        text = "pass sheet\ncut\nheard 65535 accepted 65535 refused 0\n"
        said = "65535 records, 3 lines compared, no difference; a sheet takes 65535 of the 70000 records, and both cut the listing there\n"
        self.assertEqual(self.compare(text, text, 70000), (0, said))

    def test_a_listing_that_ends_early_or_late(self):
        status, said = self.compare("pass sheet\n0 refused 4 6\n", SHEET)
        self.assertEqual((status, said.splitlines()[0]), (1, "first difference in line 3 (record 1)"))
        self.assertIn("nolbreva:    (no line)", said)
        status, said = self.compare(SHEET + "more\n", SHEET)
        self.assertEqual((status, said.splitlines()[0]), (1, "first difference in line 5"))

    def test_bytes_that_are_no_text(self):
        self.assertEqual(self.compare("pass sheet\n0 re", "pass sheet\n0 refused 4 6\n")[0], 1)


class Figures(unittest.TestCase):
    def test_both(self):
        line = bench.figures(62, 54_800_000, [0.2, 0.1, 0.3], [0.4, 0.5, 0.3])
        self.assertEqual(line, "payload 62: nolbreva 1000000 records/s (274 MB/s), independent 500000 records/s (137 MB/s), ratio 2.00\n")

    def test_under_an_emulator(self):
        line = bench.figures(62, 54_800_000, [], [0.4])
        self.assertEqual(line, "payload 62: independent 500000 records/s (137 MB/s)\n")

    def test_the_emulator_is_told_and_nothing_runs_under_it(self):
        with mock.patch.object(bench, "say") as say, mock.patch.object(bench, "made_by") as made_by, mock.patch.object(bench, "list_one") as list_one:
            bench.bench(["emulator", "list"], "independent", emulated=True)
        said = "".join(call.args[0] for call in say.call_args_list)
        self.assertIn("emulator", said.splitlines()[0])
        self.assertNotIn("ratio ", said.replace("no ratio\n", ""))
        self.assertTrue(made_by.called)
        self.assertFalse(list_one.called)


class Seasons(unittest.TestCase):
    def test_words(self):
        self.assertEqual(replay.season_words({"payload": "010", "clean": True}, ["1", "2"]), ["1", "2", "--payload", "10", "--clean"])
        for options, rest in (({}, ["1"]), ({"payload": "1024"}, ["1", "2"]), ({"full": True, "full-exact": True}, ["1", "2"])):
            with self.subTest(options), self.assertRaises(Unusable):
                replay.season_words(options, rest)


if __name__ == "__main__":
    unittest.main()
