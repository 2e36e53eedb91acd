"""The commands `beesat`, `beesat-set` and `replay --beesat`, over programs that are scripts."""

import unittest

from tests.repository import Repository, builds

# Shows its words and its input, and tells what it finds in the file `told`; then it shows nothing.
PROGRAM = """#!/bin/sh
if [ -f told ]; then cat told >&2; exit; fi
echo "${0##*/} $*"
cat
"""
BUILDS = builds("beesat_list", "beesat_set")
INDEPENDENT = """#!/bin/sh
case $1 in
    beesat-season) echo "$*" ;;
    beesat) echo "beesat_list "; cat; cat expected ;;
esac
"""
LAST = "heard 70000 telemetry 1 idle 1 refused 69998\n"


class Beesat(Repository):
    def setUp(self):
        super().setUp()
        self.write("crates.txt", "base:\nbeesat_list: base io\nbeesat_set: base io\n")
        for name in ("beesat_list", "beesat_set"):
            self.write(f"crates/{name}/src/main.rt", "// a program\n")
        self.write("program", PROGRAM)
        self.write("build", BUILDS)
        self.write("frame", "F\n")
        self.called("beesat", given="")
        self.called("beesat-set", "0", "0", given="")

    def called(self, *words, **options):
        return self.run_it(*words, cwd=self.top, **options)

    def test_frames_listed(self):
        for words in ((), ("-",), ("--", "-")):
            self.assertEqual(self.called("beesat", *words, given="in\n"), (0, "beesat_list \nin\n", ""))
        self.assertEqual(self.called("beesat", "frame"), (0, "beesat_list \nF\n", ""))

    def test_a_field_written(self):
        for words in ((), ("-",)):
            self.assertEqual(self.called("beesat-set", "83", "2047", *words, given="in\n"), (0, "beesat_set 83 2047\nin\n", ""))
        most = "4294967295"
        self.assertEqual(self.called("beesat-set", most, f"000{most}", "frame"), (0, f"beesat_set {most} {most}\nF\n", ""))

    def test_refused(self):
        self.write("told", "refused 29 4096\n")
        self.assertEqual(self.called("beesat-set", "0", "4096", "frame"), (1, "", "nolbreva: frame: refused 29 4096\n"))

    def test_failed_reads_and_writes(self):
        for command in (("beesat",), ("beesat-set", "0", "0")):
            self.write("told", "read: Input/output error\n")
            self.assertEqual(self.called(*command, "frame"), (1, "", "nolbreva: frame: read: Input/output error\n"))
            self.write("told", "write: No space left on device\n")
            self.assertEqual(self.called(*command, "frame"), (1, "", "nolbreva: write: No space left on device\n"))

    def test_a_name_that_begins_with_a_dash(self):
        self.write("-x", "dash\n")
        self.assertEqual(self.called("beesat", "--", "-x"), (0, "beesat_list \ndash\n", ""))
        self.assertEqual(self.called("beesat-set", "1", "2", "--", "-x"), (0, "beesat_set 1 2\ndash\n", ""))

    def test_replays(self):
        self.write("independent/program", INDEPENDENT, 0o755)
        self.write("expected", "")
        self.write("program", PROGRAM + "cat last\n")
        self.write("crates/beesat_list/src/main.rt", "// changed\n")
        for name in ("last", "expected"):
            self.write(name, LAST)
        # as many as one likes: no sheet is filled
        status, out, _ = self.called("replay", "--beesat", "7", "070000", "--cut=9", "--clean")
        self.assertEqual((status, out), (0, "70000 frames, 3 lines compared, no difference\n"))
        self.write("last", f"cut\n{LAST}")
        self.write("expected", f"cut\n{LAST}")
        said = "70000 frames, 4 lines compared, no difference; then both cut the listing\n"
        self.assertEqual(self.called("replay", "7", "70000", "--beesat"), (0, said, ""))
        self.write("expected", LAST)
        status, out, _ = self.called("replay", "--beesat", "7", "70000")
        self.assertEqual((status, out.splitlines()[0]), (1, "first difference in line 3"))
        self.assert_nothing_left()

    def test_the_words_of_a_season(self):
        import replay

        self.assertEqual(replay.frames_words({"beesat": True, "cut": "09", "clean": True}, ["07", "2"]), ["7", "2", "--cut", "9", "--clean"])


if __name__ == "__main__":
    unittest.main()
