"""The commands `search` and `replay --recording`, over programs that are scripts."""

import unittest

from tests.repository import Repository, builds

# Shows its words and its input, and tells what it finds in the file `told`; then it shows nothing.
PROGRAM = """#!/bin/sh
if [ -f told ]; then cat told >&2; exit; fi
echo "${0##*/} $*"
cat
"""
BUILDS = builds("night")
INDEPENDENT = """#!/bin/sh
case $1 in
    recording) echo "$*" ;;
    search) echo "night $([ "$3" = corrected ] && echo --edition corrected)"; cat; cat expected ;;
esac
"""
LAST = "bits 5000 headers 2 accepted 1 refused 1\n"


class Search(Repository):
    def setUp(self):
        super().setUp()
        self.write("crates.txt", "base:\nnight: base io\n")
        self.write("crates/night/src/main.rt", "// a program\n")
        self.write("program", PROGRAM)
        self.write("build", BUILDS)
        self.write("bits", "B\n")
        self.called("search", given="")

    def called(self, *words, **options):
        return self.run_it(*words, cwd=self.top, **options)

    def test_standard_input_and_a_file(self):
        for words in ((), ("-",), ("--", "-"), ("--edition", "flown")):
            self.assertEqual(self.called("search", *words, given="in\n"), (0, "night \nin\n", ""))
        self.assertEqual(self.called("search", "bits"), (0, "night \nB\n", ""))
        self.assertEqual(self.called("search", "--edition=corrected", "bits"), (0, "night --edition corrected\nB\n", ""))

    def test_words_that_cannot_be_used(self):
        for words in (("bits", "bits"), ("--strict",), ("--edition",), ("--edition", "other"), ("nothing",), (".",)):
            status, out, told = self.called("search", *words)
            self.assertEqual((status, out), (2, ""), words)
            self.assertTrue(told.startswith("nolbreva: "), words)

    def test_failed_reads_and_writes(self):
        self.write("told", "read: Input/output error\n")
        self.assertEqual(self.called("search", "bits"), (1, "", "nolbreva: bits: read: Input/output error\n"))
        self.write("told", "write: No space left on device\n")
        self.assertEqual(self.called("search", "bits"), (1, "", "nolbreva: write: No space left on device\n"))

    def test_replays(self):
        self.write("independent/program", INDEPENDENT, 0o755)
        self.write("program", PROGRAM + "cat last\n")
        self.write("crates/night/src/main.rt", "// changed\n")
        for name in ("last", "expected"):
            self.write(name, LAST)
        self.called("replay", "--recording", "7", "5000")
        for words in (("--bad",), ("--gap", "60"), ("--edition", "corrected")):
            said = "5000 bits, 3 lines compared, no difference\n"
            self.assertEqual(self.called("replay", "--recording", "7", "5000", *words), (0, said, ""))
        self.write("expected", f"77 refused 4 6\n{LAST}")
        status, out, _ = self.called("replay", "7", "5000", "--recording")
        self.assertEqual((status, out.splitlines()[0]), (1, "first difference in line 3 (place 77)"))
        for words in (("7",), ("7", "5", "--gap", "60001"), ("7", "5", "--clean")):
            self.assertEqual(self.called("replay", "--recording", *words)[0], 2, words)
        self.assert_nothing_left()

    def test_the_words_of_a_recording(self):
        import replay

        season = replay.recording({"recording": True, "gap": "09", "bad": True, "edition": "corrected"}, ["07", "2"])
        self.assertEqual(season.made, ["recording", "7", "2", "--gap", "9", "--bad"])
        self.assertEqual((season.listed, season.called, season.wanted), (["search", "--edition", "corrected"], "bits", 2))


if __name__ == "__main__":
    unittest.main()
