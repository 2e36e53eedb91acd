"""The commands `page` and `replay --page`, over a program that is a script."""

import unittest

from tests.repository import Repository, builds

# Shows its words and its input, and tells what it finds in the file `told`; then it shows nothing.
PROGRAM = """#!/bin/sh
if [ -f told ]; then cat told >&2; exit; fi
echo "${0##*/} $*"
cat
"""
BUILDS = builds("page_list")
INDEPENDENT = """#!/bin/sh
case $1 in
    season) echo "$*" ;;
    page) echo "page_list "; cat; cat expected ;;
esac
"""
ROW = "0 THM_PGET_S31_TH_BAT0 raw -300 /256 shown -1.17187500 °C f64 bff2c00000000000\n"
LAST = "heard 65535 accepted 1 pages 1\n"


class Page(Repository):
    def setUp(self):
        super().setUp()
        self.write("crates.txt", "base:\npage_list: base io\n")
        self.write("crates/page_list/src/main.rt", "// a program\n")
        self.write("program", PROGRAM)
        self.write("build", BUILDS)
        self.write("pass", "P\n")
        self.called("page", given="")

    def called(self, *words, **options):
        return self.run_it(*words, cwd=self.top, **options)

    def test_pages_listed(self):
        for words in ((), ("-",), ("--", "-")):
            self.assertEqual(self.called("page", *words, given="in\n"), (0, "page_list \nin\n", ""))
        self.assertEqual(self.called("page", "pass"), (0, "page_list \nP\n", ""))

    def test_what_cannot_be_used(self):
        self.assertEqual(self.called("page", "pass", "pass")[:2], (2, ""))
        self.assertEqual(self.called("page", "none"), (2, "", "nolbreva: none: No such file or directory\n"))
        # the rows are S-NET's
        self.assertEqual(self.called("page", "--edition", "corrected"), (2, "", "nolbreva: no such option: --edition\n"))

    def test_failed_reads_and_writes(self):
        self.write("told", "read: Input/output error\n")
        self.assertEqual(self.called("page", "pass"), (1, "", "nolbreva: pass: read: Input/output error\n"))
        self.write("told", "write: No space left on device\n")
        self.assertEqual(self.called("page", "pass"), (1, "", "nolbreva: write: No space left on device\n"))

    def test_replays(self):
        self.write("independent/program", INDEPENDENT, 0o755)
        self.write("program", PROGRAM + "cat last\n")
        self.write("crates/page_list/src/main.rt", "// changed\n")
        for name in ("last", "expected"):
            self.write(name, ROW + LAST)
        status, out, _ = self.called("replay", "--page", "7", "070000", "--clean")
        self.assertEqual((status, out), (0, "65535 records, 4 lines compared, no difference\n"))
        # one byte of the unit differs
        self.write("last", ROW.replace("°", "¹") + LAST)
        status, out, _ = self.called("replay", "--page", "7", "70000")
        self.assertEqual((status, out.splitlines()[0]), (1, "first difference in line 3 (record 0)"))
        self.assert_nothing_left()

    def test_the_words_of_a_season(self):
        import replay

        season = replay.pages({"page": True, "cut": "lone", "clean": True}, ["07", "2"])
        self.assertEqual((season.made, season.listed), (["season", "7", "2", "--cut", "lone", "--clean", "--pages"], ["page"]))


if __name__ == "__main__":
    unittest.main()
