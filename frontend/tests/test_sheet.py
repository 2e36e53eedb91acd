"""The command `sheet` and `replay --sheet`, over programs that are scripts."""

import unittest

from tests.repository import Repository, builds

# Shows its words, its input and the file `expected`, if there is one; or tells what it finds in the file `told`, and shows nothing.
PROGRAM = """#!/bin/sh
if [ -f told ]; then cat told >&2; exit; fi
echo "${0##*/} $*"
cat
if [ -f expected ]; then cat expected; fi
"""
BUILDS = builds("sheet_list")
INDEPENDENT = """#!/bin/sh
case $1 in
    season) echo "$*" ;;
    sheet) shift 2; [ "$1" = corrected ] && echo "sheet_list --edition corrected" || echo "sheet_list "; cat; cat expected ;;
esac
"""
LAST = "heard 5 accepted 1 refused 4\n"


class Sheet(Repository):
    def setUp(self):
        super().setUp()
        self.write("crates.txt", "base:\nsheet_list: base io\n")
        self.write("crates/sheet_list/src/main.rt", "// a program\n")
        self.write("program", PROGRAM)
        self.write("build", BUILDS)
        self.write("pass", "P\n")
        self.write("other", "O\n")
        self.called("sheet", given="")

    def called(self, *words, **options):
        return self.run_it(*words, cwd=self.top, **options)

    def test_a_sheet_for_each_file(self):
        for words in ((), ("-",), ("--", "-"), ("--edition", "flown")):
            self.assertEqual(self.called("sheet", *words, given="in\n"), (0, "sheet_list \nin\n", ""))
        self.assertEqual(self.called("sheet", "pass", "other"), (0, "sheet_list \nP\nsheet_list \nO\n", ""))
        named = "==> pass <==\nsheet_list \nP\n==> standard input <==\nsheet_list \nin\n"
        self.assertEqual(self.called("sheet", "--names", "pass", "-", given="in\n"), (0, named, ""))

    def test_the_corrected_edition(self):
        for words in (("--edition", "corrected"), ("--edition=corrected",)):
            self.assertEqual(self.called("sheet", *words, "pass"), (0, "sheet_list --edition corrected\nP\n", ""))

    def test_what_cannot_be_used(self):
        for words, told in (
            (("--strict",), "no such option: --strict"),
            (("--edition", "third"), "--edition takes one of flown, corrected, not third"),
            (("pass", "missing"), "missing: No such file or directory"),
        ):
            self.assertEqual(self.called("sheet", *words), (2, "", f"nolbreva: {told}\n"))

    def test_failed_reads_and_writes(self):
        self.write("told", "read: Input/output error\n")
        self.assertEqual(self.called("sheet", "pass"), (1, "", "nolbreva: pass: read: Input/output error\n"))
        self.write("told", "write: No space left on device\n")
        self.assertEqual(self.called("sheet", "pass"), (1, "", "nolbreva: write: No space left on device\n"))

    def test_replays(self):
        self.write("independent/program", INDEPENDENT)
        self.write("expected", LAST)
        for edition in ((), ("--edition", "corrected")):
            status, said, _ = self.called("replay", *edition, "--sheet", "7", "5")
            self.assertEqual((status, said), (0, "5 records, 3 lines compared, no difference\n"))


if __name__ == "__main__":
    unittest.main()
