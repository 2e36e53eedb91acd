"""The commands `unpack`, `pack` and `replay --pack`, over programs that are scripts."""

import os
import unittest

from tests.repository import Repository, builds

# Shows its name and its input, and tells what it finds in the file `told`.
PROGRAM = """#!/bin/sh
echo "${0##*/} $*"
cat
if [ -f told ]; then cat told >&2; fi
"""
# Hands its input on, and where it is asked to writes something more.
COPIES = """#!/bin/sh
cat
if [ -f "more-${0##*/}" ]; then echo more; fi
"""
BUILDS = builds("unpack", "pack")
INDEPENDENT = """#!/bin/sh
case $1 in
    season) echo "$*" ;;
    unpack | pack) cat; if [ -f "other-$1" ]; then echo other; fi ;;
esac
"""


class Pack(Repository):
    def setUp(self):
        super().setUp()
        self.write("crates.txt", "base:\nunpack: base io\npack: base io\n")
        for name in ("unpack", "pack"):
            self.write(f"crates/{name}/src/main.rt", "// a program\n")
        self.write("program", PROGRAM)
        self.write("build", BUILDS)
        self.write("file", "F\n")
        self.called("unpack", given="")
        self.called("pack", given="")

    def called(self, *words, **options):
        return self.run_it(*words, cwd=self.top, **options)

    def test_inputs(self):
        for command in ("unpack", "pack"):
            for words in ((), ("-",), ("--", "-")):
                self.assertEqual(self.called(command, *words, given="in\n"), (0, f"{command} \nin\n", ""))
            self.assertEqual(self.called(command, "file"), (0, f"{command} \nF\n", ""))

    def test_what_is_wrong_is_told_after_what_is_written(self):
        for command, told in (("unpack", "cut at byte 212: too few bytes for a record"), ("pack", "line 3 column 12: no bit; write 0 or 1")):
            self.write("told", f"{told}\n")
            self.assertEqual(self.called(command, "file"), (1, f"{command} \nF\n", f"nolbreva: file: {told}\n"))

    def test_failed_reads_and_writes(self):
        for command in ("unpack", "pack"):
            self.write("told", "read: Input/output error\n")
            self.assertEqual(self.called(command, "file")[0::2], (1, "nolbreva: file: read: Input/output error\n"))
            self.write("told", "write: No space left on device\n")
            self.assertEqual(self.called(command, "file")[0::2], (1, "nolbreva: write: No space left on device\n"))

    def test_words_that_cannot_be_used(self):
        for command in ("unpack", "pack"):
            self.assertEqual(self.called(command, "file", "other")[0::2], (2, "nolbreva: one file is taken, and this is too much: other\n"))
            self.assertEqual(self.called(command, "--strict")[0::2], (2, "nolbreva: no such option: --strict\n"))
            self.assertEqual(self.called(command, "nowhere")[0::2], (2, "nolbreva: nowhere: No such file or directory\n"))

    def test_replays(self):
        self.write("independent/program", INDEPENDENT, 0o755)
        self.write("program", COPIES)
        self.write("crates/unpack/src/main.rt", "// another program\n")
        self.write("crates/pack/src/main.rt", "// another program\n")
        self.called("unpack", given="")
        self.called("pack", given="")
        self.called("replay", "--pack", "7", "1")
        self.assertEqual(self.called("replay", "--pack", "7", "1", "--payload", "9"), (0, "1 records unpacked and packed, no difference\n", ""))
        # "season 7 1" and a line feed are 11 bytes
        for name, said in (
            ("more-unpack", "the lines differ first in byte 11\n"),
            ("other-unpack", "the lines differ first in byte 11\n"),
            ("more-pack", "the records differ first in byte 11\n"),
        ):
            self.write(name, "")
            self.assertEqual(self.called("replay", "--pack", "7", "1"), (1, said, ""))
            self.called("unpack", given="")
            os.remove(os.path.join(self.top, name))
        self.write("more-pack", "")
        self.write("other-pack", "")
        self.write("independent/program", INDEPENDENT.replace("echo other", "echo more"), 0o755)
        self.write("independent/src/main.rs", "// changed")
        self.called("replay", "--pack", "7", "1")
        said = "the records packed and those of the season differ first in byte 11\n"
        self.assertEqual(self.called("replay", "--pack", "7", "1"), (1, said, ""))

    def test_words_of_a_replay(self):
        for words, told in (
            (("7",), "replay takes a seed and a number of records"),
            (("7", "1", "--payload", "1024"), "too large a number: 1024"),
            (("7", "1", "--clean"), "no such option: --clean"),
        ):
            self.assertEqual(self.called("replay", "--pack", *words), (2, "", f"nolbreva: {told}\n"))


if __name__ == "__main__":
    unittest.main()
