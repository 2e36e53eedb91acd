"""The command `list`, over a program that is a script."""

import itertools
import os
import subprocess
import unittest

from tests.repository import Repository

# Shows its words and its input, and tells what it finds in the file `told`.
PROGRAM = '#!/bin/sh\necho "sheet $*"\ncat\nif [ -f told ]; then cat told >&2; fi\n'


class Lists(Repository):
    def setUp(self):
        super().setUp()
        self.write("program", PROGRAM)
        self.write("one", "1\n")
        self.write("two", "2\n")
        self.listed()

    def listed(self, *words, **options):
        return self.run_it("list", *words, cwd=self.top, **options)

    def test_files_and_standard_input(self):
        self.assertEqual(self.listed(given="in\n"), (0, "sheet \nin\n", ""))
        self.assertEqual(self.listed("one", "-", "two", given="in\n"), (0, "sheet \n1\nsheet \nin\nsheet \n2\n", ""))

    def test_names(self):
        expected = "==> one <==\nsheet \n1\n==> standard input <==\nsheet \nin\n"
        self.assertEqual(self.listed("--names", "one", "-", given="in\n"), (0, expected, ""))

    def test_a_name_with_any_bytes(self):
        name = b"caf\xe9"
        with open(os.path.join(os.fsencode(self.top), name), "w", encoding="ascii"):
            pass
        words = [os.path.join(self.top, "nolbreva"), "list", "--names", name]
        done = subprocess.run(words, env=self.environment(), cwd=self.top, capture_output=True)
        self.assertEqual((done.returncode, done.stdout), (0, b"==> " + name + b" <==\nsheet \n"))

    def test_the_end_of_options(self):
        self.write("--strict", "3\n")
        self.assertEqual(self.listed("--", "--strict", "one"), (0, "sheet \n3\nsheet \n1\n", ""))

    def test_strict_and_cut(self):
        self.assertEqual(self.listed("--strict", "one"), (0, "sheet --strict\n1\n", ""))
        self.write("told", "cut at byte 5: too few bytes for a record\n")
        why = "cut at byte 5: too few bytes for a record\n"
        expected = (1, "sheet --strict\n1\nsheet --strict\n2\n", f"nolbreva: one: {why}nolbreva: two: {why}")
        self.assertEqual(self.listed("--strict", "one", "two"), expected)

    def test_editions(self):
        for words in (["--edition", "corrected", "one"], ["--edition=corrected", "one"], ["one", "--edition", "corrected"]):
            self.assertEqual(self.listed(*words), (0, "sheet --edition corrected\n1\n", ""))
        for words in (["--edition", "flown", "one"], ["--edition=corrected", "--edition=flown", "one"]):
            self.assertEqual(self.listed(*words), (0, "sheet \n1\n", ""))

    def test_an_edition_and_other_options_in_any_order(self):
        expected = "==> one <==\nsheet --edition corrected --strict\n1\n"
        for options in itertools.permutations((["--edition", "corrected"], ["--strict"], ["--names"], ["one"])):
            self.assertEqual(self.listed(*itertools.chain(*options)), (0, expected, ""))

    def test_a_word_that_is_no_edition(self):
        takes = "nolbreva: --edition takes one of flown, corrected"
        for words, word in (
            (["--edition", "salsat", "one"], "salsat"),
            (["--names", "one", "--edition=Corrected"], "Corrected"),
            (["--edition", "one"], "one"),
            (["--edition", "--strict", "one"], "--strict"),
            (["--edition", "--", "one"], "--"),
        ):
            self.assertEqual(self.listed(*words), (2, "", f"{takes}, not {word}\n"))
        for words in (["one", "--edition"], ["--edition=", "one"]):
            self.assertEqual(self.listed(*words), (2, "", f"{takes}\n"))

    def test_an_edition_that_the_program_refuses_ends_it(self):
        self.write("told", "edition: flown or corrected\n")
        expected = (2, "sheet --edition corrected\n1\n", "nolbreva: edition: flown or corrected\n")
        self.assertEqual(self.listed("--edition", "corrected", "one", "two"), expected)

    def test_a_failed_read_goes_on_with_the_next_file(self):
        self.write("told", "read: Input/output error\n")
        expected = (1, "sheet \n1\nsheet \n", "nolbreva: one: read: Input/output error\nnolbreva: standard input: read: Input/output error\n")
        self.assertEqual(self.listed("one", "-"), expected)

    def test_a_failed_write_ends_it(self):
        self.write("told", "write: No space left on device\n")
        self.assertEqual(self.listed("one", "two"), (1, "sheet \n1\n", "nolbreva: write: No space left on device\n"))

    def test_the_number_of_an_error_of_the_system_is_not_shown(self):
        self.write("told", "read: Input/output error (os error 5)\n")
        self.assertEqual(self.listed("one"), (1, "sheet \n1\n", "nolbreva: one: read: Input/output error\n"))
        self.write("told", "write: No space left on device (os error 28)\n")
        self.assertEqual(self.listed("one"), (1, "sheet \n1\n", "nolbreva: write: No space left on device\n"))
        for told in ("read: (os error 5) or not", "read: an os error 5", "read: Success (os error )", "(os error 5)"):
            self.write("told", f"{told}\n")
            self.assertEqual(self.listed("one")[2], f"nolbreva: one: {told}\n")

    def test_a_program_that_cannot_run(self):
        self.write("crates/list/src/main.rt", "// changed\n")
        self.write("program", "#!/bin/sh\necho no such library >&2\nexit 127\n")
        self.listed()
        told = "nolbreva: one: no such library\nnolbreva: list could not be run (status 127)\n"
        self.assertEqual(self.listed("one", "two"), (2, "", told))

    def test_what_an_emulator_tells_is_no_failure(self):
        self.write("told", "a warning\n")
        self.assertEqual(self.listed("one"), (0, "sheet \n1\n", "nolbreva: one: a warning\n"))

    def test_files_that_cannot_be_used(self):
        for words, reason in (
            (["one", "none"], "none: No such file or directory"),
            (["one", "crates"], "crates: Is a directory"),
            (["one/none"], "one/none: Not a directory"),
            (["--Names"], "no such option: --Names"),
        ):
            self.assertEqual(self.listed(*words), (2, "", f"nolbreva: {reason}\n"))

    def test_a_reader_that_goes_away(self):
        self.write("program", "#!/bin/sh\nwhile echo line; do :; done\n")
        self.write("crates/list/src/main.rt", "// changed\n")
        process = self.start("list", "one", cwd=self.top, stdout=subprocess.PIPE, stderr=subprocess.DEVNULL)
        process.stdout.readline()
        process.stdout.close()
        self.assertEqual(process.wait(), -13)

    def test_a_program_that_tells_of_a_reader_that_went_away(self):
        self.write("told", "write: Broken pipe (os error 32)\n")
        self.assertEqual(self.listed("one", "two"), (-13, "sheet \n1\n", ""))

    def test_standard_output_closed(self):
        told = self.listed("--names", "one", first=["sh", "-c", 'exec "$@" >&-', "sh"])
        self.assertEqual(told, (1, "", "nolbreva: write: Bad file descriptor\n"))

    def test_standard_input_closed(self):
        # the program's own read fails, and no file that was opened meanwhile takes the place of standard input
        _, out, told = self.listed(first=["sh", "-c", 'exec "$@" <&-', "sh"])
        self.assertEqual(out, "sheet \n")
        self.assertIn("Bad file descriptor", told)


if __name__ == "__main__":
    unittest.main()
