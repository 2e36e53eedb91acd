"""What long work shows of its progress on a terminal, over programs that are scripts; and that what they tell comes through at once."""

import os
import pty
import re
import select
import signal
import subprocess
import time
import unittest
from unittest import mock

import messages
import progress
from tests.repository import Repository

# A listing that waits for the file `go` after three records, and then tells what it finds in the file `told`.
WAITS = """#!/bin/sh
echo pass sheet
head -n 3
while [ ! -f go ]; do sleep 0.02; done
cat
if [ -f told ]; then cat told >&2; fi
"""
PASS = "0\n1\n2\n3\n"
SHOWN = rb"0\.0 of 0\.0 MB \(75 %\), 3 records: pass"


def screen(written):
    """The lines that a terminal shows at the end, without blanks at their ends."""
    lines = []
    for line in written.decode().split("\n"):
        cells = []
        for part in line.split("\r"):
            cells[:len(part)] = part
        lines.append("".join(cells).rstrip())
    return lines


class OnATerminal(Repository):
    def setUp(self):
        super().setUp()
        os.symlink("/usr/bin/head", self.at("tools", "head"))
        self.write("program", WAITS)
        self.write("pass", PASS)
        self.write("go", "")
        self.run_it("list", cwd=self.top)
        os.remove(os.path.join(self.top, "go"))
        self.terminal, self.end = pty.openpty()
        self.addCleanup(os.close, self.terminal)
        self.written = b""

    def begin(self, *words, **streams):
        process = self.start("list", *words, cwd=self.top, **{**dict(stdin=subprocess.DEVNULL, stdout=subprocess.PIPE, stderr=self.end), **streams})
        self.addCleanup(process.kill)
        os.close(self.end)
        return process

    def see(self, text=None):
        """Reads what the terminal is sent, until a text is there or to the end."""
        until = time.monotonic() + 60
        while text is None or not re.search(text, self.written):
            self.assertTrue(select.select([self.terminal], [], [], until - time.monotonic())[0], self.written)
            self.assertLess(time.monotonic(), until, self.written)
            try:
                piece = os.read(self.terminal, 65536)
            except OSError:
                piece = b""
            if not piece:
                self.assertIsNone(text, self.written)
                return
            self.written += piece

    def go_on(self, process):
        self.write("go", "")
        with process.stdout:
            out = process.stdout.read()
        self.see()
        return process.wait(), out

    def test_shown_and_taken_away(self):
        process = self.begin("pass")
        self.see(SHOWN)
        self.assertEqual(self.go_on(process), (0, f"pass sheet\n{PASS}"))
        self.assertEqual(screen(self.written), [""])

    def test_rows(self):
        self.write("program", WAITS.replace("head -n 3", "echo cut; echo cut; echo cut"))
        self.write("crates/list/src/main.rt", "// changed\n")
        self.write("pass", "")
        self.write("docs/REFUSALS.md", "")
        self.write("go", "")
        self.run_it("list", cwd=self.top)
        os.remove(os.path.join(self.top, "go"))
        process = self.begin("--jsonl", "pass")
        self.see(b"3 records: pass")
        self.assertEqual(self.go_on(process), (0, '{"file": "pass", "kind": "cut"}\n' * 3))
        self.assertEqual(screen(self.written), [""])

    def test_a_pipe_has_no_share(self):
        process = self.begin(stdin=subprocess.PIPE)
        process.stdin.write(PASS)
        process.stdin.close()
        # the scripts that this script has run count as well
        self.see(rb"nolbreva: \d+\.\d MB, 3 records: standard input")
        self.assertEqual(self.go_on(process)[0], 0)

    def test_a_message_stands_on_a_line_of_its_own(self):
        self.write("told", "read: Input/output error\n")
        process = self.begin("pass")
        self.see(SHOWN)
        self.assertEqual(self.go_on(process)[0], 1)
        self.assertEqual(screen(self.written), ["nolbreva: pass: read: Input/output error", ""])

    def test_the_listing_on_the_same_terminal(self):
        process = self.begin("pass", stdout=self.end)
        self.see(SHOWN)
        self.write("go", "")
        self.see()
        self.assertEqual(process.wait(), 0)
        self.assertEqual(screen(self.written), ["pass sheet", *PASS.split("\n")])

    def test_a_signal_takes_it_away(self):
        process = self.begin("pass")
        self.see(SHOWN)
        process.send_signal(signal.SIGINT)
        self.assertEqual(self.go_on(process)[0], -signal.SIGINT)
        self.assertEqual(screen(self.written), [""])

    def test_nothing_where_it_is_no_terminal(self):
        os.close(self.end)
        process = self.start("list", "pass", cwd=self.top, stdout=subprocess.PIPE, stderr=subprocess.PIPE)
        with process.stdout, process.stderr:
            self.assertEqual([process.stdout.readline() for _ in range(4)], ["pass sheet\n", "0\n", "1\n", "2\n"])
            with self.assertRaises(subprocess.TimeoutExpired):
                process.wait(3 * progress.Watch.INTERVAL)
            self.write("go", "")
            self.assertEqual((process.stdout.read(), process.stderr.read(), process.wait()), ("3\n", "", 0))

    def test_what_is_told_comes_through_at_once(self):
        os.close(self.end)
        self.write("program", "#!/bin/sh\necho a warning >&2\nwhile [ ! -f go ]; do sleep 0.02; done\n")
        self.write("crates/list/src/main.rt", "// changed\n")
        self.write("go", "")
        self.run_it("list", cwd=self.top)
        os.remove(os.path.join(self.top, "go"))
        process = self.start("list", "pass", cwd=self.top, stdout=subprocess.PIPE, stderr=subprocess.PIPE)
        with process.stdout, process.stderr:
            self.assertEqual(process.stderr.readline(), "nolbreva: pass: a warning\n")
            self.assertIsNone(process.poll())
            self.write("go", "")
            self.assertEqual((process.stderr.read(), process.wait()), ("", 0))


class Figures(unittest.TestCase):
    def text(self, done, whole, counted="records", lines=0):
        watch = progress.Watch("x", None, counted)
        watch.counting(lambda piece: None)(b"line\n" * lines)
        return watch.text(done, whole)

    def test_texts(self):
        self.assertEqual(self.text(1_250_000, 10_000_000, lines=12346), "1.2 of 10.0 MB (12 %), 12,345 records: x")
        self.assertEqual(self.text(0, 10_000_000), "0.0 of 10.0 MB (0 %), 0 records: x")
        self.assertEqual(self.text(0, 0), "0.0 MB, 0 records: x")
        self.assertEqual(self.text(None, 0, "frames", 1), "0 frames: x")
        self.assertEqual(self.text(3_000_000, 0, ""), "3.0 MB: x")

    def test_a_line_fits_the_terminal(self):
        with mock.patch.object(messages, "_columns", return_value=20), mock.patch.object(messages, "_write_error") as wrote:
            for text, written in (("x" * 50, "\rnolbreva: xxxxxxxxx\r"), ("\x1b[2J", "\rnolbreva: ?[2J     \r"), ("\x1b[2J", None)):
                wrote.reset_mock()
                messages.show(text)
                self.assertEqual(wrote.call_args, written and mock.call(written))
            messages.clear()
            self.assertEqual(wrote.call_args, mock.call(f"\r{' ' * 14}\r"))
            wrote.reset_mock()
            messages.clear()
            wrote.assert_not_called()

    def test_a_signal_right_after_the_write_takes_it_away(self):
        written = []

        def write(text):
            written.append(text)
            if "longer" in text:
                # as a signal's handler does
                messages.clear()

        with mock.patch.object(messages, "_columns", return_value=40), mock.patch.object(messages, "_write_error", write):
            messages.show("first")
            messages.show("a longer line")
            self.assertEqual(screen("".join(written).encode()), [""])
            messages.clear()

    def test_what_a_program_has_read(self):
        self.assertGreater(progress.read_by(os.getpid()), 0)
        self.assertIsNone(progress.read_by(0))


if __name__ == "__main__":
    unittest.main()
