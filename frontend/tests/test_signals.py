"""Signals leave no folder and no process behind, and end the front end as they end others."""

import os
import signal
import subprocess
import unittest
from unittest import mock

import leftovers
from tests.repository import WAITS, Repository

# Notes its own number, and like the prover does not end at SIGINT.
STAYS = "trap '' INT; echo $$ >>running; "
# A build with a child of its own, and a file in its temporary folder.
BUILD_STAYS = f"{STAYS} cat /dev/null >$TMPDIR/left; (echo $$ >>running; exec sleep 600) & sleep 600\n"


class Signals(Repository):
    def running(self):
        """The processes that the scripts noted, as far as they still run."""
        try:
            with open(os.path.join(self.top, "running"), encoding="ascii") as file:
                noted = [int(line) for line in file]
        except FileNotFoundError:
            return []
        return [pid for pid in noted if self.runs(pid)]

    @staticmethod
    def runs(pid):
        try:
            with open(f"/proc/{pid}/stat", encoding="latin-1") as file:
                return file.read().rpartition(")")[2].split()[0] not in "ZX"
        except OSError:
            return False

    def end_by(self, number, *words):
        """Starts a command, ends it by a signal once its programs run, and looks at what is left."""
        process = self.start(*words, cwd=self.top, stdin=subprocess.PIPE, stdout=subprocess.DEVNULL, stderr=subprocess.DEVNULL)
        with process.stdin:
            self.wait_for(self.running)
            before = os.listdir(self.at("tmp"))
            process.send_signal(number)
            self.assertEqual(process.wait(), -number)
        self.assertEqual(self.running(), [])
        self.assert_nothing_left()
        os.remove(os.path.join(self.top, "running"))
        return before

    def test_during_a_build(self):
        self.write("build", BUILD_STAYS)
        for number in leftovers.SIGNALS:
            with self.subTest(number):
                self.assertEqual(len(self.end_by(number, "list")), 1)
                self.assertFalse(os.path.exists(os.path.join(self.top, "target", "list.stamp")))

    def test_during_a_listing(self):
        self.write("program", f"#!/bin/sh\n{STAYS}\ncat\n")
        self.run_it("list", cwd=self.top)
        for number in leftovers.SIGNALS:
            with self.subTest(number):
                self.end_by(number, "list")

    def test_during_a_replay(self):
        self.write("program", f"#!/bin/sh\n{STAYS}\nexec sleep 600\n")
        self.write("independent/program", "#!/bin/sh\n")
        for number in leftovers.SIGNALS:
            with self.subTest(number):
                self.assertEqual(len(self.end_by(number, "replay", "1", "2")), 1)

    def test_an_ignored_signal_stays_ignored(self):
        self.write("build", WAITS)
        ignore = ["sh", "-c", "trap '' HUP; exec \"$@\"", "sh"]
        process = self.start("list", first=ignore, stdin=subprocess.DEVNULL, stdout=subprocess.PIPE, stderr=subprocess.DEVNULL)
        self.wait_for(self.builds)
        process.send_signal(signal.SIGHUP)
        self.write("go", "")
        self.assertEqual((process.communicate()[0], process.returncode), ("pass sheet\n", 0))


class Stubborn(unittest.TestCase):
    def test_a_process_that_does_not_end_by_term_is_killed(self):
        words = ["sh", "-c", "trap '' TERM; echo; while :; do sleep 0.1; done"]
        with mock.patch.object(leftovers, "PATIENCE", 0.3):
            with leftovers.started(words, leads=True, stdout=subprocess.PIPE) as process:
                with process.stdout:
                    process.stdout.readline()
        self.assertFalse(Signals.runs(process.pid))

    def test_a_folder_goes_with_an_error_too(self):
        with self.assertRaises(ValueError):
            with leftovers.folder(mode=0o755) as room:
                self.assertEqual(os.stat(room).st_mode & 0o777, 0o755)
                raise ValueError
        self.assertFalse(os.path.exists(room))


if __name__ == "__main__":
    unittest.main()
