"""When a program is built, and what is told of it."""

import os
import shutil
import subprocess
import unittest

import builds
from messages import Unusable
from tests.repository import BUILDS, LISTS, WAITS, Repository, makes, proves


class Builds(Repository):
    def test_first_use_builds_and_the_second_does_not(self):
        self.assertEqual(self.run_it("list", given="a\n")[:2], (0, "pass sheet\na\n"))
        self.assertEqual(self.run_it("list", given="b\n"), (0, "pass sheet\nb\n", ""))
        self.assertEqual(self.builds(), 1)
        self.assert_nothing_left()

    def test_a_changed_source_builds_and_one_of_another_crate_does_not(self):
        self.run_it("list")
        self.write("crates/other/src/lib.rt", "// changed\n")
        self.run_it("list")
        self.assertEqual(self.builds(), 1)
        self.write("crates/base/src/lib.rt", "// changed\n")
        self.run_it("list")
        self.assertEqual(self.builds(), 2)
        self.write("crates/list/proofs/Lib.antt", "")
        self.run_it("list")
        self.assertEqual(self.builds(), 3)

    def test_a_failed_build_lists_nothing_however_often(self):
        unproved = proves("base", "not-proved"), "1 of 2: base NOT PROVED\n"
        above = "rt: the library base did not build, so nothing above it was checked"
        calls = 0
        for said, first, why in (
            (*unproved, "base is not proved"),
            (f"{unproved[0]}echo '{above}'\n", unproved[1], above),
            (proves("base") + proves("list", "not-proved"), "2 of 2: list NOT PROVED\n", "list is not proved"),
        ):
            self.write("build", f"{makes('list')}{said}exit 1\n")
            for _ in (1, 2):
                status, out, told = self.run_it("list", given="a\n")
                calls += 1
                self.assertEqual((status, out, self.builds()), (2, "", calls))
                self.assertIn(f"nolbreva: {first}", told)
                self.assertIn(f"nolbreva: list was not built ({why}); target/build-list.log has all that was said\n", told)

    def test_the_status_of_the_run_that_ends_a_build_says_nothing_of_it(self):
        self.write("build", BUILDS + "exit 3\n")
        self.assertEqual(self.run_it("list", given="a\n")[:2], (0, "pass sheet\na\n"))
        self.assertEqual(self.run_it("list", given="b\n"), (0, "pass sheet\nb\n", ""))

    def test_a_program_of_a_failed_build_is_not_that_of_the_old_sources(self):
        self.run_it("list")
        self.write("crates/base/src/lib.rt", "// wrong\n")
        self.write("program", "#!/bin/sh\necho wrong\n")
        self.write("build", makes("list") + "exit 1\n")
        self.assertEqual(self.run_it("list")[0], 2)
        self.write("crates/base/src/lib.rt", "// base\n")
        self.assertEqual(self.run_it("list")[0], 2)
        self.write("program", LISTS)
        self.write("build", BUILDS)
        self.assertEqual(self.run_it("list")[:2], (0, "pass sheet\n"))

    def test_a_program_that_somebody_else_put_there_is_built_again(self):
        self.run_it("list")
        self.write("crates/list/out/list", "#!/bin/sh\necho other\n", 0o755)
        self.assertEqual(self.run_it("list")[:2], (0, "pass sheet\n"))
        self.assertEqual(self.builds(), 2)

    def test_sources_that_change_during_the_build_are_told(self):
        self.write("build", BUILDS + "echo >>crates/list/src/main.rt\n")
        status, out, told = self.run_it("list")
        self.assertEqual((status, out), (2, ""))
        self.assertIn("changed while it was built", told)

    def test_what_is_proved_is_told_line_by_line(self):
        self.write("crates.txt", "first:\nbase: first\nlist: base io\n")
        # of what has not changed, as `first` here, the kit says nothing
        self.write("build", f"{proves('base')}sleep 60\n{BUILDS}")
        process = self.start("list", stdin=subprocess.DEVNULL, stdout=subprocess.DEVNULL, stderr=subprocess.PIPE)
        with process.stderr:
            self.assertEqual(process.stderr.readline(), "nolbreva: building list; its 3 crates are proved first, which from nothing takes some minutes\n")
            self.assertEqual(process.stderr.readline(), "nolbreva: 2 of 3: base proved\n")
            process.terminate()
            process.wait()

    def second_build(self, first):
        """Starts a second build while the first is under way, and lets both end; answers the second's status and output."""
        second = self.start("list", stdin=subprocess.DEVNULL, stdout=subprocess.PIPE, stderr=subprocess.PIPE)
        self.assertEqual(second.stderr.readline(), "nolbreva: another build is under way; waiting for it to end\n")
        self.write("go", "")
        first.wait()
        return second.communicate()[0], second.returncode

    def test_two_builds_wait_for_each_other(self):
        self.write("build", WAITS)
        first = self.start("list", stdin=subprocess.DEVNULL, stdout=subprocess.DEVNULL, stderr=subprocess.DEVNULL)
        self.wait_for(self.builds)
        self.assertEqual(self.second_build(first), ("pass sheet\n", 0))
        self.assertEqual((first.returncode, self.builds()), (0, 1))

    def test_what_a_killed_front_end_left_is_waited_for(self):
        self.write("build", WAITS.replace(BUILDS, "echo end >>builds\n" + BUILDS))
        first = self.start("list", stdin=subprocess.DEVNULL, stdout=subprocess.DEVNULL, stderr=subprocess.DEVNULL)
        self.wait_for(self.builds)
        first.kill()
        self.assertEqual(self.second_build(first), ("pass sheet\n", 0))
        with open(os.path.join(self.top, "builds"), encoding="ascii") as file:
            self.assertEqual(file.read().split(), ["build", "end", "build", "end"])

    def test_standard_error_closed(self):
        # what is told goes nowhere, and into no file that was opened since
        self.assertEqual(self.run_it("list", given="a\n", first=["sh", "-c", 'exec "$@" 2>&-', "sh"]), (0, "pass sheet\na\n", ""))
        said = "crate list: modules loaded=0 checked=1\nlogic=proved functions=1\nrt: running it; to give it other input, run that file yourself\n"
        for name, text in (("build.lock", ""), ("build-list.log", said)):
            with open(os.path.join(self.top, "target", name), encoding="ascii") as file:
                self.assertEqual(file.read(), text)

    def test_no_repository(self):
        os.remove(os.path.join(self.top, "crates.txt"))
        told = f"nolbreva: {self.top} is no repository of nolbreva: crates.txt: No such file or directory\n"
        self.assertEqual(self.run_it("list"), (2, "", told))

    def read_only(self):
        """Makes the repository read-only; answers the words that run a command so that this holds for root too."""
        for place, _, names in os.walk(self.top, topdown=False):
            for name in (place, *(os.path.join(place, name) for name in names)):
                mode = os.stat(name).st_mode
                self.addCleanup(os.chmod, name, mode)
                os.chmod(name, mode & 0o555)
        if os.geteuid() != 0:
            return []
        if not shutil.which("setpriv"):
            self.skipTest("root may write everything, and there is no setpriv")
        return [shutil.which("setpriv"), "--bounding-set=-all", "--inh-caps=-all"]

    def test_read_only_and_not_built(self):
        status, out, told = self.run_it("list", first=self.read_only())
        self.assertEqual((status, out), (2, ""))
        self.assertEqual(told, "nolbreva: list has to be built, and target cannot be written: Permission denied\n")

    def test_read_only_and_older_than_its_sources(self):
        self.run_it("list")
        self.write("crates/base/src/lib.rt", "// changed\n")
        status, out, told = self.run_it("list", first=self.read_only())
        self.assertEqual((status, out), (2, ""))
        self.assertEqual(told, "nolbreva: list has to be built, and target/build.lock cannot be written: Permission denied\n")

    def test_read_only_and_built(self):
        self.run_it("list")
        self.assertEqual(self.run_it("list", given="a\n", first=self.read_only()), (0, "pass sheet\na\n", ""))

    def test_no_kit_and_not_built(self):
        status, out, told = self.run_it("list", path=("tools",))
        self.assertEqual((status, out), (2, ""))
        self.assertEqual(told, "nolbreva: list has to be built, and the Rattle kit's command rt is not on the PATH\n")

    def test_no_kit_and_built(self):
        self.run_it("list")
        status, out, told = self.run_it("list", path=("tools",))
        if os.uname().machine == "x86_64":
            self.assertEqual((status, out, told), (0, "pass sheet\n", ""))
        else:
            self.assertEqual((status, out, told.count("nolbreva: "), told.count("\n")), (2, "", 1, 1))
            self.assertIn("the kit's command rt is not on the PATH", told)

    def test_a_tmpdir_that_is_no_folder(self):
        os.rmdir(self.at("tmp"))
        with open(self.at("tmp"), "w", encoding="ascii"):
            pass
        status, out, told = self.run_it("list", given="a\n")
        # Python falls back on /tmp where TMPDIR is no folder
        self.assertEqual((status, out), (0, "pass sheet\na\n"), told)


class Words(unittest.TestCase):
    """How a program is run on a machine."""

    def words(self, machine, path):
        before = os.environ["PATH"]
        self.addCleanup(os.environ.__setitem__, "PATH", before)
        os.environ["PATH"] = path
        program = builds.Program("/top", "list", ("crates", "list", "out", "list"), None, ["rt"], "rt")
        return builds.words_for(program, machine)

    def test_on_its_own_processor_by_itself(self):
        self.assertEqual(self.words("x86_64", "/none"), ["/top/crates/list/out/list"])

    def test_elsewhere_without_the_kit(self):
        with self.assertRaises(Unusable) as told:
            self.words("aarch64", "/none")
        self.assertIn("on aarch64 it needs the Rattle kit's emulator, and the kit's command rt is not on the PATH", str(told.exception))


if __name__ == "__main__":
    unittest.main()
