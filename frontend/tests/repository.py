"""A small repository for tests: the real front end over programs that are scripts, so that nothing has to be proved."""

import os
import shutil
import signal
import subprocess
import sys
import tempfile
import time
import unittest

import leftovers

TOP = os.path.dirname(os.path.dirname(os.path.dirname(os.path.realpath(__file__))))
MACHINE = os.uname().machine
TOOLS = "sh dirname readlink cat cp chmod mkdir sleep git".split()

# `rt run` in a crate's folder does what the file `build` says; each build adds a line to the file `builds`.
RT = """#!/bin/sh
case $1 in
    doc) echo "$KIT/START-HERE.md" ;;
    version) echo "a kit" ;;
    run)
        cd ../..
        echo build >>builds
        sh ./build
        ;;
esac
"""
CARGO = """#!/bin/sh
mkdir -p independent/target/release
cp independent/program independent/target/release/independent
chmod +x independent/target/release/independent
"""
# ld.so and its two words are left out
EMULATOR = '#!/bin/sh\nshift 3\nexec "$@"\n'


def makes(*names):
    """A build that makes programs where the kit makes them."""
    return "".join(f"mkdir -p crates/{name}/out; cp program crates/{name}/out/{name}; chmod +x crates/{name}/out/{name}\n" for name in names)


def proves(name, well="proved"):
    """What the kit says of a crate that it proves."""
    return f"echo 'crate {name}: modules loaded=0 checked=1'; echo 'logic={well} functions=1'\n"


RUNS = "echo 'rt: running it; to give it other input, run that file yourself'\n"


def builds(*names):
    """A build as the kit does it: it proves, makes the program, and runs it."""
    return makes(*names) + proves(names[-1]) + RUNS


BUILDS = builds("list")
# a build that waits for the file `go`
WAITS = f"while [ ! -f go ]; do sleep 0.02; done\n{BUILDS}"
LISTS = "#!/bin/sh\necho pass sheet\ncat\n"


def heed_signals():
    """Has no signal ignored that whoever started the tests ignores, as nohup does."""
    for number in leftovers.SIGNALS:
        signal.signal(number, signal.SIG_DFL)


class Repository(unittest.TestCase):
    """Each test has a repository of its own, a folder of tools, and a folder for temporary files."""

    def setUp(self):
        self.room = tempfile.mkdtemp()
        self.addCleanup(shutil.rmtree, self.room)
        os.chmod(self.room, 0o755)
        self.top = self.at("repository")
        shutil.copytree(os.path.join(TOP, "frontend"), os.path.join(self.top, "frontend"), ignore=shutil.ignore_patterns("tests", "__pycache__"))
        shutil.copy(os.path.join(TOP, "nolbreva"), self.top)
        self.write("crates.txt", "base:\nlist: base io   # the program\nother: base\n")
        self.write("crates/base/src/lib.rt", "// base\n")
        self.write("crates/list/src/main.rt", "// list\n")
        self.write("crates/other/src/lib.rt", "// other\n")
        self.write("independent/Cargo.toml", "")
        self.write("independent/src/main.rs", "")
        self.write("build", BUILDS)
        self.write("program", LISTS)
        os.mkdir(self.at("tmp"))
        os.chmod(self.at("tmp"), 0o1777)
        self.tools()

    def at(self, *names):
        return os.path.join(self.room, *names)

    def write(self, name, text, mode=0o644):
        name = os.path.join(self.top, name)
        os.makedirs(os.path.dirname(name), exist_ok=True)
        with open(name, "w", encoding="utf-8") as file:
            file.write(text)
        os.chmod(name, mode)

    def tools(self):
        os.mkdir(self.at("tools"))
        os.symlink(sys.executable, self.at("tools", "python3"))
        for name in TOOLS:
            os.symlink(shutil.which(name), self.at("tools", name))
        self.write("../bin/rt", RT, 0o755)
        self.write("../bin/cargo", CARGO, 0o755)
        self.write(f"../kit/on/{MACHINE}/toolchain/bin/qemu-x86_64", EMULATOR, 0o755)

    def environment(self, path=("bin", "tools"), **more):
        return dict(PATH=":".join(self.at(name) for name in path), TMPDIR=self.at("tmp"), KIT=self.at("kit"), **more)

    def start(self, *words, first=(), path=("bin", "tools"), **options):
        command = [*first, os.path.join(self.top, "nolbreva"), *words]
        return subprocess.Popen(command, env=self.environment(path), text=True, preexec_fn=heed_signals, **options)

    def run_it(self, *words, given="", **options):
        """Runs the front end to its end; answers status, standard output, and standard error."""
        streams = dict(stdin=subprocess.PIPE, stdout=subprocess.PIPE, stderr=subprocess.PIPE)
        process = self.start(*words, **{**streams, **options})
        out, told = process.communicate(given)
        return process.returncode, out, told

    def wait_for(self, happened):
        """Waits until something has happened, for a minute at most."""
        until = time.monotonic() + 60
        while not happened():
            self.assertLess(time.monotonic(), until, "it has not happened")
            time.sleep(0.01)

    def builds(self):
        try:
            with open(os.path.join(self.top, "builds"), encoding="ascii") as file:
                return len(file.readlines())
        except FileNotFoundError:
            return 0

    def assert_nothing_left(self):
        self.assertEqual(os.listdir(self.at("tmp")), [])
