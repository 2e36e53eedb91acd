"""The programs that the commands run, built where they are missing or older than their sources.

A program's stamp says which sources it was built from, and which program came out. It is written after the build,
which is after the proof, and taken away before; so a build that failed or was ended leaves none.
"""

import contextlib
import fcntl
import hashlib
import os
import re
import shutil
import subprocess

import leftovers
from messages import Unusable, reason, tell


class Program:
    """A program: where it stands, what it is made of, and how it is built."""

    def __init__(self, top, name, binary, sources, words, needs, crates=()):
        self.top = top
        # a program of the crates is built in its own crate's folder
        self.folder = os.path.join(top, "crates", name) if crates else top
        self.name = name
        self.binary = os.path.join(top, *binary)
        # a function that gives the names of the files that decide about the program
        self.sources = sources
        self.words = words
        # the command that builds it, as it is told of, and the crates that this proves, in their order
        self.needs = needs
        self.crates = crates
        self.stamp = os.path.join(top, "target", f"{name}.stamp")
        self.log = os.path.join(top, "target", f"build-{name}.log")

    def built(self):
        """Whether the program is what its present sources give."""
        try:
            with open(self.stamp, encoding="ascii") as file:
                return file.read() == self.state()
        except OSError:
            return False

    def state(self):
        """What the stamp of the present sources and the present program says."""
        return f"sources {self.sum_of_sources()}\nprogram {_sum(self.binary)}\n"

    def note(self):
        """Writes the stamp of the present sources and the present program."""
        with open(self.stamp + ".new", "w", encoding="ascii") as file:
            file.write(self.state())
        os.replace(self.stamp + ".new", self.stamp)

    def sum_of_sources(self):
        """A sum over the names and bytes of all sources."""
        whole = hashlib.sha256()
        for name in self.sources():
            whole.update(f"{os.path.relpath(name, self.top)} {_sum(name)}\n".encode())
        return whole.hexdigest()


def _sum(name):
    with open(name, "rb") as file:
        return hashlib.sha256(file.read()).hexdigest()


def _files(folder):
    """All files below a folder, in one order."""
    for place, below, names in os.walk(folder):
        below.sort()
        for name in sorted(names):
            yield os.path.join(place, name)


def stands_on(top):
    """The crates of crates.txt, and for each what it stands on."""
    try:
        with open(os.path.join(top, "crates.txt"), encoding="utf-8") as file:
            lines = [line.split("#")[0].partition(":") for line in file]
    except OSError as error:
        raise Unusable(f"{top} is no repository of nolbreva: crates.txt: {reason(error)}") from error
    return {crate.strip(): below.split() for crate, colon, below in lines if colon}


def crates_below(top, name):
    """A crate and the crates of the repository that it stands on, each after those that it stands on, as they are proved."""
    below, found = stands_on(top), []

    def add(crate):
        if crate in below and crate not in found:
            for one in below[crate]:
                add(one)
            found.append(crate)

    add(name)
    return found


def proved_programs(top):
    """All programs of the crates."""
    return [proved_program(top, name) for name in stands_on(top) if os.path.isfile(os.path.join(top, "crates", name, "src", "main.rt"))]


def proved_program(top, name):
    """A program of the crates, proved and compiled by the kit, in whose way it lies in its crate's folder `out`."""
    crates = crates_below(top, name)
    if not crates:
        raise Unusable(f"there is no program {name}: crates.txt does not name it")

    def sources():
        yield os.path.join(top, "crates.txt")
        for crate in crates:
            for part in ("src", "specs", "proofs"):
                yield from _files(os.path.join(top, "crates", crate, part))

    binary = ("crates", name, "out", name)
    return Program(top, name, binary, sources, ["rt", "run"], "the Rattle kit's command rt", crates)


def independent_program(top):
    """The independent program, built for release."""
    place = os.path.join(top, "independent")

    def sources():
        yield os.path.join(place, "Cargo.toml")
        yield from _files(os.path.join(place, "src"))

    words = ["cargo", "build", "--quiet", "--release", "--offline", "--manifest-path", os.path.join(place, "Cargo.toml")]
    words += ["--target-dir", os.path.join(place, "target")]
    binary = ("independent", "target", "release", "independent")
    return Program(top, "independent", binary, sources, words, "Rust's command cargo")


def ready(program):
    """Builds a program where that is needed. Two builds at once wait for each other."""
    if program.built():
        return
    if not shutil.which(program.words[0]):
        raise Unusable(f"{program.name} has to be built, and {program.needs} is not on the PATH")
    with _lock(program) as lock:
        # whoever held the lock may have built it
        if not program.built():
            _build(program, lock)


@contextlib.contextmanager
def _lock(program):
    target = os.path.dirname(program.log)
    name = os.path.join(target, "build.lock")
    try:
        os.makedirs(target, exist_ok=True)
        lock = _locked(name)
    except OSError as error:
        place = os.path.relpath(error.filename or target, program.top)
        raise Unusable(f"{program.name} has to be built, and {place} cannot be written: {reason(error)}") from error
    try:
        yield lock
    finally:
        os.close(lock)


def _locked(name):
    """Opens and locks a file. Where somebody removed it meanwhile, it is made again."""
    told = False
    while True:
        lock = os.open(name, os.O_RDWR | os.O_CREAT, 0o666)
        try:
            fcntl.flock(lock, fcntl.LOCK_EX | fcntl.LOCK_NB)
        except BlockingIOError:
            if not told:
                tell("another build is under way; waiting for it to end")
                told = True
            fcntl.flock(lock, fcntl.LOCK_EX)
        try:
            if os.path.samestat(os.fstat(lock), os.stat(name)):
                return lock
        except FileNotFoundError:
            pass
        os.close(lock)


def _build(program, lock):
    log = os.path.relpath(program.log, program.top)
    with contextlib.suppress(FileNotFoundError):
        os.remove(program.stamp)
    sources = program.sum_of_sources()
    told = _Told(program)
    told.start()
    # a kit that runs programs as another user where it is root needs a folder that this one can enter
    with leftovers.folder(mode=0o755) as room, open(program.log, "wb") as file:
        environment = dict(os.environ, TMPDIR=room)
        # the process holds the lock too: should this one be killed, the next build waits for what is left of it
        with leftovers.started(
            program.words,
            leads=True,
            cwd=program.folder,
            env=environment,
            stdin=subprocess.DEVNULL,
            stdout=subprocess.PIPE,
            stderr=subprocess.STDOUT,
            pass_fds=(lock,),
        ) as process:
            for line in process.stdout:
                file.write(line)
                file.flush()
                told.line(line.decode(errors="replace").rstrip("\n"))
            status = process.wait()
    if not told.built(status):
        raise Unusable(f"{program.name} was not built{told.why()}; {log} has all that was said")
    if program.sum_of_sources() != sources:
        raise Unusable(f"the sources of {program.name} changed while it was built; start again")
    program.note()


class _Told:
    """What is told of a build while it goes on: a line for each crate that is proved."""

    def __init__(self, program):
        self.name = program.name
        self.crates = program.crates
        self.crate = program.name
        self.last = ""
        self.runs = False

    def start(self):
        proofs = f"; its {len(self.crates)} crates are proved first, which from nothing takes some minutes" if self.crates else ""
        tell(f"building {self.name}{proofs}")

    def line(self, line):
        """Takes a line of the build. The kit names a crate before it says whether that is proved, and says nothing of one that has not changed."""
        named = re.match(r"crate (\w+): ", line)
        if named:
            self.crate = named[1]
        said = re.match(r"logic=(proved|not-proved) ", line)
        if said and self.crate in self.crates:
            well = "proved" if said[1] == "proved" else "NOT PROVED"
            tell(f"{self.crates.index(self.crate) + 1} of {len(self.crates)}: {self.crate} {well}")
        if said and said[1] != "proved":
            self.last = f"{self.crate} is not proved"
        if line.startswith(("rt: the library ", "error")):
            self.last = line
        if line.startswith("rt: running "):
            self.runs = True

    def built(self, status):
        """Whether the program is built: the kit runs it then, on no input, and the status is that of this run."""
        return self.runs if self.crates else status == 0

    def why(self):
        return f" ({self.last})" if self.last else ""


def kit(purpose):
    """The kit's folder, by what its command says of its own guide."""
    try:
        told = subprocess.run(["rt", "doc"], stdin=subprocess.DEVNULL, capture_output=True, text=True, check=True).stdout.strip()
    except FileNotFoundError as error:
        raise Unusable(f"{purpose}, and the kit's command rt is not on the PATH") from error
    except (OSError, subprocess.CalledProcessError) as error:
        raise Unusable(f"{purpose}, and the kit's command rt does not work: {error}") from error
    return os.path.dirname(told)


def words_for(program, machine):
    """The words that run a proved program on a machine. It is compiled for x86-64; elsewhere the kit has an emulator."""
    if machine == "x86_64":
        return [program.binary]
    purpose = f"{program.name} is compiled for x86-64, and on {machine} it needs the Rattle kit's emulator"
    tools = os.path.join(kit(purpose), "on", machine, "toolchain")
    emulator = os.path.join(tools, "bin", "qemu-x86_64")
    if not os.access(emulator, os.X_OK):
        raise Unusable(f"{purpose}, which this kit does not have")
    libraries = os.path.join(tools, "lib")
    return [emulator, os.path.join(libraries, "ld-linux-x86-64.so.2"), "--library-path", libraries, program.binary]
