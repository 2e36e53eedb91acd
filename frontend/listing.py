"""The commands that hand an input to a program, `list` first: standard input, or each file."""

import contextlib
import errno
import os
import stat

import progress
from messages import DONE, FAILED, Failed, Unusable, reason, say, tell
from running import run

STANDARD_INPUT = "-"
# the edition that counts where none is named, and the other one
FLOWN, CORRECTED = EDITIONS = ("flown", "corrected")


def check(name):
    """Refuses a file that cannot be read, before anything is listed."""
    if name == STANDARD_INPUT:
        return
    try:
        if stat.S_ISDIR(os.stat(name).st_mode):
            raise IsADirectoryError(errno.EISDIR, os.strerror(errno.EISDIR))
        if not os.access(name, os.R_OK):
            raise PermissionError(errno.EACCES, os.strerror(errno.EACCES))
    except OSError as error:
        raise Unusable(f"{name}: {reason(error)}") from error


def only(files):
    """The one file of a command that takes no more; standard input where none is named."""
    if len(files) > 1:
        raise Unusable(f"one file is taken, and this is too much: {' '.join(files[1:])}")
    name = files[0] if files else STANDARD_INPUT
    check(name)
    return name


def with_options(words, options):
    """The words that run `list`, with those that the options add."""
    if options.get("edition", FLOWN) == CORRECTED:
        words = [*words, "--edition", CORRECTED]
    return [*words, "--strict"] if "strict" in options else words


def list_all(words, files, names=False, program="list", counted="", rows=None):
    """Hands the files to a program in turn, each by itself; answers the status.

    `counted` says what the lines of its listing are about, where it writes one; with `rows` the listing is written as these.
    """
    status = DONE
    for name in files or [STANDARD_INPUT]:
        if names:
            say(f"==> {shown(name)} <==\n")
        with opened(name) as file:
            if not list_taken(words, name, file, program, counted, rows):
                status = FAILED
    return status


def shown(name):
    """A file as messages name it."""
    return "standard input" if name == STANDARD_INPUT else name


@contextlib.contextmanager
def opened(name):
    """A file, or None for standard input."""
    if name == STANDARD_INPUT:
        yield None
        return
    try:
        file = open(name, "rb")
    except OSError as error:
        raise Unusable(f"{name}: {reason(error)}") from error
    with file:
        yield file


def list_taken(words, name, file, program, counted, rows):
    """Lists one file. Its listing goes through this process where rows are made of it, or its progress is seen."""
    watch = progress.reading(shown(name), file, counted) if counted else None
    listing = rows.listing(name) if rows else None
    take = listing.take if listing else say if watch else None
    went_well = list_one(words, shown(name), file, program, take=watch.counting(take) if watch else take, watch=watch)
    if listing:
        listing.end()
    return went_well


def list_one(words, what, file, program="list", **output):
    """Hands one input to a program; answers whether that went well."""

    def hear(line):
        if not line.startswith(("write: ", "edition")):
            tell(f"{what}: {line}")

    status, told = run(words, program, hear=hear, stdin=file, **output)
    return went_well(status, told, program)


def went_well(status, told, program):
    """Whether a program that was run read its input to the end, and neither refused, wrong nor, where that is asked, cut.

    A program has no status of its own, so what it told says what happened.
    """
    for line in told:
        if line.startswith("write: "):
            raise Failed(line)
        if line.startswith("edition"):
            raise Unusable(line)
    if status != 0:
        raise Unusable(f"{program} could not be run (status {status})")
    return not any(line.startswith(("read: ", "cut at byte ", "refused ", "line ")) for line in told)
