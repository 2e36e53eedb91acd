"""How far long work is: shown on standard error where that is a terminal, and nothing otherwise."""

import contextlib
import os
import stat
import time

from messages import show


class Watch:
    """Looks now and then how far a program is, and shows it."""

    # seconds from the first watch of a command until something is shown, and from one time to the next
    INTERVAL = 0.5
    due = None

    def __init__(self, what, so_far, counted=""):
        self.what = what
        # a function of the program's number: the bytes so far, or None where nothing says so, and of how many, or 0
        self.so_far = so_far
        self.counted = counted
        self.lines = 0
        if Watch.due is None:
            Watch.due = time.monotonic() + self.INTERVAL

    def counting(self, take):
        """Takes the pieces of a listing, and counts its lines."""

        def taken(piece):
            self.lines += piece.count(b"\n")
            take(piece)

        return taken

    def look(self, pid):
        now = time.monotonic()
        if now >= Watch.due:
            Watch.due = now + self.INTERVAL
            show(self.text(*self.so_far(pid)))

    def text(self, done, whole):
        figures = []
        if whole:
            figures.append(f"{done / 1e6:.1f} of {whole / 1e6:.1f} MB ({100 * done // whole} %)")
        elif done is not None:
            figures.append(f"{done / 1e6:.1f} MB")
        if self.counted:
            # the first line is the listing's title
            figures.append(f"{max(self.lines - 1, 0):,} {self.counted}")
        return f"{', '.join(figures)}: {self.what}"


def seen():
    """Whether anybody sees it."""
    return os.isatty(2)


def reading(what, file, counted=""):
    """Watches a program that reads a file, or standard input; with `counted`, the lines of its listing are about these."""
    number = 0 if file is None else file.fileno()

    def so_far(pid):
        state = os.fstat(number)
        if stat.S_ISREG(state.st_mode):
            # the program and this one share the file's place
            return os.lseek(number, 0, os.SEEK_CUR), state.st_size
        return read_by(pid), 0

    return Watch(what, so_far, counted) if seen() else None


def read_by(pid):
    """The bytes that a program has read, some thousand for its own start among them."""
    with contextlib.suppress(OSError), open(f"/proc/{pid}/io", encoding="ascii") as file:
        return int(file.readline().split()[1])
    return None


def writing(what, file):
    """Watches a program that writes a file."""
    return Watch(what, lambda _: (os.fstat(file.fileno()).st_size, 0)) if seen() else None


def step(text):
    """Shows a step of work."""
    if seen():
        show(text)
