"""What the front end says, and the statuses that it ends with."""

import os
import re
import signal
import sys

NAME = "nolbreva"

DONE = 0
FAILED = 1
UNUSABLE = 2

# what `show` left on the terminal, and whether the last line of standard output is not whole yet
_shown = ""
_open = False


class Unusable(Exception):
    """A command or a file cannot be used: status 2."""


class Failed(Exception):
    """A read or a write failed: status 1."""


def tell(message):
    """Writes a message on standard error. Where nobody hears it, nothing can be done."""
    clear()
    _write_error(f"{NAME}: {message}\n")


def _write_error(text):
    try:
        os.write(2, os.fsencode(text))
    except OSError:
        pass


def show(text):
    """Shows a line on the terminal that standard error is, in place of the last one, until something else is written there."""
    global _shown
    if _open and os.isatty(1):
        return
    printable = "".join(c if c.isprintable() else "?" for c in f"{NAME}: {text}")[:_columns() - 1]
    if printable != _shown:
        # noted before it is written, with what it covers: a signal that comes between the two takes all of it away
        _shown = printable.ljust(len(_shown))
        _write_error(f"\r{_shown}\r")
        _shown = printable


def _columns():
    try:
        return os.get_terminal_size(2).columns or 80
    except OSError:
        return 80


def clear():
    """Takes away what `show` left."""
    global _shown
    if _shown:
        _write_error(f"\r{' ' * len(_shown)}\r")
        _shown = ""


def say(text):
    """Writes text, or bytes, on standard output, at once and whole."""
    global _open
    left = os.fsencode(text)
    if _shown and os.isatty(1):
        clear()
    if left:
        _open = not left.endswith(b"\n")
    try:
        while left:
            left = left[os.write(1, left):]
    except BrokenPipeError:
        raise
    except OSError as error:
        raise Failed(f"write: {error.strerror}") from error


def reason(error):
    """What the system says of a failed call, without the call's own words."""
    return error.strerror or str(error)


def without_number(line):
    """A line that a program told, without the number at its end that the system has for a failed call: ` (os error 9)`."""
    return re.sub(r" \(os error \d+\)\Z", "", line)


def hold_standard_descriptors():
    """Where standard input, output or error is closed, its number is taken by a descriptor on which the same call fails.

    So no file that is opened later gets that number, and reading or writing fails as on a closed descriptor.
    """
    for number, mode in ((0, os.O_WRONLY), (1, os.O_RDONLY), (2, os.O_RDONLY)):
        try:
            os.fstat(number)
        except OSError:
            # the lowest free number is the one that is closed, since those below it are open
            os.set_inheritable(os.open(os.devnull, mode), True)


def end_by(number):
    """Ends this process by a signal, as whoever waits for it expects."""
    clear()
    signal.signal(number, signal.SIG_DFL)
    os.kill(os.getpid(), number)
    sys.exit(128 + number)
