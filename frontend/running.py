"""Running a built program to its end."""

import contextlib
import errno
import os
import select
import signal
import subprocess

import leftovers
from messages import Failed, Unusable, reason, without_number

# the most bytes that are taken from a program at once
PIECE = 65536
# what a program tells that writes to nobody, where it is not ended by the signal for that
TO_NOBODY = f"write: {os.strerror(errno.EPIPE)}"


class Lines:
    """Cuts a text that comes in pieces into lines; what is no whole line yet is the rest."""

    def __init__(self):
        self.rest = b""

    def ended_by(self, piece):
        """The lines that end in this piece."""
        *lines, self.rest = (self.rest + piece).split(b"\n")
        return lines


def run(words, name, hear=None, take=None, watch=None, **files):
    """Runs a program; answers its status and the lines that it told on standard error.

    Each of these lines is handed to `hear` as it comes, and with `take` so is each piece of standard output. `watch` shows how
    far the program is.
    """
    if take:
        files["stdout"] = subprocess.PIPE
    with contextlib.ExitStack() as ends:
        try:
            process = ends.enter_context(leftovers.started(words, stderr=subprocess.PIPE, **files))
        except OSError as error:
            raise Unusable(f"{name} cannot be run: {reason(error)}") from error
        told = listen(process, hear, take, watch)
        status = process.wait()
    if status == -signal.SIGPIPE or TO_NOBODY in told:
        raise BrokenPipeError
    if status < 0:
        raise Failed(f"{name} was ended by {signal.Signals(-status).name}")
    return status, told


def listen(process, hear, take, watch):
    """Hands over what a process tells and writes, until it has closed both; answers the lines that it told."""
    lines, told = Lines(), []

    def heard(piece):
        for line in lines.ended_by(piece):
            told.append(without_number(line.decode(errors="replace")))
            if hear:
                hear(told[-1])

    with process.stderr, process.stdout or contextlib.nullcontext():
        taking = {process.stderr.fileno(): heard}
        if take:
            taking[process.stdout.fileno()] = take
        while taking:
            for stream in select.select(list(taking), [], [], watch and watch.INTERVAL)[0]:
                piece = os.read(stream, PIECE)
                if piece:
                    taking[stream](piece)
                else:
                    del taking[stream]
            if watch:
                watch.look(process.pid)
    if lines.rest:
        heard(b"\n")
    return told
