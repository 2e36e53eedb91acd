"""What a run starts and makes: nothing of it is left behind, by whichever way the run ends.

Processes are ended and folders removed where the `with` that made them ends, and at the signals below.
"""

import contextlib
import os
import shutil
import signal
import subprocess
import tempfile
import time

from messages import Unusable, end_by, reason

SIGNALS = (signal.SIGINT, signal.SIGTERM, signal.SIGHUP, signal.SIGQUIT)
# how long a process that was asked to end may take, in seconds
PATIENCE = 5

_processes = []
_folders = []
# how many things are being made and not noted yet, and the signals that wait for that
_making = 0
_waiting = []


def catch_signals():
    """Has the signals clean up. One that the caller had ignored, as by nohup, stays ignored."""
    for number in SIGNALS:
        if signal.getsignal(number) is not signal.SIG_IGN:
            signal.signal(number, _caught)


def _caught(number, _frame):
    """Cleans up and ends by the signal; it never goes back to what was interrupted."""
    if _making:
        _waiting.append(number)
        return
    for other in SIGNALS:
        signal.signal(other, signal.SIG_IGN)
    for process, leads in list(_processes):
        _end(process.pid, leads)
    for folder in list(_folders):
        shutil.rmtree(folder, ignore_errors=True)
    end_by(number)


@contextlib.contextmanager
def _whole():
    """Lets a signal wait until what is being made is noted."""
    global _making
    _making += 1
    try:
        yield
    finally:
        _making -= 1
        if _waiting and not _making:
            _caught(_waiting[0], None)


@contextlib.contextmanager
def folder(mode=0o700):
    """A new temporary folder."""
    try:
        with _whole():
            name = os.path.join(tempfile.gettempdir(), f"nolbreva-{os.urandom(8).hex()}")
            os.mkdir(name, 0o700)
            _folders.append(name)
            os.chmod(name, mode)
    except OSError as error:
        raise Unusable(f"no temporary folder: {reason(error)}") from error
    try:
        yield name
    finally:
        shutil.rmtree(name, ignore_errors=True)
        _folders.remove(name)


@contextlib.contextmanager
def started(words, leads=False, **options):
    """A process. With `leads`, it leads a group of its own, and all of the group ends with it."""
    with _whole():
        process = subprocess.Popen(words, start_new_session=leads, **options)
        noted = (process, leads)
        _processes.append(noted)
    try:
        yield process
    finally:
        if process.poll() is None:
            _end(process.pid, leads)
            process.wait()
        _processes.remove(noted)


def _end(pid, leads):
    """Ends a process, or its group, by TERM, and by KILL what is still there after a while."""
    for number in (signal.SIGTERM, signal.SIGKILL):
        try:
            (os.killpg if leads else os.kill)(pid, number)
        except ProcessLookupError:
            return
        until = time.monotonic() + PATIENCE
        while time.monotonic() < until:
            if not _runs(pid, leads):
                return
            time.sleep(0.02)


def _runs(pid, leads):
    """Whether a process that this one started, or one of its group, still runs."""
    with contextlib.suppress(ChildProcessError):
        if os.waitpid(pid, os.WNOHANG) == (0, 0):
            return True
    return leads and any(_runs_in_group(name, pid) for name in os.listdir("/proc") if name.isdigit())


def _runs_in_group(name, group):
    with contextlib.suppress(OSError), open(f"/proc/{name}/stat", encoding="latin-1") as file:
        # after the program's name: state, parent, group; a process that has ended stays there until its parent asks for its status
        state, _, its_group = file.read().rpartition(")")[2].split()[:3]
        return state not in "ZX" and its_group == str(group)
    return False
