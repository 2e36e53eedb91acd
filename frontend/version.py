"""The version, the commit of the repository and the identity of the kit."""

import os
import subprocess

VERSION = "0.1.0"


def first_line(words, **options):
    """What a command says in its first line; nothing where it cannot be run or fails."""
    try:
        done = subprocess.run(words, stdin=subprocess.DEVNULL, capture_output=True, text=True, **options)
    except OSError:
        return ""
    return done.stdout.partition("\n")[0] if done.returncode == 0 else ""


def told(top):
    """Three lines."""
    commit = ""
    if os.path.exists(os.path.join(top, ".git")):
        commit = first_line(["git", "-C", top, "describe", "--always", "--dirty=, with changes", "--abbrev=12", "--exclude=*"])
    kit = first_line(["rt", "version"])
    return f"nolbreva {VERSION}\ncommit {commit or 'unknown: no git repository, or no git'}\nkit {kit or 'unknown: rt is not on the PATH'}\n"
