"""The command `bench`: how fast this program and the independent one list the same passes (docs/BENCHMARKS.md)."""

import os
import statistics
import subprocess
import time

import leftovers
import progress
from listing import list_one
from messages import Unusable, say
from replay import made_by

PASSES = (1, 2, 3, 4)
RECORDS = 50000
PAYLOADS = (62, 500)
ROUNDS = 7


def bench(list_words, independent, emulated):
    """Measures both in turn, several rounds, and prints the medians. Under an emulator only the independent one is measured."""
    if emulated:
        say("list is compiled for x86-64 and runs under an emulator here, so it is not measured, and there is no ratio\n")
    for payload in PAYLOADS:
        with leftovers.folder() as room:
            passes = [os.path.join(room, str(seed)) for seed in PASSES]
            for seed, name in zip(PASSES, passes):
                with open(name, "wb") as out:
                    words = ["season", str(seed), str(RECORDS), "--clean", "--payload", str(payload)]
                    made_by(independent, words, "making a pass", stdout=out)
            ours, theirs = [], []
            for k in range(ROUNDS):
                progress.step(f"payload {payload}: round {k + 1} of {ROUNDS}")
                if not emulated:
                    ours.append(timed(passes, lambda file: listed(list_words, file)))
                theirs.append(timed(passes, lambda file: listed_by(independent, file)))
            say(figures(payload, sum(os.path.getsize(name) for name in passes), ours, theirs))


def listed(words, file):
    if not list_one(words, "a pass", file, stdout=subprocess.DEVNULL):
        raise Unusable("a pass could not be read")


def listed_by(independent, file):
    made_by(independent, ["list"], "the independent listing", stdin=file, stdout=subprocess.DEVNULL)


def timed(passes, lists):
    """Seconds that all passes take."""
    began = time.perf_counter()
    for name in passes:
        with open(name, "rb") as file:
            lists(file)
    return time.perf_counter() - began


def figures(payload, size, ours, theirs):
    """A line of figures: records and bytes a second, and the ratio where there are both."""

    def speed(name, times):
        middle = statistics.median(times)
        return f"{name} {len(PASSES) * RECORDS / middle:.0f} records/s ({size / middle / 1e6:.0f} MB/s)"

    if not ours:
        return f"payload {payload}: {speed('independent', theirs)}\n"
    ratio = statistics.median(theirs) / statistics.median(ours)
    return f"payload {payload}: {speed('nolbreva', ours)}, {speed('independent', theirs)}, ratio {ratio:.2f}\n"
