"""The command `replay`: a season listed by this program and by the independent one, every line compared; or unpacked and packed."""

import collections
import itertools
import os
import re

import leftovers
import progress
import writing
from listing import EDITIONS, FLOWN, list_one
from messages import DONE, FAILED, Failed, Unusable, say
from options import only_one_of, whole_number
from running import PIECE, run

SEASON_FLAGS = ("--clean", "--full", "--full-exact")
FLAGS = (*SEASON_FLAGS, "--sheet")
VALUED = {"--edition": EDITIONS, "--payload": (), "--cut": ("length", "lone", "header", "payload")}
# records whose payloads are power pages, and these listed
PAGE = "--page"
PAGE_FLAGS = (PAGE, *SEASON_FLAGS)
PAGE_VALUED = {"--cut": VALUED["--cut"]}
# records whose payloads are power pages with rows of any sort, and a report over them
REPORT = "--report"
REPORT_FLAGS = (REPORT, *SEASON_FLAGS)
REPORT_VALUED = {"--cut": VALUED["--cut"]}
# a season of frames of BEESAT-1
BEESAT = "--beesat"
BEESAT_FLAGS = (BEESAT, "--clean")
BEESAT_VALUED = {"--cut": ()}
# a recording of bits, searched for headers
RECORDING = "--recording"
RECORDING_FLAGS = (RECORDING, "--bad")
RECORDING_VALUED = {"--edition": EDITIONS, "--gap": ()}
# records written
WRITE = "--write"
WRITE_FLAGS = (WRITE,)
# records as lines of text, and back
PACK = "--pack"
PACK_FLAGS = (PACK,)
PACK_VALUED = {"--payload": ()}
LONGEST_GAP = 60000
LONGEST_PAYLOAD = 1023
LONGEST_REST = 143
FULL_SHEET = 65535

# How the independent program makes a season and lists it, what it is made of, and how many are wanted.
Season = collections.namedtuple("Season", "made listed called wanted")


def records(words, edition, command="list"):
    """A season of records under an edition, of which a listing or a pass sheet is made."""
    return Season(["season", *words], [command, "--edition", edition], "records", int(words[1]))


def pages(options, rest):
    """A season of records with power pages."""
    words = season_words({name: options[name] for name in options if f"--{name}" != PAGE}, rest)
    return Season(["season", *words, "--pages"], ["page"], "records", int(words[1]))


def reports(options, rest):
    """A season of records with power pages, of which a report is made."""
    words = season_words({name: options[name] for name in options if f"--{name}" != REPORT}, rest)
    return Season(["season", *words, "--rows"], ["report"], "records", int(words[1]))


def frames(words):
    """A season of frames of BEESAT-1."""
    return Season(["beesat-season", *words], ["beesat"], "frames", int(words[1]))


def recording(options, rest):
    """A recording of bits, or what is wrong with its words."""
    if len(rest) != 2:
        raise Unusable("replay takes a seed and a number of bits")
    words = [str(whole_number(word)) for word in rest]
    if "gap" in options:
        options = dict(options, gap=str(whole_number(options["gap"], LONGEST_GAP)))
    made = with_options(["recording", *words], {name: options[name] for name in options if name in ("gap", "bad")})
    return Season(made, ["search", "--edition", options.get("edition", FLOWN)], "bits", int(words[1]))


def season_words(options, rest):
    """The words of a season, or what is wrong with them."""
    if len(rest) != 2:
        raise Unusable("replay takes a seed and a number of records")
    words = [str(whole_number(word)) for word in rest]
    only_one_of(options, "full", "full-exact")
    if "payload" in options:
        options = dict(options, payload=str(whole_number(options["payload"], LONGEST_PAYLOAD)))
    return with_options(words, options)


def frames_words(options, rest):
    """The words of a season of frames, or what is wrong with them."""
    if len(rest) != 2:
        raise Unusable("replay takes a seed and a number of frames")
    if "cut" in options:
        options = dict(options, cut=str(whole_number(options["cut"], LONGEST_REST)))
    return with_options([str(whole_number(word)) for word in rest], {name: options[name] for name in options if f"--{name}" != BEESAT})


def case_numbers(rest):
    """The seed and the number of records that are to be written, or what is wrong with them."""
    if len(rest) != 2:
        raise Unusable("replay takes a seed and a number of records")
    return [str(whole_number(word)) for word in rest]
def pack_words(options, rest):
    """The words of a season that is unpacked, or what is wrong with them."""
    return season_words({name: options[name] for name in options if f"--{name}" != PACK}, rest)


def with_options(words, options):
    for name, value in options.items():
        words += [f"--{name}"] if value is True else [f"--{name}", value]
    return words


def made_by(independent, words, what, **files):
    """Runs the independent program, which has to succeed."""
    status, told = run([independent, *words], "the independent program", **files)
    if status != 0 or told:
        # without the program's own name, its stream and the number of the error
        why = re.sub(r"^independent: (standard output: )?| \(os error \d+\)$", "", told[0]) if told else f"status {status}"
        raise Failed(f"{what} failed: {why}")


def replay(list_words, independent, season, program="list"):
    """Makes a season, lists it twice and compares; answers the status."""
    with leftovers.folder() as room:
        pass_, listed, expected = (os.path.join(room, name) for name in ("pass", "listed", "expected"))
        with open(pass_, "wb") as out:
            made_by(independent, season.made, "making the season", stdout=out, watch=progress.writing("making the season", out))
        with open(pass_, "rb") as file, open(listed, "wb") as out:
            if not list_one(list_words, "the season", file, program, stdout=out, watch=progress.reading("listing the season", file)):
                return FAILED
        with open(pass_, "rb") as file, open(expected, "wb") as out:
            made_by(independent, season.listed, "the independent listing", stdin=file, stdout=out, watch=progress.reading("the independent listing", file))
        return compare(listed, expected, season.wanted, season.called)


def replay_writes(write_words, independent, numbers):
    """Makes cases of records that are to be written, has both write them and compares every answer; answers the status."""
    with leftovers.folder() as room:
        cases, answers = (os.path.join(room, name) for name in ("cases", "answers"))
        with open(cases, "wb") as out:
            made_by(independent, ["write-season", *numbers], "making the cases", stdout=out)
        with open(cases, "rb") as file, open(answers, "wb") as out:
            made_by(independent, ["writes"], "the independent answers", stdin=file, stdout=out)
        with open(cases, encoding="ascii") as file, open(answers, encoding="ascii") as expected:
            return compare_writes(write_words, file, expected, numbers[1])


def compare_writes(write_words, cases, expected, wanted):
    """Has the program write each case, and holds what it answers against what was expected."""
    refused = count = 0
    for count, (case, other) in enumerate(zip(cases, expected), 1):
        progress.step(f"{count:,} of {wanted} records written")
        edition, *values, payload = case.split()
        line = writing.answer(writing.program_words(write_words, edition, values), b"" if payload == "-" else bytes.fromhex(payload))
        if line != other.rstrip():
            say(f"first difference in record {count}: {case}  nolbreva:    {line}\n  independent: {other}")
            return FAILED
        refused += line.startswith("refused ")
    if count != int(wanted):
        raise Failed(f"the independent program answered {count} of {wanted} cases")
    say(f"{count} records written, {refused} of them refused, no difference\n")
    return DONE
def replay_pack(unpack_words, pack_words, independent, season):
    """Makes a season, unpacks it and packs it again, each by both programs, and compares; answers the status."""
    with leftovers.folder() as room:
        pass_, text, other_text, packed, other_packed = (os.path.join(room, name) for name in ("pass", "text", "other", "packed", "back"))
        with open(pass_, "wb") as out:
            made_by(independent, ["season", *season], "making the season", stdout=out, watch=progress.writing("making the season", out))
        for words, command, source, ours, theirs in (
            (unpack_words, "unpack", pass_, text, other_text),
            (pack_words, "pack", text, packed, other_packed),
        ):
            with open(source, "rb") as file, open(ours, "wb") as out:
                if not list_one(words, "the season", file, command, stdout=out, watch=progress.reading(f"{command} of the season", file)):
                    return FAILED
            with open(source, "rb") as file, open(theirs, "wb") as out:
                made_by(independent, [command], f"the independent {command}", stdin=file, stdout=out)
        for one, other, what in ((text, other_text, "lines"), (packed, other_packed, "records"), (packed, pass_, "records packed and those of the season")):
            if not same(one, other, what):
                return FAILED
        with open(text, "rb") as file:
            say(f"{sum(1 for _ in file)} records unpacked and packed, no difference\n")
        return DONE


def same(one, other, what):
    """Whether two files have the same bytes; says where they differ first."""
    with open(one, "rb") as ours, open(other, "rb") as theirs:
        for at in itertools.count(0, PIECE):
            piece, expected = ours.read(PIECE), theirs.read(PIECE)
            if piece != expected:
                first = next((k for k, (a, b) in enumerate(zip(piece, expected)) if a != b), min(len(piece), len(expected)))
                say(f"the {what} differ first in byte {at + first}\n")
                return False
            if not piece:
                return True


def compare(listed, expected, wanted, called="records"):
    """Compares two listings, sheets or reports line by line, and says what was compared."""
    lines, last, ends = 0, "", []
    form = {"encoding": "utf-8", "errors": "backslashreplace"}
    with open(listed, **form) as ours, open(expected, **form) as theirs:
        for lines, (line, other) in enumerate(itertools.zip_longest(ours, theirs, fillvalue=""), 1):
            if line != other:
                return differs(lines, line, other, "place" if called == "bits" else "record")
            last = line
            if line.startswith(("cut", "full")):
                ends.append(line.rstrip())
    heard = int(re.match(r"(?:heard|bits) (\d+) ", last)[1])
    say(f"{heard} {called}, {lines} lines compared, no difference{what_was_left(heard, ends, wanted, called)}\n")
    return DONE


def what_was_left(heard, ends, wanted, called):
    """Where the listings were cut, why less was compared than the season has; of reports, whether both were cut or full."""
    if "cut" not in ends:
        # a report has no sheet that ends it, and its lines have the number of the file that was cut
        return "".join("; both are full" if end == "full" else "; then both cut the season" for end in ends)
    if heard < FULL_SHEET or called != "records":
        return "; then both cut the listing"
    of_all = f" of the {wanted} records" if wanted > heard else ""
    return f"; a sheet takes {FULL_SHEET}{of_all}, and both cut the listing there"


def differs(number, line, other, each):
    """Says where two listings differ first. A listing's first line is its title, so line 2 is that of record 0."""
    opening = other.partition(" ")[0]
    say(
        f"first difference in line {number}{f' ({each} {opening})' if opening.isdigit() else ''}\n"
        f"  nolbreva:    {line.rstrip() or '(no line)'}\n"
        f"  independent: {other.rstrip() or '(no line)'}\n"
    )
    return FAILED
