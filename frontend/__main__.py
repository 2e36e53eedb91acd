"""The front end: builds what a command needs on first use, and runs it. See README.md.

Status 0; 1 where a read or a write failed, a replay found a difference, a strict listing or an unpacking was cut, a line is
wrong, or a field or a payload was refused; 2 where a command or a file cannot be used. Ended by a signal, it ends by that signal.
"""

import os
import signal
import sys

import leftovers
import usage
from messages import DONE, FAILED, UNUSABLE, Failed, Unusable, clear, end_by, hold_standard_descriptors, reason, say, tell
from options import Help, only_one_of, taken, whole_number

# What only some commands need is imported where it is used, so that the others start at once.
TOP = os.path.dirname(os.path.dirname(os.path.realpath(__file__)))
# the largest number of a field, and the largest value, that may be asked for
LARGEST = 2**32 - 1


def words_of(name):
    """The words that run a proved program, built where needed."""
    import builds

    program = builds.proved_program(TOP, name)
    builds.ready(program)
    return builds.words_for(program, os.uname().machine)


def independent_binary():
    """The independent program, built where needed."""
    import builds

    program = builds.independent_program(TOP)
    builds.ready(program)
    return program.binary


def list_command(words):
    import listing

    options, files = taken(words, flags=("--names", "--strict", "--jsonl", "--csv"), valued={"--edition": listing.EDITIONS})
    form = only_one_of(options, "names", "jsonl", "csv")
    for name in files:
        listing.check(name)
    run_list = listing.with_options(words_of("list"), options)
    made = rows_begun(form, options.get("edition", listing.FLOWN)) if form in ("jsonl", "csv") else None
    return listing.list_all(run_list, files, names=form == "names", counted="records", rows=made)


def rows_begun(form, edition):
    """What makes rows of listings, the header line written."""
    import refusals
    import rows

    made = rows.Rows(form, edition, refusals.read(TOP))
    made.begin()
    return made


def sheet_command(words):
    import listing

    options, files = taken(words, flags=("--names",), valued={"--edition": listing.EDITIONS})
    for name in files:
        listing.check(name)
    return listing.list_all(listing.with_options(words_of("sheet_list"), options), files, "names" in options, "sheet_list")


def search_command(words):
    import listing

    options, files = taken(words, valued={"--edition": listing.EDITIONS})
    name = listing.only(files)
    return listing.list_all(listing.with_options(words_of("night"), options), [name], program="night")


def page_command(words):
    import listing

    _, files = taken(words)
    name = listing.only(files)
    return listing.list_all(words_of("page_list"), [name], program="page_list", counted="lines")


def report_command(words):
    import report

    options, files = taken(words, flags=("--jsonl", "--csv"))
    form = only_one_of(options, "jsonl", "csv")
    report.check_all(files)
    return report.report(words_of(report.PROGRAM), files, form)


def beesat_command(words):
    import listing

    _, files = taken(words)
    name = listing.only(files)
    return listing.list_all(words_of("beesat_list"), [name], program="beesat_list", counted="frames")


def beesat_set_command(words):
    import listing

    _, rest = taken(words)
    if len(rest) < 2:
        raise Unusable("beesat-set takes the number of a field and a value")
    numbers = [str(whole_number(word, LARGEST)) for word in rest[:2]]
    name = listing.only(rest[2:])
    return listing.list_all([*words_of("beesat_set"), *numbers], [name], program="beesat_set")


def write_command(words):
    import listing
    import refusals
    import writing

    options, rest = taken(words, valued=writing.VALUED)
    values = writing.values_of(rest)
    payload, shown = writing.payload_of(options)
    program = writing.program_words(words_of("write"), options.get("edition", listing.FLOWN), values)
    return writing.write(program, payload, shown, refusals.read(TOP))


def unpack_command(words):
    return text_command("unpack", words)


def pack_command(words):
    return text_command("pack", words)


def text_command(program, words):
    """Hands one input to the program of that name."""
    import listing

    _, files = taken(words)
    name = listing.only(files)
    return listing.list_all(words_of(program), [name], program=program)


def explain_command(words):
    import refusals

    _, rest = taken(words)
    if len(rest) > 2:
        raise Unusable("explain takes a number and a place")
    say(refusals.explain(refusals.read(TOP), *(whole_number(word) for word in rest)))
    return DONE


def replay_command(words):
    import listing
    import replay

    if replay.WRITE in words:
        _, rest = taken(words, flags=replay.WRITE_FLAGS)
        numbers = replay.case_numbers(rest)
        return replay.replay_writes(words_of("write"), independent_binary(), numbers)
    if replay.PAGE in words:
        options, rest = taken(words, flags=replay.PAGE_FLAGS, valued=replay.PAGE_VALUED)
        return replay.replay(words_of("page_list"), independent_binary(), replay.pages(options, rest), "page_list")
    if replay.REPORT in words:
        options, rest = taken(words, flags=replay.REPORT_FLAGS, valued=replay.REPORT_VALUED)
        season = replay.reports(options, rest)
        return replay.replay(words_of("report_list"), independent_binary(), season, "report_list")
    if replay.BEESAT in words:
        options, rest = taken(words, flags=replay.BEESAT_FLAGS, valued=replay.BEESAT_VALUED)
        season = replay.frames_words(options, rest)
        return replay.replay(words_of("beesat_list"), independent_binary(), replay.frames(season), "beesat_list")
    if replay.PACK in words:
        options, rest = taken(words, flags=replay.PACK_FLAGS, valued=replay.PACK_VALUED)
        season = replay.pack_words(options, rest)
        return replay.replay_pack(words_of("unpack"), words_of("pack"), independent_binary(), season)
    if replay.RECORDING in words:
        options, rest = taken(words, flags=replay.RECORDING_FLAGS, valued=replay.RECORDING_VALUED)
        season = replay.recording(options, rest)
        return replay.replay(listing.with_options(words_of("night"), options), independent_binary(), season, "night")
    options, rest = taken(words, flags=replay.FLAGS, valued=replay.VALUED)
    program, command = ("sheet_list", "sheet") if options.pop("sheet", False) else ("list", "list")
    season = replay.season_words(options, rest)
    run_list = listing.with_options(words_of(program), options)
    return replay.replay(run_list, independent_binary(), replay.records(season, options.get("edition", listing.FLOWN), command), program)


def bench_command(words):
    import bench

    _, rest = taken(words)
    if rest:
        raise Unusable("bench takes no words")
    run = words_of("list")
    bench.bench(run, independent_binary(), emulated=len(run) > 1)
    return DONE


def help_command(words):
    _, rest = taken(words)
    if len(rest) > 1 or rest and rest[0] not in usage.COMMANDS:
        raise Unusable(f"no such command: {' '.join(rest)}")
    say(usage.COMMANDS[rest[0]] if rest else usage.ALL)
    return DONE


COMMANDS = {
    "list": list_command,
    "sheet": sheet_command,
    "page": page_command,
    "report": report_command,
    "search": search_command,
    "write": write_command,
    "unpack": unpack_command,
    "pack": pack_command,
    "beesat": beesat_command,
    "beesat-set": beesat_set_command,
    "explain": explain_command,
    "replay": replay_command,
    "bench": bench_command,
    "help": help_command,
}


def run(words):
    """Runs a command; answers the status."""
    command, words = (words[0], words[1:]) if words else ("", [])
    if command in ("-h", "--help", "--version"):
        if words:
            raise Unusable(f"{command} takes no words")
        if command == "--version":
            import version

            say(version.told(TOP))
        else:
            say(usage.ALL)
        return DONE
    if command not in COMMANDS:
        raise Unusable(f"no such command: {command}\n{usage.ALL}" if command else f"no command\n{usage.ALL}")
    try:
        return COMMANDS[command](words)
    except Help:
        say(usage.COMMANDS[command])
        return DONE


def main():
    hold_standard_descriptors()
    leftovers.catch_signals()
    try:
        return run(sys.argv[1:])
    except Unusable as error:
        tell(error)
        return UNUSABLE
    except Failed as error:
        tell(error)
        return FAILED
    except BrokenPipeError:
        # whoever read the output has all that was wanted
        return end_by(signal.SIGPIPE)
    except OSError as error:
        tell(f"{error.filename}: {reason(error)}" if error.filename else reason(error))
        return FAILED
    finally:
        clear()


sys.exit(main())
