"""The command `write`: some fields and a payload to one record."""

import contextlib
import os
import re
import subprocess

import listing
from messages import DONE, FAILED, Unusable, tell
from options import capped_number, only_one_of
from running import run

# the paper's list of fields, in its order: those that a writer is handed
FIELDS = "SrcId DstId FrCntTx FrCntRx SNR AiTypeSrc AiTypeDst DfcId Caller Arq PduTypeId BchRq Hailing UdFl1".split()
PLACES = {name.lower(): place for place, name in enumerate(FIELDS)}
VALUED = {"--edition": listing.EDITIONS, "--payload": (), "--payload-file": ()}
# a number above this one is handed on as this one: no field takes either
LARGEST = 2**32 - 1
PROGRAM = "write"


def values_of(words):
    """The values of all fields, in their order; a field that is not named is 0."""
    values = {}
    for word in words:
        name, equals, value = word.partition("=")
        if not equals:
            raise Unusable(f"not a field and its value: {word}; a field is set as in SrcId=2")
        if name.lower() not in PLACES:
            raise Unusable(f"no such field: {name}; the fields are {', '.join(FIELDS)}")
        place = PLACES[name.lower()]
        if place in values:
            raise Unusable(f"{FIELDS[place]} is set twice; it takes one value")
        try:
            values[place] = capped_number(value, LARGEST)
        except Unusable as error:
            raise Unusable(f"{FIELDS[place]}: {error}; it takes decimal digits") from error
    return [values.get(place, 0) for place in range(len(FIELDS))]


def bytes_of(digits):
    """The bytes of a payload that is given in hexadecimal digits."""
    if not re.fullmatch("(?:[0-9A-Fa-f]{2})+", digits):
        raise Unusable(f"--payload takes two hexadecimal digits for each byte, not {digits}")
    return bytes.fromhex(digits)


@contextlib.contextmanager
def holding(payload):
    """A file of these bytes, which is in memory only; none where there are none."""
    if not payload:
        yield subprocess.DEVNULL
        return
    with open(os.memfd_create("payload"), "w+b") as file:
        file.write(payload)
        file.seek(0)
        yield file


def payload_of(options):
    """The payload as a file, and how it is called where it cannot be read. What is wrong with it is told before anything is built."""
    only_one_of(options, "payload", "payload-file")
    if "payload-file" in options:
        name = listing.only([options["payload-file"]])
        return listing.opened(name), "standard input" if name == listing.STANDARD_INPUT else name
    return holding(bytes_of(options["payload"]) if "payload" in options else b""), "the payload"


def program_words(words, edition, values):
    """The words that run the program."""
    return [*words, edition, *map(str, values)]


def write(words, payload, shown, rows):
    """Writes a record, or tells why it is refused; answers the status."""

    def hear(line):
        refused = re.fullmatch(r"refused (\d+) (\d+)", line)
        if refused:
            number, place = (int(figure) for figure in refused.groups())
            tell(f"refused {rows[number].at(place)}")
        elif line.startswith("read: "):
            tell(f"{shown}: {line}")

    with payload as file:
        status, told = run(words, PROGRAM, hear=hear, stdin=file)
    return DONE if listing.went_well(status, told, PROGRAM) else FAILED


def answer(words, payload):
    """What the program answers, as a line: the record in hexadecimal digits, or the refusal."""
    record = []
    with holding(payload) as file:
        status, told = run(words, PROGRAM, take=record.append, stdin=file)
    listing.went_well(status, told, PROGRAM)
    return " ".join(told + ([b"".join(record).hex()] if record else []))
