"""The command `report`: one report over the power pages of all files, as the program writes it, or its lines as rows for a database."""

import contextlib
import json
import math
import os
import re
import stat

import listing
import rows
from messages import DONE, FAILED, Unusable, reason, tell
from running import run

PROGRAM = "report_list"
# The 17 rows of a power page: what raw numbers are divided by (the spread S), and the unit, as `page` shows them.
# The tests hold this table, the only one of the front end, against a stored listing of `page`.
SCALES = {
    "EPS_PGET_S00_CUR_SOLX_POS": (50, "mA"),
    "EPS_PGET_S01_CUR_SOLX_NEG": (50, "mA"),
    "EPS_PGET_S02_CUR_SOLY_POS": (50, "mA"),
    "EPS_PGET_S03_CUR_SOLY_NEG": (50, "mA"),
    "EPS_PGET_S04_CUR_SOLZ_POS": (50, "mA"),
    "EPS_PGET_S05_CUR_SOLZ_NEG": (50, "mA"),
    "EPS_PGET_S06_V_SOL": (1, "mV"),
    "EPS_PGET_S24_V_BAT0": (2, "mV"),
    "EPS_PGET_S26_A_IN_CHARGER0": (12, "mA"),
    "EPS_PGET_S25_A_OUT_CHARGER0": (6, "mA"),
    "EPS_PGET_S13_V_BAT1": (2, "mV"),
    "EPS_PGET_S23_A_IN_CHARGER1": (12, "mA"),
    "EPS_PGET_S14_A_OUT_CHARGER1": (6, "mA"),
    "EPS_PGET_S22_V_SUM": (2, "mV"),
    "EPS_PGET_S44_V_3V3": (8, "mV"),
    "EPS_PGET_S45_V_5V": (5, "mV"),
    "THM_PGET_S31_TH_BAT0": (256, "°C"),
}
# The places of a decimal that would not end. Different sums over the same count never show as the same decimal: their values are
# at least 1 / (65535 * 256) apart, which is above 5 * 10^-8.
PLACES = 8
# The most files, of each of which the program keeps a byte.
MOST_FILES = 65536
EXTREMES = ("smallest", "largest")
COLUMNS = (
    "kind name unit spread count smallest smallest_page smallest_shown smallest_numerator smallest_denominator "
    "largest largest_page largest_shown largest_numerator largest_denominator "
    "sum mean_shown mean_numerator mean_denominator file_number file heard accepted pages"
).split()
KINDS = (
    (
        "row",
        r"(?P<name>\w+) count (?P<count>[1-9]\d*) smallest (?P<smallest>-?\d+) page (?P<smallest_page>\d+) "
        r"largest (?P<largest>-?\d+) page (?P<largest_page>\d+) sum (?P<sum>-?\d+) mean (?P=sum)/(?P=count)",
    ),
    ("row", r"(?P<name>\w+) count (?P<count>0) smallest - page - largest - page - sum (?P<sum>0) mean -"),
    ("cut", r"cut (?P<file_number>\d+)"),
    ("full", "full"),
    ("total", r"heard (?P<heard>\d+) accepted (?P<accepted>\d+) pages (?P<pages>\d+)"),
)
# What the program tells of a file that it cannot read, after the file's name.
UNREAD = re.compile(r".*: (?:open|read): ")


def check_all(files):
    """Refuses files that cannot be read, and too many, before the program starts, which opens the files itself."""
    if len(files) > MOST_FILES:
        raise Unusable(f"{len(files):,} files, and a report takes {MOST_FILES:,}")
    for name in files:
        check(name)


def check(name):
    listing.check(name)
    # a pipe isn't tried: whoever writes it would take this for the reader
    if name == listing.STANDARD_INPUT or stat.S_ISFIFO(os.stat(name).st_mode):
        return
    try:
        os.close(os.open(name, os.O_RDONLY | os.O_NONBLOCK | os.O_NOCTTY))
    except OSError as error:
        raise Unusable(f"{name}: {reason(error)}") from error


def report(words, files, form=None):
    """Hands all files to the program, by their names; answers the status. With a form, the report is written as rows."""
    taken = None
    if form:
        table = Rows(form, files)
        table.begin()
        taken = rows.Taken(table, table.row)

    with contextlib.ExitStack() as ends:
        opened = {name: opened_by(name, ends) for name in set(files) if not is_utf8(name)}
        given = [f"/dev/fd/{opened[name]}" if name in opened else name for name in files]
        names = {f"/dev/fd/{descriptor}": name for name, descriptor in opened.items()}

        def hear(line):
            if not line.startswith("write: "):
                path, colon, rest = line.partition(": ")
                tell(f"{names.get(path, path)}{colon}{rest}")

        status, told = run([*words, *given], PROGRAM, hear=hear, take=taken.take if taken else None, pass_fds=descriptors(given))
    went_well = listing.went_well(status, told, PROGRAM) and not any(UNREAD.match(line) for line in told)
    if taken:
        taken.end()
    return DONE if went_well else FAILED


def is_utf8(name):
    """Whether the program can open a file by this name: it takes names in UTF-8 alone."""
    try:
        os.fsencode(name).decode()
    except UnicodeDecodeError:
        return False
    return True


def opened_by(name, ends):
    """The descriptor of a file with another name: the program is handed that in its place."""
    try:
        descriptor = os.open(name, os.O_RDONLY | os.O_NOCTTY)
    except OSError as error:
        raise Unusable(f"{name}: {reason(error)}") from error
    ends.callback(os.close, descriptor)
    return descriptor


def descriptors(files):
    """The descriptors that files are named by, as a shell does it for `<(command)`: the program has to have them too."""
    found = (re.fullmatch(r"/(?:dev|proc/self)/fd/(\d+)", name) for name in files)
    return tuple({int(name[1]) for name in found if name and int(name[1]) > 2})


class Digits(str):
    """The digits of a number, which is written as it stands: a float of Python would not have them all."""


class Rows(rows.Table):
    """The rows of one report."""

    program, called, title = PROGRAM, "report", "pass report"

    def __init__(self, form, files):
        super().__init__(form, COLUMNS, KINDS)
        self.files = [rows.printable(name) for name in files or [listing.STANDARD_INPUT]]

    def object(self, row):
        values = (f"{json.dumps(name)}: {value if isinstance(value, Digits) else json.dumps(value)}" for name, value in row.items())
        return f"{{{', '.join(values)}}}"

    def row(self, line):
        """The row of a line."""
        kind, values = self.values(line)
        if kind == "row":
            if values["name"] not in SCALES:
                raise self.no_line(line)
            values = scaled(values)
        if kind == "cut":
            if values["file_number"] >= len(self.files):
                raise self.no_line(line)
            values["file"] = self.files[values["file_number"]]
        return {"kind": kind, **values}


def scaled(values):
    """The values of a row with its unit and spread, and those shown of its smallest and largest number and of its mean."""
    spread, unit = SCALES[values["name"]]
    row = dict(values, unit=unit, spread=spread)
    for name in EXTREMES:
        row.setdefault(name)
        row.setdefault(f"{name}_page")
        row.update(shown(name, row[name], spread))
    row.update(shown("mean", row["sum"] if row["count"] else None, row["count"] * spread))
    return {name: row[name] for name in COLUMNS if name in row}


def shown(name, number, by):
    """A number divided by another, exactly and as a decimal, under names that begin with this one; nothing where there is no number."""
    if number is None:
        return {f"{name}_{part}": None for part in ("shown", "numerator", "denominator")}
    common = math.gcd(number, by)
    numerator, denominator = number // common, by // common
    return {f"{name}_shown": decimal(numerator, denominator), f"{name}_numerator": numerator, f"{name}_denominator": denominator}


def decimal(numerator, denominator):
    """The digits of a fraction in lowest terms: all where they end, else those of the nearest decimal of so many places.

    Whole numbers only. A half, which could be rounded either way, is a decimal that ends.
    """
    places = next((places for places in range(denominator.bit_length()) if 10**places % denominator == 0), PLACES)
    size = (2 * abs(numerator) * 10**places + denominator) // (2 * denominator)
    whole, part = divmod(size, 10**places)
    after_point = f".{part:0{places}}" if places else ""
    return Digits(f"{'-' if numerator < 0 else ''}{whole}{after_point}")
