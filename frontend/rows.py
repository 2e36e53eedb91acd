"""Lines as rows that a database takes: JSON Lines, or CSV by RFC 4180 (docs/DECISIONS.md, 'Rows for a database'). First those of a listing."""

import csv
import io
import json
import os
import re

import refusals
from listing import CORRECTED
from messages import Unusable, say
from running import PIECE, Lines

CSV = "csv"


class Table:
    """Writes the lines of a text as rows, in one of the two forms. A row has the names that its line has values for."""

    # the program that writes the text, what the text is, and its title, which gives no row
    program = called = title = ""

    def __init__(self, form, columns, kinds):
        self.form = form
        self.columns = columns
        self.kinds = [(kind, re.compile(pattern)) for kind, pattern in kinds]

    def begin(self):
        """CSV has one header line, before the first row."""
        if self.form == CSV:
            say(self.text([dict(zip(self.columns, self.columns))]))

    def values(self, line):
        """What kind of line it is, and its values by name."""
        for kind, pattern in self.kinds:
            found = pattern.fullmatch(line)
            if found:
                return kind, {name: number_or_text(value) for name, value in found.groupdict().items()}
        raise self.no_line(line)

    def no_line(self, line):
        return Unusable(f"{self.program} wrote what is no line of a {self.called}: {line}")

    def object(self, row):
        """A row as JSON has it."""
        return json.dumps(row)

    def text(self, rows):
        """Rows as they are written."""
        if self.form != CSV:
            return "".join(self.object(row) + "\n" for row in rows)
        out = io.StringIO()
        csv.DictWriter(out, self.columns).writerows(rows)
        return out.getvalue()


def number_or_text(value):
    return int(value) if value.lstrip("-").isdigit() else value


def printable(name):
    """The name of a file, which may be any bytes: those that are no UTF-8 are written as \\xNN."""
    return os.fsencode(name).decode(errors="backslashreplace")


class Rows(Table):
    """The rows of the listings of one call."""

    program, called, title = "list", "listing", "pass sheet"

    def __init__(self, form, edition, table):
        # the rows of docs/REFUSALS.md
        self.table = table
        speaker, said = ["satellite", "radio"], r"(?P<satellite>[A-D]) radio (?P<radio>\d+)"
        if edition == CORRECTED:
            speaker, said = ["source"], r"source (?P<source>\d+)"
        columns = "file kind record verdict".split() + speaker
        columns += "tx repaired worst bytes number place meaning heard accepted refused".split()
        numbers = r"tx (?P<tx>\d+) repaired (?P<repaired>\d+) worst (?P<worst>\d+) bytes (?P<bytes>\d+)"
        kinds = (
            ("record", rf"(?P<record>\d+) (?P<verdict>accepted) {said} {numbers}"),
            ("record", r"(?P<record>\d+) (?P<verdict>refused) (?P<number>\d+) (?P<place>\d+)"),
            ("cut", "cut"),
            ("total", r"heard (?P<heard>\d+) accepted (?P<accepted>\d+) refused (?P<refused>\d+)"),
        )
        super().__init__(form, columns, kinds)

    def listing(self, name):
        """What takes the listing of a file."""
        name = printable(name)
        return Taken(self, lambda line: self.row(name, line))

    def row(self, name, line):
        """The row of a line in the listing of a file."""
        kind, values = self.values(line)
        if "number" in values:
            values["meaning"] = refusals.row_of(self.table, values["number"]).meaning(values["place"])
        return {"file": name, "kind": kind, **values}


class Taken:
    """Takes a text as it comes, and writes the rows of its lines."""

    def __init__(self, table, row):
        self.table = table
        # a function of a line
        self.row = row
        self.lines = Lines()

    def take(self, piece):
        lines = [line.decode(errors="backslashreplace") for line in self.lines.ended_by(piece)]
        if len(self.lines.rest) > PIECE:
            self.end()
        rows = [self.row(line) for line in lines if line != self.table.title]
        say(self.table.text(rows).encode())

    def end(self):
        """Where the text has ended, nothing is left of it."""
        if self.lines.rest:
            raise self.table.no_line(self.lines.rest[:80].decode(errors="backslashreplace"))
