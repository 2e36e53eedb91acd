"""The table of docs/REFUSALS.md: what a refusal's number and place mean."""

import os
import re

from messages import Unusable

TABLE = os.path.join("docs", "REFUSALS.md")


class Row:
    """A row of the table."""

    def __init__(self, number, when, place, places, says):
        self.number = number
        self.when = when
        self.place = place
        self.places = places
        self.says = says

    def short(self):
        """The row without a place."""
        return f"{self.number}: {self.when}; place: {self.place} ({self.places})"

    def at(self, place):
        """The row at a place."""
        return f"{self.number} {place}: {self.meaning(place)}"

    def meaning(self, place):
        """What the refusal says at a place."""
        if not self.allows(place):
            raise Unusable(f"refusal {self.number} has no place {place}; its places: {self.places}")
        return re.sub(r"\bP\b", str(place), self.says)

    def allows(self, place):
        """Whether the number can have the place: `0 to 13`, `8 or more`, `any but 210`, `4, 5 or 8`, or a single number."""
        numbers = [int(n) for n in re.findall(r"\d+", re.sub(r"(?<=\d),(?=\d)", "", self.places))]
        if self.places.startswith("any but "):
            return place not in numbers
        if self.places.endswith(" or more"):
            return place >= numbers[0]
        if " or " in self.places:
            return place in numbers
        return numbers[0] <= place <= numbers[-1]


def read(top):
    """The rows of the table, by their numbers."""
    try:
        with open(os.path.join(top, TABLE), encoding="utf-8") as file:
            lines = file.read().splitlines()
    except OSError as error:
        raise Unusable(f"{TABLE}: {error.strerror}") from error
    rows = {}
    for line in lines:
        cells = [cell.strip() for cell in line.strip().strip("|").split("|")]
        if line.startswith("|") and cells[0].isdigit():
            rows[int(cells[0])] = Row(int(cells[0]), *cells[1:])
    return rows


def explain(rows, number=None, place=None):
    """What is to be said of all numbers, of one, or of one at a place."""
    if number is None:
        return "".join(row.short() + "\n" for row in rows.values())
    row = row_of(rows, number)
    return (row.short() if place is None else row.at(place)) + "\n"


def row_of(rows, number):
    """The row of a number."""
    if number not in rows:
        raise Unusable(f"no refusal has the number {number}; {TABLE} has them all")
    return rows[number]
