"""Reads tables in CSV as people and spreadsheets write them, and takes their times to ticks."""
from __future__ import annotations

import csv
import io
import math
import re
from dataclasses import dataclass
from fractions import Fraction
from typing import Optional, Sequence

from . import files
from .statuses import Status, Stop

# the columns that a table has to have, and those that it may have
Columns = tuple[tuple[str, ...], tuple[str, ...]]
TASKS: Columns = (("task", "processor", "period", "cost"), ("deadline", "local", "jitter"))
REQUESTS: Columns = (("task", "resource", "count", "length"), ("home",))
# Times that are rounded down to whole ticks. All others are rounded up, so that the set asks for no less than the tables do.
ROUNDED_DOWN = ("period", "deadline")
TIMES = ("period", "deadline", "cost", "local", "jitter", "length")
# the units that a header may name, in seconds
UNITS = {"s": Fraction(1), "ms": Fraction(1, 1000), "us": Fraction(1, 10**6), "µs": Fraction(1, 10**6), "μs": Fraction(1, 10**6), "ns": Fraction(1, 10**9)}
HEAD = re.compile(r"(.*?)\s*[\[(]\s*(\S+)\s*[\])]")
MOST_DIGITS = 30


@dataclass(frozen=True)
class Measure:
    """How a time of the tables becomes ticks: how many ticks one unit of the tables is, or how many seconds a tick is; and how many ticks are
    added to each cost."""

    scale: Optional[Fraction]
    tick: Optional[Fraction]
    spare: int = 0

    def ticks_per_unit(self, unit: Optional[str]) -> Optional[Fraction]:
        """How many ticks one unit of a column is; None where its numbers are ticks already."""
        return self.scale if unit is None or self.tick is None else UNITS[unit] / self.tick

    def is_rounding(self) -> bool:
        """Whether times are rounded to ticks."""
        return self.scale is not None or self.tick is not None

    def rule(self) -> str:
        """What is done to times."""
        rounded = "periods and deadlines are rounded down to whole ticks, costs, local limits, lengths and jitters up"
        spare = "a tick is added to each cost"
        return "; ".join([*([rounded] if self.is_rounding() else []), *([spare] if self.spare else [])])


@dataclass(frozen=True)
class Line:
    """A line of a table: its file, its number there, its cells by column, without those that are empty, the units of columns, and the mark
    between its fields."""

    path: str
    number: int
    cells: dict[str, str]
    units: dict[str, Optional[str]]
    mark: str

    def place(self) -> str:
        """Where it stands, as an error names it."""
        return f"{self.path}, line {self.number}"


class Faults:
    """What is wrong with the tables, each with its place."""

    def __init__(self) -> None:
        self.found: list[str] = []

    def add(self, place: str, why: str) -> None:
        """One more thing that is wrong at a place."""
        self.found.append(f"{place}: {why}")

    def end(self) -> None:
        """Ends the tool where anything is wrong, with a line for each."""
        if self.found:
            raise Stop("\nblock set: ".join(self.found), Status.REFUSED)


@dataclass(frozen=True)
class Header:
    """The names of the columns, and the unit that each names or None."""

    names: list[str]
    units: dict[str, Optional[str]]


def header_of(cells: Sequence[str]) -> Header:
    """The header of these cells: names without regard to case, and a unit in brackets behind a name."""
    split = [(match[1], match[2]) if match else (cell, None) for cell in (cell.strip() for cell in cells) for match in [HEAD.fullmatch(cell)]]
    names = [name.strip().lower() for name, _ in split]
    return Header(names, dict(zip(names, (unit for _, unit in split))))


def wrong_units(header: Header, measure: Measure) -> list[str]:
    """What is wrong with the units that a header names."""
    named = {name: unit for name, unit in header.units.items() if unit is not None}
    wrong = [f"the unit of {name} is {unit!r}, and units are s, ms, us and ns" for name, unit in named.items() if unit not in UNITS]
    wrong += [f"{name} is no time, and has the unit {unit!r}" for name, unit in named.items() if name not in TIMES]
    times = [name for name in header.names if name in TIMES]
    if named and measure.tick is None:
        wrong.append("the header names units; --tick says how long a tick is, as in --tick 1us")
    elif measure.tick is not None:
        wrong += [f"the header names no unit of {name}, which --tick needs" for name in times if name not in named]
    return wrong


def is_header(path: str, header: Header, columns: Columns, measure: Measure, faults: Faults) -> bool:
    """Whether the header has the columns that it must have, no other or twice the same, and the units that are wanted."""
    needed, free = columns
    names = header.names
    wrong = [f"the header has no column {name!r}" for name in needed if name not in names]
    wrong += [f"the header has a column {name!r}, and columns are {', '.join(needed + free)}" for name in names if name not in needed + free]
    wrong += [f"the header has the column {name!r} twice" for name in sorted(set(names)) if names.count(name) > 1]
    for why in wrong or wrong_units(header, measure):
        faults.add(f"{path}, line 1", why)
    return not wrong and not wrong_units(header, measure)


def line_of(place: Line, names: Sequence[str], cells: Sequence[str], needed: Sequence[str], faults: Faults) -> Optional[Line]:
    """The line at a place with these cells, or None where it is none."""
    if len(cells) != len(names):
        faults.add(place.place(), f"it has {len(cells)} fields, and the header has {len(names)}")
        return None
    named = {name: cell.strip() for name, cell in zip(names, cells) if cell.strip()}
    empty = [name for name in needed if name not in named]
    for name in empty:
        faults.add(place.place(), f"{name} is empty")
    return None if empty else Line(place.path, place.number, named, place.units, place.mark)


def table_of(path: str, columns: Columns, measure: Measure, faults: Faults) -> list[Line]:
    """The lines of a table, below its header."""
    text = files.read_text(path)
    first = text.partition("\n")[0]
    mark = max(",;\t", key=first.count)
    lines = csv.reader(io.StringIO(text), delimiter=mark)
    header = header_of(next(lines, []))
    if not is_header(path, header, columns, measure, faults):
        return []
    made = []
    for cells in lines:
        if any(cell.strip() for cell in cells):
            made.append(line_of(Line(path, lines.line_num, {}, header.units, mark), header.names, cells, columns[0], faults))
    return [line for line in made if line]


def decimal_of(text: str, mark: str) -> tuple[Optional[Fraction], str]:
    """The number in a cell of a time, or None and what is wrong with it. Between semicolons a comma is the decimal point, as spreadsheets write it
    where they write semicolons; there a point before three digits could stand for thousands."""
    if len(text) > MOST_DIGITS:
        return None, "which is too long"
    if mark == ";" and re.fullmatch(r"[0-9]+,[0-9]+", text):
        return Fraction(text.replace(",", ".")), ""
    if mark == ";" and re.fullmatch(r"[1-9][0-9]{0,2}\.[0-9]{3}", text):
        before, _, behind = text.partition(".")
        return None, f"which may be a thousand or a part of one: write {before}{behind} or {before},{behind}"
    if not re.fullmatch(r"[0-9]+(\.[0-9]+)?", text):
        return None, "which is no number"
    return Fraction(text), ""


def whole(line: Line, name: str, measure: Measure, faults: Faults) -> Optional[int]:
    """The whole number in a cell: of a time the ticks."""
    text, scale = line.cells[name], measure.ticks_per_unit(line.units.get(name)) if name in TIMES else None
    spare = measure.spare if name == "cost" else 0
    if scale is None:
        if text.isascii() and text.isdigit() and len(text) <= MOST_DIGITS:
            return int(text) + spare
        hint = "; --ticks-per-unit says how many ticks are one unit" if name in TIMES and re.fullmatch(r"[0-9]+[.,][0-9]+", text) else ""
        faults.add(line.place(), f"{name} is {text!r}, which is no whole number{hint}")
        return None
    number, why = decimal_of(text, line.mark)
    if number is None:
        faults.add(line.place(), f"{name} is {text!r}, {why}")
        return None
    ticks = number * scale
    return (math.floor(ticks) if name in ROUNDED_DOWN else math.ceil(ticks)) + spare


def tick_of(text: str) -> Fraction:
    """The seconds of a tick that is given as a number and a unit, as 1us or 0.5 ms."""
    found = re.fullmatch(r"([0-9]+(?:\.[0-9]+)?)\s*(\S+)", text)
    if not found or found[2] not in UNITS or Fraction(found[1]) == 0 or len(text) > MOST_DIGITS:
        raise Stop(f"--tick is {text!r}, which is no time like 1us; units are s, ms, us and ns", Status.WORDS)
    return Fraction(found[1]) * UNITS[found[2]]
