"""Where a text stops being JSON, by the grammar that the program reads, and what would have had to stand there.

Python's own reader takes more than the program: NaN, a byte order mark, a half of a pair of escapes, numbers past the range of a float,
and levels without a bound. So the text is walked here, token by token and without recursion.
"""
import re
from dataclasses import dataclass
from typing import Pattern

MOST_LEVELS = 127
SPACE = re.compile(r"[ \t\n\r]*")
NUMBER = re.compile(r"-?(?:0|[1-9][0-9]*)(?:\.[0-9]+)?(?:[eE][+-]?[0-9]+)?")
INSIDE = re.compile(r'(?:[^"\\\x00-\x1f]|\\["\\/bfnrt]|\\u[0-9a-fA-F]{4})*')
HALF_PAIR = re.compile(r"\\u[dD](?:[89abAB][0-9a-fA-F]{2}(?!\\u[dD][c-fC-F][0-9a-fA-F]{2})|[c-fC-F][0-9a-fA-F]{2})")
PAIR = re.compile(r"\\\\|\\u[dD][89abAB][0-9a-fA-F]{2}\\u[dD][c-fC-F][0-9a-fA-F]{2}")
LITERALS = ("true", "false", "null")
CLOSED_BY = {"{": "}", "[": "]"}


@dataclass(frozen=True)
class Fault:
    """The first place that isn't JSON, counted from 1 in characters, what would be right there, and what stands there."""

    line: int
    column: int
    expected: str
    found: str

    def __str__(self) -> str:
        return f"line {self.line}, column {self.column}: expected {self.expected}, and found {self.found}"


class Stop(Exception):
    """The walk ends at a place, since something else was expected there."""

    def __init__(self, at: int, expected: str):
        super().__init__(expected)
        self.at, self.expected = at, expected


def shown(text: str, at: int) -> str:
    """What stands at a place, in words that a terminal can show."""
    if at >= len(text):
        return "the end of the file"
    if text[at] == "\ufeff":
        return "a byte order mark"
    if text[at] == "'":
        return "a single quote"
    return f"'{text[at]}'" if text[at].isprintable() else f"the character U+{ord(text[at]):04X}"


def fault_at(text: str, at: int, expected: str, found: str = "") -> Fault:
    before = text[:at]
    line_start = before.rfind("\n") + 1
    return Fault(before.count("\n") + 1, at - line_start + 1, expected, found or shown(text, at))


def end_of(pattern: Pattern[str], text: str, at: int) -> int:
    """The place behind what a pattern finds at a place, or the place itself."""
    found = pattern.match(text, at)
    return found.end() if found else at


def after_space(text: str, at: int) -> int:
    return end_of(SPACE, text, at)


def end_of_string(text: str, at: int) -> int:
    """The place behind a string that begins at a place."""
    end = end_of(INSIDE, text, at + 1)
    if end >= len(text):
        raise Stop(end, "a double quote that ends the text begun before")
    if text[end] == "\\":
        raise Stop(end + 1, r"""one of " \ / b f n r t behind the backslash, or u and four hexadecimal digits""")
    if text[end] != '"':
        raise Stop(end, r"a double quote, or an escape such as \n in place of a control character")
    raw = PAIR.sub(lambda pair: " " * len(pair[0]), text[at : end + 1])
    half = HALF_PAIR.search(raw)
    if half:
        raise Stop(at + half.start(), r"a whole pair of escapes \uD8.. \uDC..")
    return end + 1


def end_of_number(text: str, at: int) -> int:
    """The place behind a number that begins at a place."""
    number = NUMBER.match(text, at)
    if not number:
        raise Stop(at + 1, "a digit behind the sign")
    end = number.end()
    if end < len(text) and text[end] in ".eE":
        behind = end + 1 + (text[end] in "eE" and text[end + 1 : end + 2] in ("+", "-"))
        raise Stop(behind, f"a digit behind {text[end:behind]}")
    if end < len(text) and text[end] in "0123456789":
        raise Stop(at, "a number without a leading 0")
    if abs(float(number[0])) == float("inf"):
        raise Stop(at, "a number within the range of a float")
    return end


def end_of_scalar(text: str, at: int, expected: str) -> int:
    """The place behind a string, a number or one of three words."""
    first = text[at : at + 1]
    if first == '"':
        return end_of_string(text, at)
    if first and first in "-0123456789":
        return end_of_number(text, at)
    for literal in LITERALS:
        if text.startswith(literal, at):
            return at + len(literal)
    raise Stop(at, expected)


def end_of_name(text: str, at: int, expected: str) -> int:
    """The place behind a member's name, its colon and the space around it."""
    if text[at : at + 1] != '"':
        raise Stop(at, expected)
    at = after_space(text, end_of_string(text, at))
    if text[at : at + 1] != ":":
        raise Stop(at, "':'")
    return after_space(text, at + 1)


def behind_value(text: str, at: int, levels: list[str]) -> tuple[int, bool]:
    """Where the next value begins behind one that ended at a place, and whether there is one. It leaves the levels that end there."""
    at = after_space(text, at)
    while levels:
        closing = CLOSED_BY[levels[-1]]
        following = text[at : at + 1]
        if following == ",":
            at = after_space(text, at + 1)
            if closing == "}":
                at = end_of_name(text, at, "a name between double quotes (no comma stands before '}')")
            return at, True
        if following != closing:
            raise Stop(at, f"',' or '{closing}'")
        levels.pop()
        at = after_space(text, at + 1)
    return at, False


def wanted_behind(levels: list[str]) -> str:
    """What has to stand behind a comma within these levels."""
    return "a value (no comma stands before ']')" if levels and levels[-1] == "[" else "a value"


def walk(text: str) -> None:
    """Stops at the first place that isn't JSON."""
    levels: list[str] = []
    at, expected, more = after_space(text, 0), "a value", True
    while more:
        first = text[at : at + 1]
        if not first or first not in CLOSED_BY:
            at, more = behind_value(text, end_of_scalar(text, at, expected), levels)
            expected = wanted_behind(levels)
            continue
        if len(levels) == MOST_LEVELS:
            raise Stop(at, f"at most {MOST_LEVELS} open levels")
        at = after_space(text, at + 1)
        if text[at : at + 1] == CLOSED_BY[first]:
            at, more = behind_value(text, at + 1, levels)
            expected = wanted_behind(levels)
            continue
        levels.append(first)
        expected = "a value" if first == "{" else "a value, or ']'"
        if first == "{":
            at = end_of_name(text, at, "a name between double quotes, or '}'")
    if at < len(text):
        raise Stop(at, "the end of the file")


def first_fault(data: bytes) -> Fault | None:
    """The first place at which the bytes aren't JSON, or None where they are."""
    try:
        text = data.decode("utf-8")
    except UnicodeDecodeError as error:
        before = data[: error.start].decode("utf-8")
        return fault_at(before, len(before), "UTF-8", f"the byte 0x{data[error.start]:02X}")
    try:
        walk(text)
    except Stop as stop:
        return fault_at(text, stop.at, stop.expected)
    return None
