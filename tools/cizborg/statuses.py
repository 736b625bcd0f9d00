"""The statuses with which the program and the tools end."""
from __future__ import annotations

from enum import IntEnum


class Status(IntEnum):
    """One list for the program and all tools; what is from 70 on comes from tools and from ./block alone."""

    DONE = 0
    NO = 1
    WORDS = 2
    REFUSED = 3
    FAULT = 4
    WIDE = 5
    ALLOWANCE = 6
    MEMORY = 7
    LACKING = 70


MEANINGS = {
    Status.DONE: "done, or the answer is yes",
    Status.NO: "the answer is no: not shown, not valid, broken, or nothing was found",
    Status.WORDS: "the words have none of the forms, or an option is wrong; nothing was begun",
    Status.REFUSED: "an input is refused",
    Status.FAULT: "a read or a write failed",
    Status.WIDE: "nothing is known: a number of the analysis is too wide",
    Status.ALLOWANCE: "nothing is known: the analysis wants more than its allowance",
    Status.MEMORY: "there was not enough memory",
    Status.LACKING: "something that the tool needs is missing: the program, or a package",
}

# what the program answers with where it has judged its input
ANSWERS = (Status.DONE, Status.NO, Status.REFUSED, Status.WIDE, Status.ALLOWANCE)
# after these nothing is known of a set
UNKNOWN = (Status.WIDE, Status.ALLOWANCE)


def listed() -> str:
    """The statuses as lines."""
    return "\n".join(f"  {status:>2}  {meaning}" for status, meaning in MEANINGS.items())


class Stop(Exception):
    """A tool ends with a line and a status."""

    def __init__(self, why: str, status: int) -> None:
        super().__init__(why)
        self.status = status
