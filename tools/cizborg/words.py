"""All words of ./block: those of the program and those of the tools. Completions are made of this table, and tests compare it with the guide."""
from __future__ import annotations

from dataclasses import dataclass

from .entry import all_commands
from .table import CERT, JOBS, PROTOCOL, ROWS, SET, Kind, Option, Word

UNITS = Word("ALLOWANCE", Kind.NUMBER, "", is_needed=False)
A_CERT = Word("CERT", Kind.JSON, "", is_needed=False)
NUMBERS = {name: Word(name, Kind.NUMBER, "") for name in ("TICKS", "SEED", "SETS")}
HELP = Option("--help", "the form of these words, and what they mean")


@dataclass(frozen=True)
class Form:
    """The words of a command: its name, its places and its options."""

    name: str
    places: tuple[Word, ...]
    options: tuple[Option, ...] = ()


PROGRAM = (
    Form("analyse", (PROTOCOL, SET, UNITS)),
    Form("settle", (PROTOCOL, SET, UNITS)),
    Form("refute", (PROTOCOL, SET, UNITS)),
    Form("check", (PROTOCOL, SET, CERT)),
    Form("confirm", (PROTOCOL, SET, CERT)),
    Form("upgrade", (PROTOCOL, SET, CERT)),
    Form("report", (PROTOCOL, SET, A_CERT)),
    Form("conform", (PROTOCOL, SET, JOBS, ROWS)),
    Form("simulate", (PROTOCOL, SET, JOBS, NUMBERS["TICKS"])),
    Form("study", (NUMBERS["SEED"], NUMBERS["SETS"])),
    Form("audit", (PROTOCOL, SET, CERT, JOBS, ROWS)),
)


def all_forms() -> list[Form]:
    """The forms of the program and of the tools."""
    return [*PROGRAM, *(Form(command.name, command.places, (*command.every_option(), HELP)) for command in all_commands())]
