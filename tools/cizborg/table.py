"""What a command is: its words, from which its help, its checks and the completions are made."""
from __future__ import annotations

import argparse
from dataclasses import dataclass
from enum import Enum
from pathlib import Path
from typing import Any, Callable, NoReturn, Optional, Sequence

from . import protocols, statuses
from .program import default_program
from .statuses import Status, Stop


class Kind(Enum):
    """What a word may be. Completions offer what belongs there."""

    PROTOCOL = "protocol"
    JSON = "json"
    CSV = "csv"
    FILE = "file"
    OUTPUT = "output"
    NUMBER = "number"
    CHOICE = "choice"
    TEXT = "text"

    def is_input(self) -> bool:
        """Whether it names a file that is read."""
        return self in (Kind.JSON, Kind.CSV, Kind.FILE)


@dataclass(frozen=True)
class Word:
    """A word that is given: by its place, or behind an option's flag."""

    name: str
    kind: Kind
    says: str
    is_needed: bool = True
    choices: tuple[str, ...] = ()
    least: Optional[int] = None
    most: Optional[int] = None

    def offered(self) -> tuple[str, ...]:
        """The words among which it has to be, where it has to be among some."""
        return protocols.WORDS if self.kind is Kind.PROTOCOL else self.choices

    def value_of(self, text: str) -> object:
        """The value of a word that was given, or the error that argparse tells."""
        if self.kind is not Kind.NUMBER:
            return text
        if not text.isascii() or not text.isdigit() or len(text) > 20:
            raise argparse.ArgumentTypeError(f"{text!r} is no whole number")
        number = int(text)
        if self.least is not None and number < self.least or self.most is not None and number > self.most:
            bounds = f"from {self.least or 0} on" if self.most is None else f"from {self.least or 0} to {self.most}"
            raise argparse.ArgumentTypeError(f"{text} isn't {bounds}")
        return number


# flags whose own names are words of Python
RENAMED = {"--from": "start", "--to": "end"}


@dataclass(frozen=True)
class Option:
    """An option: its flag, what it says, the word behind it where it takes one, and how the help shows that word."""

    flag: str
    says: str
    word: Optional[Word] = None
    default: object = None

    def member(self) -> str:
        """Its name among what was given."""
        return RENAMED.get(self.flag) or self.flag.lstrip("-").replace("-", "_")


Given = argparse.Namespace


@dataclass(frozen=True)
class Command:
    """A command: its name of one or two words, its places and options, what it says of itself, and what runs it."""

    name: str
    places: tuple[Word, ...]
    does: str
    about: str
    run: Callable[[Given], int]
    options: tuple[Option, ...] = ()
    asks: bool = True

    def form(self) -> str:
        """The words as the help lists them."""
        return " ".join([self.name, *(place.name if place.is_needed else f"[{place.name}]" for place in self.places)])

    def every_option(self) -> tuple[Option, ...]:
        """The options with the one that all have who ask the program."""
        return (*self.options, PROGRAM) if self.asks else self.options


PROGRAM = Option("--program", "the executable, where it isn't the one that ./block builds", Word("FILE", Kind.FILE, ""))
JSON = Option("--json", "writes JSON in place of text")
CSV = Option("--csv", "writes CSV in place of text")
OUTPUT = Option("--output", "the file that is written; without it all goes to standard output", Word("FILE", Kind.OUTPUT, ""))
PICTURE = Option("--picture", "draws a picture, as .svg, .png or .pdf (needs python3-matplotlib)", Word("FILE", Kind.OUTPUT, ""))
PROTOCOL = Word("PROTOCOL", Kind.PROTOCOL, " or ".join([", ".join(protocols.WORDS[:-1]), protocols.WORDS[-1]]))
SET = Word("SET", Kind.JSON, "the file of the task set")
CERT = Word("CERT", Kind.JSON, "a certificate of it that `check` accepts")
JOBS = Word("JOBS", Kind.CSV, "the file of the jobs")
ROWS = Word("ROWS", Kind.CSV, "the file of the rows")
ALLOWANCE = Option("--allowance", "the units of work that each analysis may take", Word("UNITS", Kind.NUMBER, "", least=1, most=1_000_000_000))


class Parser(argparse.ArgumentParser):
    """Ends with the status of wrong words, by the same way as everything else that a tool stops at."""

    def error(self, message: str) -> NoReturn:
        raise Stop(f"{message}\n{self.format_usage().strip()}", Status.WORDS)


def shown(text: str) -> str:
    """A text as argparse takes it, to which a per cent sign means more."""
    return text.replace("%", "%%")


def kept(word: Word) -> dict[str, Any]:
    """What argparse is to know of a word."""
    return {"metavar": word.name, "type": word.value_of, "choices": word.offered() or None}


def parser_of(command: Command) -> Parser:
    """What reads the words of a command."""
    epilog = f"Statuses:\n{statuses.listed()}"
    words = Parser(f"block {command.name}", description=command.about.strip(), epilog=epilog, allow_abbrev=False, formatter_class=argparse.RawDescriptionHelpFormatter)
    for place in command.places:
        more: dict[str, Any] = {} if place.is_needed else {"nargs": "?"}
        words.add_argument(place.name.lower(), help=shown(place.says), **kept(place), **more)
    for option in command.every_option():
        if option.word is None:
            words.add_argument(option.flag, dest=option.member(), action="store_true", help=shown(option.says))
        else:
            words.add_argument(option.flag, dest=option.member(), help=shown(option.says), default=option.default, **kept(option.word))
    return words


def paths_of(command: Command, given: Given, is_wanted: Callable[[Kind], bool]) -> list[tuple[str, str]]:
    """The files that were named in places and options of these kinds, each with the word for it."""
    named = [(place.name, place.kind, getattr(given, place.name.lower())) for place in command.places]
    named += [(option.flag, option.word.kind, getattr(given, option.member())) for option in command.every_option() if option.word]
    return [(word, path) for word, kind, path in named if is_wanted(kind) and path is not None]


def keep_inputs(command: Command, given: Given) -> None:
    """Stops a tool that would write over one of its inputs, or two outputs to one file."""
    seen = {Path(path).resolve(): word for word, path in paths_of(command, given, Kind.is_input)}
    for word, path in paths_of(command, given, lambda kind: kind is Kind.OUTPUT):
        other = seen.setdefault(Path(path).resolve(), word)
        if other != word:
            raise Stop(f"{path} is given for {word} and for {other}: nothing is written over", Status.WORDS)


def given_to(command: Command, words: Sequence[str]) -> Given:
    """The words of a command, as they were given and judged."""
    given = parser_of(command).parse_args(words)
    if command.asks:
        given.program = Path(given.program) if given.program else default_program()
    keep_inputs(command, given)
    return given
