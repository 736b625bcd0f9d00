"""Which word has no form, what it is near to, and the one form that was meant, by the table of commands in the guide."""
import os
import re
from dataclasses import dataclass
from pathlib import Path

from shapes import near

PATHS = ("SET", "CERT", "JOBS", "ROWS")
# The least and the greatest number that a place takes.
RANGES = {"ALLOWANCE": (1, 1_000_000_000), "TICKS": (1, 1_000_000_000), "SEED": (0, 2**64 - 1), "SETS": (1, 1000)}
NUMBER = re.compile(r"0|[1-9][0-9]*")


@dataclass(frozen=True)
class Wrong:
    """What is wrong with words, and the form that was meant where one was."""

    why: str
    form: tuple[str, ...] = ()


def guide_in(documents: Path) -> str:
    """The text of the guide, whose pages have names that begin so."""
    return "\n".join(path.read_text(encoding="utf-8") for path in sorted(documents.glob("GUIDE*.md")))


def forms_of(guide: str, title: str = "Commands") -> list[tuple[str, ...]]:
    """The forms of words that a part of the guide lists: those of the program, or those of the tools."""
    section = re.search(rf"^## {title}\n(.*?)^##? ", guide + "\n# ", re.M | re.S)
    return [tuple(form.split()) for form in re.findall(r"^\| `([^`]*)` \|", section[1] if section else "", re.M)]


def protocols_of(guide: str) -> list[str]:
    named = re.search(r"^\| `analyse PROTOCOL SET` \|.*PROTOCOL is (.*) \|$", guide, re.M)
    return re.findall(r"`([^`]*)`", named[1]) if named else []


def quoted(word: str) -> str:
    return '"' + "".join(letter if letter.isprintable() else ascii(letter)[1:-1] for letter in word) + '"'


def listed(words: list[str]) -> str:
    return f"{', '.join(words[:-1])} and {words[-1]}"


def is_utf8(word: str) -> bool:
    return not any(0xDC80 <= ord(letter) <= 0xDCFF for letter in word)


def wrong_command(words: list[str], commands: list[str], forms: list[tuple[str, ...]]) -> Wrong:
    """What is wrong with words whose first one is no command. The forms are those of the tools too."""
    if not words:
        return Wrong(f"a command is missing: {listed(commands)} are there")
    like = near(words[0], [form[0] for form in forms])
    if not like:
        return Wrong(f"{quoted(words[0])} is no command: {listed(commands)} are there")
    meant = [form for form in forms if form[0] == like]
    return Wrong(f"{quoted(words[0])} is no command; near to it is {quoted(like)}", form_for(meant, len(words)))


def form_for(forms: list[tuple[str, ...]], count: int) -> tuple[str, ...]:
    """Of the forms of one command the one with so many words, or nearly as many."""
    return min(forms, key=lambda form: (abs(len(form) - count), len(form)))


def wrong_count(words: list[str], form: tuple[str, ...]) -> Wrong | None:
    """What is wrong where there are too few words, or too many."""
    if len(words) < len(form):
        return Wrong(f"{form[len(words)]} is missing behind {quoted(words[-1])}", form)
    if len(words) > len(form):
        return Wrong(f"{quoted(words[len(form)])} is a word too many", form)
    return None


def wrong_protocol(words: list[str], form: tuple[str, ...], protocols: list[str]) -> Wrong | None:
    """What is wrong with the protocol, where the form has one."""
    if form[1:2] != ("PROTOCOL",) or len(words) < 2 or words[1] in protocols:
        return None
    if any(word in protocols for word in words[2:]):
        return Wrong("the protocol comes right after the command", form)
    if os.path.isfile(words[1]):
        return Wrong(f"a protocol is missing in front of {quoted(words[1])}: one of {listed(protocols)}", form)
    like = near(words[1], protocols)
    return Wrong(f"{quoted(words[1])} is no protocol" + (f"; near to it is {quoted(like)}" if like else f": {listed(protocols)} are there"), form)


def wrong_number(words: list[str], form: tuple[str, ...]) -> Wrong | None:
    """What is wrong with a number of the form."""
    for word, place in zip(words, form):
        least, most = RANGES.get(place, (0, 0))
        if place in RANGES and not (NUMBER.fullmatch(word) and least <= int(word) <= most):
            return Wrong(f"{place} is {quoted(word)}, and should be a number from {least:,} to {most:,}, in digits alone and without a leading 0", form)
    return None


def wrong_words(words: list[str], guide: str) -> Wrong | None:
    """The first thing that is wrong with words, or None where they have a form."""
    unread = next((word for word in words if not is_utf8(word)), None)
    if unread is not None:
        return Wrong(f"the word {quoted(unread)} isn't UTF-8")
    forms = forms_of(guide)
    commands = list(dict.fromkeys(form[0] for form in forms))
    if not words or words[0] not in commands:
        return wrong_command(words, commands, [*forms, *forms_of(guide, "Tools")])
    form = form_for([form for form in forms if form[0] == words[0]], len(words))
    return wrong_protocol(words, form, protocols_of(guide)) or wrong_count(words, form) or wrong_number(words, form)


def place_of(words: list[str], which: str) -> int | None:
    """The place of the word that names an input: of `set`, `cert`, `jobs` or `rows`."""
    order = {"set": 2, "cert": 3, "jobs": 4 if words[:1] == ["audit"] else 3, "rows": 5 if words[:1] == ["audit"] else 4}
    return order[which] if which in order and order[which] < len(words) else None
