#!/usr/bin/env python3
"""Looks whether every must-fail edit can be applied: each `old:` stands exactly once in its file, also behind the pairs before it.

    python3 tests/edits.py

An edit that can't be applied tries no contract, and some kits take it as a failure of the gate. So it is found here in a second, before
the gate. Whether the prover refuses what an edit makes is for `rt ci` and `rt must-fail NAME` to say.
"""
import re
import sys
from pathlib import Path
from typing import Iterator

TOP = Path(__file__).resolve().parent.parent
FOLDERS = ("src/", "specs/", "proofs/")
NAME = re.compile(r"[A-Za-z0-9_-][A-Za-z0-9_.-]*\.edit")


class Bad(Exception):
    """Why an edit can't be applied."""


def steps_of(text: str) -> Iterator[tuple[str, str, str]]:
    """The pairs of an edit, each with the file that it is of."""
    path, old = "", ""
    for line in text.split("\n"):
        word, _, rest = line.partition(":")
        rest = rest.removeprefix(" ")
        if word == "file":
            path, old = rest.strip(), ""
        elif word == "old":
            old = rest
        elif word == "new" and not (path and old):
            raise Bad("a 'new:' stands before any 'file:' and 'old:'")
        elif word == "new":
            yield path, old, rest
            old = ""


def text_of(crate: Path, path: str) -> str:
    if not path.startswith(FOLDERS) or not (crate / path).is_file():
        raise Bad(f"there is no file {path} below {', '.join(FOLDERS)}")
    return (crate / path).read_text(encoding="utf-8")


def applied(crate: Path, text: str) -> dict[str, str]:
    """The files that the edit changes, with their new texts."""
    texts: dict[str, str] = {}
    for path, old, new in steps_of(text):
        before = texts[path] if path in texts else text_of(crate, path)
        if before.count(old) != 1:
            raise Bad(f"an 'old:' stands in {path} {before.count(old)} times, and not once")
        texts[path] = before.replace(old, new)
    if all(text == text_of(crate, path) for path, text in texts.items()):
        raise Bad("it changes nothing")
    return texts


def problem(edit: Path) -> str | None:
    """What is wrong with an edit, or None."""
    if not NAME.fullmatch(edit.name):
        return f"{edit.relative_to(TOP)}: its name isn't of letters, digits, _, - and . with .edit at its end"
    try:
        applied(edit.parent.parent, edit.read_text(encoding="utf-8"))
    except Bad as bad:
        return f"{edit.relative_to(TOP)}: {bad}"
    return None


def problems() -> Iterator[str | None]:
    """What is wrong, or None, for each file of each folder must-fail."""
    for edit in sorted(TOP.glob("crates/*/must-fail/*")):
        if edit.suffix != ".md":
            yield problem(edit)


def main() -> int:
    found = list(problems())
    wrong = [line for line in found if line is not None]
    print(*wrong, f"the edits: {len(found) - len(wrong)} can be applied, {len(wrong)} can't", sep="\n")
    return 1 if wrong or not found else 0


if __name__ == "__main__":
    sys.exit(main())
