"""The commands that the documents show with their answers. Tests run them, and a release carries them for its self-test."""
import re
from pathlib import Path
from typing import Iterator, NamedTuple, Optional

# The commands of the program. A line that shows another word behind ./block is of a tool.
COMMANDS = ("analyse", "settle", "refute", "check", "confirm", "upgrade", "report", "conform", "simulate", "study", "audit")
# The status isn't shown: it follows from how the answer begins.
STATUSES = {"not shown ": 1, "broken ": 1, "invalid ": 1, "refused ": 3, "wide ": 5}
# A refusal is what `refute` is asked for, and a no of `settle`.
REFUSAL = '{"protocol":'


def documents_in(top: Path) -> list[Path]:
    """The documents below a folder that show commands: the README, the pages of the guide, and the page on recordings."""
    return [top / "README.md", *sorted((top / "docs").glob("GUIDE*.md")), *(top / "docs").glob("RECORDING.md")]


class Shown(NamedTuple):
    """A command as a document shows it: the line, its words, the answer, its status, and the file to which the answer goes, or ""."""

    line: str
    words: str
    answer: str
    status: int
    saves: str


def blocks_of(text: str) -> Iterator[str]:
    """The blocks between fences that name no language."""
    inside: Optional[str] = None
    block: list[str] = []
    for line in text.splitlines(keepends=True):
        if line.startswith("```"):
            if inside == "":
                yield "".join(block)
            inside, block = (line[3:].strip() if inside is None else None), []
        elif inside is not None:
            block.append(line)


def commands_of(document: Path) -> Iterator[Shown]:
    """The commands of the program that a document shows, with the answers that it gives: lines that begin with `$ ./block`, and what follows.

    They run one after the other in a folder that has the examples; one may save its answer to a file that a later one reads.
    """
    for block in blocks_of(document.read_text(encoding="utf-8")):
        for shown in re.split(r"^\$ ", block, flags=re.M)[1:]:
            line, _, answer = shown.partition("\n")
            words, _, saves = line.removeprefix("./block ").partition(" >")
            if line.startswith("./block ") and words.split()[0] in COMMANDS:
                statuses = {**STATUSES, REFUSAL: 1} if words.startswith("settle ") else STATUSES
                status = next((status for start, status in statuses.items() if answer.startswith(start)), 0)
                yield Shown(line, words, answer, status, saves.strip())
