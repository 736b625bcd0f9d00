"""The commands of the tools that the guide and README show with what they write."""
from __future__ import annotations

import re
import shlex
from typing import Iterator

from cizborg.entry import first_words
from tests.workbench import TOP
from tests.workbench.setting import ToolCase

PAGES = [TOP / "README.md", *sorted((TOP / "docs").glob("GUIDE*.md"))]
# what writes files, or goes through the shell, isn't run
WRITING = {"--picture", "--output", "draw", "dossier", "run", "|", ">"}


def plain_blocks(text: str) -> Iterator[str]:
    """The blocks of a page that name no language."""
    for number, part in enumerate(re.split(r"^```", text, flags=re.M)):
        if number % 2 and part.startswith("\n"):
            yield part[1:]


def shown_commands() -> Iterator[tuple[str, list[str], str]]:
    """The page, the words and the shown answer of each command of a tool."""
    for page in PAGES:
        for block in plain_blocks(page.read_text(encoding="utf-8")):
            for shown in re.split(r"^\$ ", block, flags=re.M)[1:]:
                line, _, answer = shown.partition("\n")
                words = shlex.split(line)
                if words[0] == "./block" and words[1] in first_words() and not any(word in WRITING or word.startswith(">") for word in words):
                    yield page.name, words[1:], answer


class Shown(ToolCase):
    """What is shown is what is written."""

    def test_commands(self) -> None:
        commands = list(shown_commands())
        self.assertTrue(commands)
        for page, words, answer in commands:
            with self.subTest(page=page, words=words):
                self.assertEqual(self.tool(*words, at=TOP).stdout, answer)
