"""The table of words: what completions offer at each place, in each shell that is here, and what help and wrong words say."""
from __future__ import annotations

import re
import shutil
import subprocess
import sys
import unittest
from pathlib import Path
from typing import Sequence

from cizborg import protocols, statuses
from cizborg.entry import all_commands, first_words
from cizborg.table import Kind, Word
from cizborg.words import PROGRAM, all_forms
from tests.workbench import TOP
from tests.workbench.setting import TOOLS, ToolCase

FILES = ("one.json", "two.json", "jobs.csv", "a-text")
FOLDER = "sets"
BASH = 'source "$0"; COMP_WORDS=("$@"); COMP_CWORD=$(($# - 1)); _block; [ -z "$COMPREPLY" ] || printf "%s\\n" "${COMPREPLY[@]}"'
# the completion system itself wants a terminal, so the text is asked what it would offer
ZSH = 'source "$0"; _block_offered "$@"; print -r -- "$_block_answer"'
FISH = "source $argv[1]; __block_answer $argv[2..]"
COMMANDS_OF_GUIDE = re.compile(r"^\| `([^`]*)` \|", re.M)


def guide_forms() -> list[list[str]]:
    """The forms of the program's words, as the guide lists them."""
    texts = [path.read_text(encoding="utf-8") for path in sorted((TOP / "docs").glob("GUIDE*.md"))]
    found = [re.search(r"^## Commands\n(.*?)^## ", text, re.M | re.S) for text in texts]
    return [form.split() for section in found if section for form in COMMANDS_OF_GUIDE.findall(section[1])]


def table_forms() -> list[list[str]]:
    """The forms of the program's words, as the table has them: where a place may be left out, there are two."""
    forms = []
    for form in PROGRAM:
        needed = [place.name for place in form.places if place.is_needed]
        forms += [[form.name, *needed]] + ([[form.name, *(place.name for place in form.places)]] if len(needed) < len(form.places) else [])
    return forms


class Table(unittest.TestCase):
    """The table itself."""

    def test_the_guide_has_the_same_forms(self) -> None:
        self.assertEqual(table_forms(), guide_forms())

    def test_each_tool_is_in_the_guide(self) -> None:
        guide = "".join(path.read_text(encoding="utf-8") for path in (TOP / "docs").glob("GUIDE*.md"))
        forms = [f"| `{command.form()}` | {command.does} |" for command in all_commands()]
        self.assertEqual([form for form in forms if form not in guide], [])

    def test_no_tool_has_a_word_of_the_program(self) -> None:
        self.assertEqual(set(first_words()) & {form.name for form in PROGRAM}, set())

    def test_the_program_knows_the_protocols(self) -> None:
        guide = "".join(path.read_text(encoding="utf-8") for path in (TOP / "docs").glob("GUIDE*.md"))
        section = guide.partition("\n## Which protocol\n")[2].partition("\n## ")[0].partition("\n### ")[0]
        self.assertEqual(sorted(re.findall(r"^\| `([^`]*)` \|", section, re.M)), sorted(protocols.WORDS))


def wanted(word: Word) -> list[str]:
    """What bash is to offer for a word, where nothing of it is written."""
    if word.offered():
        return sorted(word.offered())
    kinds = {Kind.JSON: ".json", Kind.CSV: ".csv", Kind.FILE: "", Kind.OUTPUT: ""}
    return sorted([name for name in FILES if name.endswith(kinds[word.kind])] + [FOLDER]) if word.kind in kinds else []


class Completions(ToolCase):
    """What shells are offered."""

    def setUp(self) -> None:
        super().setUp()
        self.place = self.folder / "place"
        (self.place / FOLDER).mkdir(parents=True)
        for name in FILES:
            (self.place / name).touch()

    def text_for(self, shell: str) -> Path:
        """The text for a shell, as a file."""
        return self.file(f"completion.{shell}", self.assert_done(self.tool("completion", shell)))

    def in_shell(self, command: Sequence[object], words: Sequence[str]) -> list[str]:
        """What a shell's command writes for words, as lines in order."""
        ran = subprocess.run([*map(str, command), *words], cwd=self.place, capture_output=True, text=True)
        self.assertEqual(ran.stderr, "")
        return sorted(ran.stdout.split("\n")[:-1])

    def bash(self, *words: str) -> list[str]:
        """What bash offers for the last of these words."""
        return self.in_shell(["bash", "--norc", "-c", BASH, self.text], words)

    def test_bash_at_each_place(self) -> None:
        self.text = self.text_for("bash")
        for form in all_forms():
            for place, word in enumerate(form.places):
                with self.subTest(form=form.name, place=place):
                    self.assertEqual(self.bash("block", *form.name.split(), *["x"] * place, ""), wanted(word))

    def test_bash_behind_each_option(self) -> None:
        self.text = self.text_for("bash")
        for form in all_forms():
            self.assertEqual(self.bash("block", *form.name.split(), "-") if form.options else [], sorted(option.flag for option in form.options))
            for option in form.options:
                first = form.places[0]
                offered = wanted(option.word) if option.word else wanted(first)
                with self.subTest(form=form.name, option=option.flag):
                    self.assertEqual(self.bash("block", *form.name.split(), option.flag, ""), offered)
                    self.assertEqual(self.bash("block", *form.name.split(), option.flag, *(["x"] if option.word else []), ""), wanted(first))

    def test_bash_of_commands(self) -> None:
        self.text = self.text_for("bash")
        commands = {form.name.split()[0] for form in all_forms()}
        self.assertEqual(self.bash("block", ""), sorted([*commands, "--help", "--try", "--version"]))
        self.assertEqual(self.bash("block", "set", "t"), ["tables"])
        self.assertEqual(self.bash("./block", "analyse", "fmlp+", "t"), ["two.json"])
        self.assertEqual(self.bash("block", "--help", ""), [])
        self.assertEqual(self.bash("block", "--try", "check", "fm"), ["fmlp+", "fmlp+-c"])
        self.assertEqual(self.bash("block", "--try", "check", "fmlp+", "t"), ["two.json"])
        registered = subprocess.run(["bash", "--norc", "-c", f'source "{self.text}"; complete -p block block_cli'], capture_output=True)
        self.assertEqual(registered.returncode, 0)

    def assert_as_bash(self, shell: str, command: Sequence[object]) -> None:
        """A shell offers what bash does: the words, or files with an ending."""
        for form in all_forms():
            for place, word in enumerate(form.places):
                offered = self.in_shell(command, ["block", *form.name.split(), *["x"] * place, ""])
                with self.subTest(form=form.name, place=place):
                    self.assertEqual(sorted(" ".join(offered).split()) if word.offered() else "".join(offered), wanted(word) if word.offered() else FILES_OF[word.kind])
        tried = self.in_shell(command, ["block", "--try", "analyse", ""])
        self.assertEqual(sorted(" ".join(tried).split()), sorted(protocols.WORDS))

    @unittest.skipIf(shutil.which("zsh") is None, "zsh is missing")
    def test_zsh(self) -> None:
        text = self.text_for("zsh")
        self.assertEqual(subprocess.run(["zsh", "-n", text]).returncode, 0)
        self.assert_as_bash("zsh", ["zsh", "-f", "-c", ZSH, text])

    @unittest.skipIf(shutil.which("fish") is None, "fish is missing")
    def test_fish(self) -> None:
        text = self.text_for("fish")
        self.assertEqual(subprocess.run(["fish", "-n", text]).returncode, 0)
        self.assert_as_bash("fish", ["fish", "--no-config", "-c", FISH, text])


FILES_OF = {Kind.JSON: "files *.json", Kind.CSV: "files *.csv", Kind.FILE: "files *", Kind.OUTPUT: "files *", Kind.NUMBER: "", Kind.TEXT: ""}


class Words(ToolCase):
    """Help and wrong words."""

    def test_help_of_each_tool(self) -> None:
        for command in all_commands():
            with self.subTest(command.name):
                shown = self.assert_done(self.tool(*command.name.split(), "--help"))
                self.assertTrue(shown.startswith(f"usage: block {command.name} "))
                self.assertIn(statuses.listed(), shown)
                self.assertEqual([option.flag for option in command.every_option() if option.flag not in shown], [])

    def test_wrong_words(self) -> None:
        self.assert_words(self.tool(), "block: there is no tool ''; the tools are:")
        self.assert_words(self.tool("none"), "block none: there is no tool 'none'; the tools are:")
        for command in all_commands():
            with self.subTest(command.name):
                self.assert_words(self.tool(*command.name.split(), *["x" for place in command.places], "--none"), "")

    def test_a_full_output(self) -> None:
        with open("/dev/full", "w", encoding="utf-8") as full:
            ran = subprocess.run([sys.executable, TOOLS, "completion", "bash"], stdout=full, stderr=subprocess.PIPE, text=True)
        self.assertEqual((ran.returncode, ran.stderr), (4, "block completion: [Errno 28] No space left on device\n"))
