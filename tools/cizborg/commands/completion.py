"""Writes what a shell needs to complete the words of ./block."""
from __future__ import annotations

from .. import files
from ..completions import TEXTS
from ..statuses import Status
from ..table import OUTPUT, Command, Given, Kind, Word

ABOUT = """
Writes what a shell needs to complete the words of ./block: commands, protocols, options, and names of files.

    source <(./block completion bash)
    source <(./block completion zsh)
    ./block completion fish | source

It serves ./block and any other path to a file that is named block or block_cli. For each place of a form it offers what belongs there:
folders too where a file is wanted, and nothing where a number is.
"""


def run(given: Given) -> int:
    """Writes the text for a shell."""
    files.write_out(TEXTS[given.shell](), given.output)
    return Status.DONE


SHELL = Word("SHELL", Kind.CHOICE, "bash, zsh or fish", choices=tuple(TEXTS))
COMMANDS = (Command("completion", (SHELL,), "what a shell needs to complete these words", ABOUT, run, (OUTPUT,), asks=False),)
