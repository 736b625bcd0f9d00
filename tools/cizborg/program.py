"""How the tools ask the program."""
from __future__ import annotations

import json
import os
import subprocess
import tempfile
import threading
from pathlib import Path
from typing import Any, NamedTuple, Union

from .statuses import ANSWERS, Status, Stop

TOP = Path(__file__).resolve().parent.parent.parent
BUILT = TOP / "crates" / "block_cli" / "out" / "block_cli"

# a task set, or a part of it, as its JSON has it
Parts = dict[str, Any]


def default_program() -> Path:
    """The executable that is asked where none is named: the one that ./block names, or else the one that it builds."""
    named = os.environ.get("BLOCK_PROGRAM")
    return Path(named) if named else BUILT


class Answer(NamedTuple):
    """What the program answered: its status, what it wrote, and the command that answered."""

    status: int
    text: str
    by: str

    def line(self) -> str:
        """The first line."""
        return self.text.partition("\n")[0]


def asked(program: Path, *words: Union[str, Path]) -> Answer:
    """The program's answer to these words. The tool stops where the program couldn't answer."""
    done = subprocess.run([program, *words], stdin=subprocess.DEVNULL, capture_output=True, text=True)
    if done.returncode not in ANSWERS:
        status = done.returncode if done.returncode > 0 else Status.LACKING
        raise Stop(f"{words[0]} ended with status {done.returncode}: {done.stdout.strip() or 'it wrote nothing'}", status)
    return Answer(done.returncode, done.stdout, str(words[0]))


class Block:
    """The program, asked of one protocol. Sets and certificates that it is asked of lie in a folder, a file for each thread."""

    def __init__(self, program: Path, protocol: str, folder: Union[str, Path]) -> None:
        if not program.is_file():
            raise Stop(f"{program} is missing: ./block builds the program, or give --program FILE", Status.LACKING)
        self.program = program.resolve()
        self.protocol = protocol
        self.folder = Path(folder)

    def answer(self, command: str, *words: Union[str, Path]) -> Answer:
        """Its answer to a command of the protocol."""
        return asked(self.program, command, self.protocol, *words)

    def file(self, text: str) -> Path:
        """A file of this thread with a text."""
        path = self.folder / f"{threading.get_ident()}"
        path.write_text(text, encoding="utf-8")
        return path

    def analysed(self, parts: Parts, *allowance: str) -> Answer:
        """Its answer to `analyse` of a set, or where that is wide to `settle`."""
        path = self.file(json.dumps(parts))
        answer = self.answer("analyse", path, *allowance)
        return self.settled(parts, path, *allowance) if answer.status == Status.WIDE else answer

    def settled(self, parts: Parts, path: Path, *allowance: str) -> Answer:
        """Its answer to `settle` of the set of a file. A refusal is put in the words of `analyse`, by its last step."""
        answer = self.answer("settle", path, *allowance)
        if answer.status != Status.NO:
            return answer
        last = json.loads(answer.text)["steps"][-1]
        task = parts["tasks"][last["task"] - 1]
        latest = task.get("deadline", task["period"]) - task.get("jitter", 0)
        return Answer(answer.status, f"not shown {task['name']} {last['value']} {latest}\n", answer.by)


def set_of(path: Union[str, Path]) -> Parts:
    """The set of a file that the program has accepted."""
    parts: Parts = json.loads(Path(path).read_text(encoding="utf-8"))
    return parts


def folder_of_calls() -> tempfile.TemporaryDirectory[str]:
    """A folder for the files of which the program is asked."""
    return tempfile.TemporaryDirectory(prefix="block-")
