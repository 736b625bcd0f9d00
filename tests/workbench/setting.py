"""How the tests run a tool, and what they say of it."""
from __future__ import annotations

import os
import shutil
import subprocess
import sys
import tempfile
import unittest
from pathlib import Path
from typing import Optional, Sequence, Union

from tests.workbench import TOP

EXAMPLES = TOP / "examples"
TOOLS = TOP / "tools" / "cizborg"
PROGRAM = Path(os.environ.get("BLOCK_PROGRAM") or TOP / "crates" / "block_cli" / "out" / "block_cli")
Text = Union[str, Path, int]


def python_with(module: str) -> Optional[str]:
    """A Python of this machine that has a module, or None."""
    for python in (sys.executable, "/usr/bin/python3"):
        if Path(python).is_file() and subprocess.run([python, "-c", f"import {module}"], capture_output=True).returncode == 0:
            return python
    return None


def needs(module: str) -> str:
    """Why a test is left out, or nothing where a Python has the module."""
    return "" if python_with(module) else f"no Python here has {module}"


class ToolCase(unittest.TestCase):
    """A test in a folder of its own, which runs tools over the program."""

    maxDiff = None

    def setUp(self) -> None:
        self.folder = Path(tempfile.mkdtemp(prefix="block-"))
        self.addCleanup(shutil.rmtree, self.folder)

    def file(self, name: str, text: str) -> Path:
        """A file of the folder with a text, which may be run."""
        path = self.folder / name
        path.write_text(text, encoding="utf-8")
        path.chmod(0o755)
        return path

    def tool(self, *words: Text, program: Optional[Path] = None, at: Optional[Path] = None, python: str = sys.executable) -> subprocess.CompletedProcess[str]:
        """The run of a tool, in the folder."""
        environment = {**os.environ, "BLOCK_PROGRAM": str(program or PROGRAM)}
        environment.pop("CIZBORG_PYTHON", None)
        return subprocess.run([python, TOOLS, *map(str, words)], cwd=at or self.folder, capture_output=True, text=True, env=environment)

    def block(self, *words: Text, at: Optional[Path] = None) -> subprocess.CompletedProcess[str]:
        """The run of the program."""
        return subprocess.run([PROGRAM, *map(str, words)], cwd=at or self.folder, capture_output=True, text=True)

    def written(self, name: str, *words: Text) -> Path:
        """A file with what the program writes."""
        return self.file(name, self.block(*words).stdout)

    def assert_ends(self, ran: subprocess.CompletedProcess[str], status: int, out: Optional[str] = None, err: Optional[str] = None) -> None:
        """A tool ended with this status, and wrote these texts; one that isn't given may be any."""
        found = (ran.returncode, ran.stdout if out is not None else None, ran.stderr if err is not None else None)
        self.assertEqual(found, (status, out, err), ran.stdout[-2000:] + ran.stderr[-2000:])

    def assert_done(self, ran: subprocess.CompletedProcess[str]) -> str:
        """A tool ended with status 0, and said nothing on standard error; what it wrote."""
        self.assert_ends(ran, 0, err="")
        return ran.stdout

    def assert_refused(self, ran: subprocess.CompletedProcess[str], status: int, tool: str, lines: Sequence[str]) -> None:
        """A tool ended with these lines on standard error, and wrote nothing."""
        self.assert_ends(ran, status, "", "".join(f"block {tool}: {line}\n" for line in lines))

    def assert_words(self, ran: subprocess.CompletedProcess[str], said: str) -> None:
        """A tool ended with status 2, before any work, and its first line says so."""
        self.assertEqual((ran.returncode, ran.stdout, said in ran.stderr.split("\n")[0]), (2, "", True), ran.stderr)

    def assert_shows(self, picture: Path, words: Sequence[str]) -> None:
        """A picture of matplotlib shows these words."""
        text = picture.read_text(encoding="utf-8")
        self.assertEqual([word for word in words if f"<!-- {word} -->" not in text], [])
