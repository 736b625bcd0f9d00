"""./block takes - for standard input, by a copy. The program itself refuses it, as any file that isn't there."""
from __future__ import annotations

import shutil
import subprocess
from typing import Optional

from tests.workbench import TOP
from tests.workbench.setting import EXAMPLES, PROGRAM, ToolCase

# it says what its words are, and what the files hold that they name
PRINTS = """#!/bin/sh
[ $# -gt 0 ] || exit 2
for word in "$@"; do
    if [ -f "$word" ]; then cat "$word"; else echo "$word"; fi
done
"""


class Input(ToolCase):
    """Standard input in the place of a file."""

    def setUp(self) -> None:
        super().setUp()
        out = self.folder / "crates" / "block_cli" / "out"
        out.mkdir(parents=True)
        for name in ("block", "VERSION"):
            shutil.copy(TOP / name, self.folder)
        for name in ("tools", "docs"):
            (self.folder / name).symlink_to(TOP / name)
        (self.folder / "crates.txt").touch()
        shutil.copy(self.file("prints", PRINTS), out / "block_cli")
        for mark in ("stdout", "block.built"):
            (out / mark).touch()

    def block_script(self, *words: str, given: Optional[str] = None) -> subprocess.CompletedProcess[str]:
        """A run of the copy."""
        return subprocess.run([self.folder / "block", *words], cwd=self.folder, capture_output=True, text=True, input=given)

    def test_the_program_gets_a_copy(self) -> None:
        self.assert_ends(self.block_script("report", "fmlp+", "-", given="the set\n"), 0, "report\nfmlp+\nthe set\n")
        self.assert_ends(self.block_script("check", "mpcp", "-", "-", given="twice\n"), 0, "check\nmpcp\ntwice\ntwice\n")
        self.assert_ends(self.block_script("report", "fmlp+", "a - b", given="the set\n"), 0, "report\nfmlp+\na - b\n")

    def test_a_tool_gets_a_copy(self) -> None:
        tables = "task,processor,period,cost\na,1,10,2\n"
        self.assertIn('"name": "a"', self.assert_done(self.block_script("set", "tables", "--unjudged", "-", given=tables)))

    def test_the_program_refuses_it(self) -> None:
        self.assertEqual((PROGRAM.exists(), self.block("report", "fmlp+", "-").stdout), (True, "refused set absent\n"))
        self.assertTrue(EXAMPLES.is_dir())
