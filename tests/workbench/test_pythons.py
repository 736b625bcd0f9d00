"""A tool goes on in another Python where the first one lacks a package."""
from __future__ import annotations

import os
import subprocess
import sys

from tests.workbench import TOP
from tests.workbench.setting import TOOLS, ToolCase

# a tool that needs a module which no Python here has, but for the one in the folder
NEEDING = "import sys; sys.path[:0] = [sys.argv.pop()]; from cizborg import pythons, entry; entry.end_with('block draw', lambda: pythons.need('no_such_module'))"
# it has each module, and says with what it was begun
OTHER = """#!/bin/sh
[ "$1" = -c ] || echo "$@" "in $CIZBORG_PYTHON"
"""


class Pythons(ToolCase):
    """Which Python goes on."""

    def needing(self, folders: str) -> subprocess.CompletedProcess[str]:
        """What a tool does that is called with the words x and y, over these folders of programs."""
        environment = {**os.environ, "PATH": folders}
        environment.pop("CIZBORG_PYTHON", None)
        return subprocess.run([sys.executable, "-c", NEEDING, "x", "y", TOP / "tools"], capture_output=True, text=True, env=environment)

    def test_it_goes_on_in_the_one_that_has_the_module(self) -> None:
        other = self.file("python3", OTHER)
        self.assert_ends(self.needing(f"{self.folder / 'none'}:{self.folder}"), 0, f"{TOOLS} x y in {other}\n", "")

    def test_there_is_none(self) -> None:
        self.assert_ends(self.needing("/none"), 70, "", "block draw: no Python here has no_such_module: apt-get install no_such_module\n")
