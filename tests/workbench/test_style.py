"""The types of the tools and of their tests, and what pyflakes finds, where these programs are."""
from __future__ import annotations

import shutil
import subprocess
import unittest

from tests.workbench import TOP


class Style(unittest.TestCase):
    """What checks the sources."""

    @unittest.skipIf(shutil.which("mypy") is None, "mypy is missing: apt-get install mypy")
    def test_types(self) -> None:
        ran = subprocess.run(["mypy", "--config-file", "tools/mypy.ini", "-p", "cizborg", "-p", "tests.workbench"], cwd=TOP, capture_output=True, text=True)
        self.assertEqual(ran.returncode, 0, ran.stdout + ran.stderr)

    @unittest.skipIf(shutil.which("pyflakes3") is None, "pyflakes3 is missing: apt-get install pyflakes3")
    def test_names(self) -> None:
        ran = subprocess.run(["pyflakes3", "tools", "tests/workbench", *map(str, sorted(TOP.glob("tests/*.py")))], cwd=TOP, capture_output=True, text=True)
        self.assertEqual(ran.stdout + ran.stderr, "")

    @unittest.skipIf(shutil.which("ruff") is None, "ruff is missing")
    def test_ruff(self) -> None:
        ran = subprocess.run(["ruff", "check", "--no-cache", "--line-length", "200", "tools/cizborg", "tests/workbench"], cwd=TOP, capture_output=True, text=True)
        self.assertEqual(ran.returncode, 0, ran.stdout + ran.stderr)
