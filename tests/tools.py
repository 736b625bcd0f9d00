#!/usr/bin/env python3
"""Runs the tests of the tools, and of ./block itself.

    python3 tests/tools.py [PROGRAM]

The tools of tools/cizborg are tried by tests/workbench over PROGRAM, which is what `rt ci` or `./block` built where none is given. What
needs a package that no Python here has is left out with a word. The help of ./block, its bound of memory, and the reading list of the
headline are tried by habits.py, what it runs, builds and tries by block_script.py, what it says of wrong words and inputs by
explanations.py, a release by releases.py, and what is said of each crate by crate_lists.py.
"""
import os
import sys
import tempfile
import unittest
from pathlib import Path

TOP = Path(__file__).resolve().parent.parent
BUILT = TOP / "crates" / "block_cli" / "out" / "block_cli"


def script_problems(program):
    """What is wrong with ./block, and with a release."""
    import block_script
    import crate_lists
    import explanations
    import habits
    import releases

    found = []
    for tried in (habits, block_script, explanations, releases, crate_lists):
        with tempfile.TemporaryDirectory(prefix="block-") as folder:
            found += tried.problems(folder, program)
    wrong = [problem for problem in found if problem is not None]
    print(*wrong, f"./block and the release: {len(found) - len(wrong)} passed, {len(wrong)} failed", sep="\n", flush=True)
    return len(wrong)


def main():
    program = Path(sys.argv[1]).resolve() if sys.argv[1:] else BUILT
    os.environ["BLOCK_PROGRAM"] = str(program)
    sys.path.insert(0, str(TOP))
    wrong = script_problems(program)
    suite = unittest.defaultTestLoader.discover(str(TOP / "tests" / "workbench"), top_level_dir=str(TOP))
    ran = unittest.TextTestRunner(verbosity=1).run(suite)
    for case, why in ran.skipped:
        print(f"left out: {case}: {why}")
    sys.exit(1 if wrong or not ran.wasSuccessful() else 0)


if __name__ == "__main__":
    main()
