"""What the benchmarks share. Its import tells them where the package of the tools is, and the sets of the tests."""
import subprocess
import sys
from pathlib import Path

TOP = Path(__file__).resolve().parent.parent
BUILT = TOP / "crates" / "block_cli" / "out" / "block_cli"
sys.path[:0] = [str(TOP / "tools"), str(TOP / "tests" / "cli")]


def run(command, where):
    """What the command writes, or the end of the script with what it said."""
    done = subprocess.run(command, cwd=where, capture_output=True, text=True)
    if done.returncode != 0:
        sys.exit(f"{' '.join(map(str, command))} failed:\n{done.stdout[-3000:]}\n{done.stderr[-3000:]}")
    return done.stdout


def built(program):
    """The whole path of the executable, or the end of the script where there is none."""
    program = Path(program).resolve()
    if not program.is_file():
        sys.exit(f"{program} is missing: ./block builds it, and so does rt ci")
    return str(program)
