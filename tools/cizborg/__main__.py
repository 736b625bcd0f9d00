"""Runs a tool: python3 tools/cizborg WORD .., as ./block does for the words that have a module in commands."""
import sys
from pathlib import Path

# the folder that has the package, in the place of the package itself, whose modules would else stand beside those of the library
sys.path[0] = str(Path(__file__).resolve().parent.parent)

from cizborg.entry import main  # noqa: E402

main()
