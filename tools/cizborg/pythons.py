"""Another Python where this one lacks a package: Debian's packages serve the system's Python, and another may stand first on the path."""
from __future__ import annotations

import importlib.util
import os
import shutil
import subprocess
import sys
from pathlib import Path
from typing import NoReturn

from .statuses import Status, Stop

PACKAGES = {"matplotlib": "python3-matplotlib"}
# set where the tool has gone on in another Python already
MOVED = "CIZBORG_PYTHON"


def others() -> list[str]:
    """The other Pythons of this machine, the system's first."""
    found = ["/usr/bin/python3", *(path for folder in os.environ.get("PATH", "").split(os.pathsep) if (path := shutil.which("python3", path=folder)))]
    here = Path(sys.executable).resolve()
    return [path for path in dict.fromkeys(found) if Path(path).is_file() and Path(path).resolve() != here]


def has(python: str, module: str) -> bool:
    """Whether a Python has a module, and is of a version that runs the tools."""
    said = f"import sys, {module}; sys.exit(sys.version_info < (3, 9))"
    return subprocess.run([python, "-c", said], stdin=subprocess.DEVNULL, capture_output=True).returncode == 0


def go_on_in(python: str) -> NoReturn:
    """Begins the same call anew in another Python, in the place of this process."""
    sys.stdout.flush()
    os.execve(python, [python, str(Path(__file__).resolve().parent), *sys.argv[1:]], {**os.environ, MOVED: python})


def need(module: str) -> None:
    """Goes on where a Python has the module: here, or in another one. Called before any work, since the call begins anew."""
    if importlib.util.find_spec(module) is not None:
        return
    for python in [] if MOVED in os.environ else others():
        if has(python, module):
            go_on_in(python)
    raise Stop(f"no Python here has {module}: apt-get install {PACKAGES.get(module, module)}", Status.LACKING)
