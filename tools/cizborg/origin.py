"""When a page was written, and by which version of the tools."""
from __future__ import annotations

import datetime
import os
import subprocess

from .program import TOP


def day() -> str:
    """Today, or the day of SOURCE_DATE_EPOCH, by which a page can be written twice with the same bytes."""
    epoch = os.environ.get("SOURCE_DATE_EPOCH", "")
    now = datetime.datetime.fromtimestamp(int(epoch), datetime.timezone.utc) if epoch.isdigit() else datetime.datetime.now(datetime.timezone.utc)
    return now.strftime("%Y-%m-%d")


def git(*words: str) -> str:
    """What git says of the repository, or nothing."""
    try:
        ran = subprocess.run(["git", "-C", str(TOP), *words], capture_output=True, text=True)
    except OSError:
        return ""
    return ran.stdout.strip() if ran.returncode == 0 else ""


def version() -> str:
    """The version, and the commit: of the record of a release where these tools are installed, and else of the repository."""
    record = TOP / "RECORD"
    if record.is_file():
        lines = dict(line.partition(" ")[::2] for line in record.read_text(encoding="utf-8").splitlines())
        return f"{lines.get('cizborg', 'of no known version')}, commit {lines.get('commit', 'unknown')}"
    file = TOP / "VERSION"
    number = file.read_text(encoding="utf-8").strip() if file.is_file() else "of no known version"
    changed = ", with changes" if git("status", "--porcelain") else ""
    return f"{number}, commit {git('rev-parse', 'HEAD') or 'unknown'}{changed}"
