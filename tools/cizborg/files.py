"""How the tools read and write files."""
from __future__ import annotations

import os
import sys
import tempfile
from contextlib import contextmanager
from pathlib import Path
from typing import Iterator, Optional

from .statuses import Status, Stop


def read_bytes(path: str) -> bytes:
    """The bytes of a file, or the end of the tool."""
    try:
        return Path(path).read_bytes()
    except OSError as error:
        raise Stop(f"{path} can't be read: {error.strerror}", Status.FAULT) from None


def read_text(path: str) -> str:
    """The text of a file, without the mark that some programs set before it, or the end of the tool."""
    try:
        return read_bytes(path).decode("utf-8-sig")
    except UnicodeDecodeError:
        raise Stop(f"{path} is no UTF-8 text", Status.REFUSED) from None


@contextmanager
def written_whole(path: str) -> Iterator[str]:
    """A new file beside this path, with the same ending. It takes the path's place when all is written, and else goes: so what stood
    there before stays until then."""
    place = Path(path)
    try:
        handle, name = tempfile.mkstemp(suffix=place.suffix, prefix=f".{place.name}.", dir=place.parent)
        os.close(handle)
    except OSError as error:
        raise Stop(f"{path} can't be written: {error.strerror}", Status.FAULT) from None
    try:
        yield name
        # a new file of a user has these rights, where mkstemp gives none to others
        mask = os.umask(0)
        os.umask(mask)
        os.chmod(name, place.stat().st_mode & 0o777 if place.exists() else 0o666 & ~mask)
        os.replace(name, path)
    except OSError as error:
        raise Stop(f"{path} can't be written: {error.strerror or error}", Status.FAULT) from None
    finally:
        Path(name).unlink(missing_ok=True)


def write_out(text: str, output: Optional[str]) -> None:
    """Writes a tool's text to the file of this name, or to standard output where there is none."""
    if output is None:
        sys.stdout.write(text)
        return
    with written_whole(output) as name:
        Path(name).write_text(text, encoding="utf-8")
