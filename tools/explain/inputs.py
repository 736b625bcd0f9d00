"""What an input that is refused, or that can't be read, has in it: it is read again."""
import os
import pwd
import re
import stat
from pathlib import Path
from typing import Any, Iterator

import json_text
import shapes
import words as word_forms

MOST_BYTES = 67_108_864
# A text that is longer isn't walked: that would take minutes.
MOST_WALKED = 8 * 2**20
MOST_LINES = 4
LIMITS = {"processors": 64, "tasks": 64, "resources": 32, "requests": 256}


def named(which: str, path: str) -> str:
    return f"{which.upper()} {path}"


def why_unread(path: str) -> str | None:
    """Why a file can't be read, or None where it can."""
    try:
        mode = os.stat(path).st_mode
        if stat.S_ISDIR(mode):
            return "it is a folder"
        with open(path, "rb") as file:
            file.read(1)
    except PermissionError:
        return f"you may not read it{rights_of(path)}"
    except OSError as error:
        return f"{(error.strerror or str(error)).lower()}"
    return None


def rights_of(path: str) -> str:
    """Who may read a file, where that can be told."""
    try:
        found = os.stat(path)
    except OSError:
        return ", since you may not enter a folder on its way"
    try:
        owner = pwd.getpwuid(found.st_uid).pw_name
    except KeyError:
        owner = str(found.st_uid)
    return f": its rights are {stat.filemode(found.st_mode)}, and it belongs to {owner}"


def is_read_again(path: str) -> bool:
    """Does the path lead to a plain file, which has the same bytes each time?"""
    return os.path.isfile(path)


def counts_of(value: Any) -> dict[str, str]:
    """How many there are of what a set has limits for. The value has the form of a set."""
    requests = sum(len(task.get("requests", ())) for task in value["tasks"])
    return {
        "processors": value["processors"],
        "tasks": str(len(value["tasks"])),
        "resources": str(len(value.get("resources", ()))),
        "requests": str(requests),
    }


def over_limit(value: Any, what: str) -> str:
    """Which limit a set passes, and how many there are."""
    least = "from 1" if what == "processors" else "at most"
    most = f"to {LIMITS[what]}" if what == "processors" else str(LIMITS[what])
    entries = "request entries over all tasks" if what == "requests" else what
    return f"the set has {counts_of(value)[what]} {entries}, and may have {least} {most}"


def like_file(path: str) -> str:
    """The path of a file whose name is like that of a file that isn't there, or "" where none is."""
    folder, name = os.path.split(path)
    try:
        found = shapes.near(name, sorted(os.listdir(folder or ".")))
    except OSError:
        return ""
    return os.path.join(folder, found) if found else ""


def fixes_of(guide: str) -> dict[str, tuple[str, str]]:
    """What is wrong, and the fix, by the guide's tables of refusals: by the reason, and of an input other than a set by its name too."""
    text = guide.partition("\n## Refusals\n")[2].partition("\n## ")[0]
    rows = re.findall(r"^\| (`[^|]*) \| ([^|]*) \| ([^|]*) \|$", text, re.M)
    found: dict[str, tuple[str, str]] = {}
    for reasons, wrong, fix in rows:
        which = ""
        for reason in re.findall(r"`([^`]*)`", reasons):
            name = re.match(r"refused (cert|jobs|rows) (\w+)", reason)
            which = name[1] if name else which
            found[f"{which or 'set'} {name[2] if name else reason.split()[0]}"] = (wrong, fix)
    return found


def by_guide(which: str, reason: list[str], guide: str) -> Iterator[str]:
    """What the guide says of a reason, as the rest of a line."""
    wrong, fix = fixes_of(guide).get(f"{which} {reason[0]}", ("", ""))
    if wrong:
        place = " ".join(reason[1:])
        line = "the header" if place == "0" else f"line {place}"
        yield f", {line if place.isdigit() else place}: {wrong}. The fix: {fix}".replace("`", "").replace(", : ", ": ")


def json_lines(which: str, reason: list[str], data: bytes, command: str, documents: Path) -> Iterator[str]:
    """What is wrong with an input in JSON, for the reasons that ask for a look into it."""
    if reason[0] == "notjson":
        fault = json_text.first_fault(data) if len(data) <= MOST_WALKED else None
        yield from [str(fault)] if fault else []
        return
    value = shapes.value_of(data.decode("utf-8"))
    if reason[0] == "size":
        yield over_limit(value, reason[1])
    elif which == "set":
        yield from shapes.in_set(value, reason[1:], documents / "schema")
    elif command == "confirm":
        yield from shapes.in_refusal(value, documents / "schema")
    else:
        yield from shapes.in_certificate(value, reason[1:], documents / "schema", command)


def refusal_lines(given: list[str], which: str, reason: list[str], documents: Path) -> Iterator[str]:
    """What is wrong with the input that an answer refuses, each line with its path."""
    place = word_forms.place_of(given, which)
    path = given[place] if place is not None else ""
    if reason[0] == "toolong" and len(reason) == 1 and is_read_again(path):
        yield f"{named(which, path)}: it has {os.path.getsize(path):,} bytes, and may have at most {MOST_BYTES:,}"
    elif reason[0] in ("notjson", "shape", "size") and is_read_again(path):
        lines = json_lines(which, reason, Path(path).read_bytes(), given[0], documents)
        yield from (f"{named(which, path)}, {line}" for line, _ in zip(lines, range(MOST_LINES)))
    elif reason[0] == "absent":
        like = like_file(path)
        yield f"{named(which, path)}: there is no such file" + (f"; near to it is {like}" if like else "")
    else:
        yield from (f"{named(which, path)}{line}" for line in by_guide(which, reason, word_forms.guide_in(documents)))


def unread_lines(given: list[str]) -> Iterator[str]:
    """Which input of the words is the first that can't be read, and why."""
    for which in ("set", "cert", "jobs", "rows"):
        place = word_forms.place_of(given, which)
        path = given[place] if place is not None else None
        why = why_unread(path) if path is not None else None
        if path is not None and why:
            yield f"{named(which, path)} can't be read: {why}"
            return
