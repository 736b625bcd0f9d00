#!/usr/bin/env python3
"""Runs `conform` on large files of jobs and of rows, and prints the most memory that each run holds.

    python3 bench/csv_memory.py [--program PROGRAM] [--size MIB] [KIND ..]

Each KIND is a file of MIB mebibytes (64 where none is given, the longest input that is read), but those whose names end in `-most`: each
has as many jobs as a list takes. In `jobs-most` they have as many segments as a list takes, in `jobs-short-most` each has one, in a line
of 9 bytes. A file is made in a folder that is removed again; without KIND all are tried.

A line of the table has the kind, the size of its file, the most memory that was resident, how often the file would fit into it, the
seconds, and what was answered. The first line is of a small run: what the program takes without a large file. PROGRAM is what `rt ci` or
`./block` built, where none is given.

It needs Python's standard library on Linux. It is no test: no gate runs it, and it bounds nothing.
"""
import argparse
import fcntl
import json
import os
import string
import subprocess
import sys
import tempfile
import time
from pathlib import Path

from commands import BUILT, built
from sets import resource, set_of, task

MIB = 1 << 20


def of_one_task(period, cost, count):
    """A set of one task, whose jobs make so many requests of one tick."""
    return set_of(1, [resource("a")], task("t", 1, period, cost, ("a", 1, count)))


SET = of_one_task(10, 5, 2)
LONG = of_one_task(10**9, 10**9, 1000)
OFTEN = of_one_task(10**4, 10**3, 10)
LETTERS = string.ascii_letters + string.digits
SHORT = set_of(1, [resource("a")], *(task(name, 1, 1, 1) for name in LETTERS))
WAITS, PAUSE = 20, 0.002
JOBS = b"task,release,script\n"
ROWS = b"ticks,P1,a\n"


def filled(start, piece, size):
    """The start, and then as many pieces as fit."""
    return start + piece * ((size - len(start)) // len(piece))


def numbered(start, line, size):
    """The start, and then lines that have their numbers, as many as fit."""
    parts, length, number = [start], len(start), 0
    while length < size:
        part = b"".join(line(n) for n in range(number, number + 10000))
        parts.append(part)
        length += len(part)
        number += 10000
    text = b"".join(parts)[:size]
    return text[: text.rindex(b"\n") + 1]


def most(script):
    """As many jobs of one script as a list takes."""
    return JOBS + b"".join(b"t,%d,%s\n" % (n * 10**4, script) for n in range(10**5))


def shortest():
    """As many jobs as a list takes, in lines as short as such lines are."""
    lines = (f"{LETTERS[n % len(LETTERS)]},{n // len(LETTERS)},1\n" for n in range(10**5))
    return JOBS + "".join(lines).encode()


def kinds(size):
    """Each kind: the file that is large, how it is made, and the set."""
    quoted = size - 64
    return {
        "jobs-good": ("jobs", lambda: numbered(JOBS, lambda n: b"t,%d,1 a:1\n" % (10 * n), size), SET),
        "jobs-bad-first": ("jobs", lambda: numbered(JOBS + b"t,x,1\n", lambda n: b"t,%d,1 a:1\n" % (10 * n), size), SET),
        "jobs-no-header": ("jobs", lambda: numbered(b"", lambda n: b"t,%d,1 a:1\n" % (10 * n), size), SET),
        "jobs-commas": ("jobs", lambda: filled(b"", b",", size), SET),
        "jobs-commas-in-line": ("jobs", lambda: filled(JOBS, b",", size), SET),
        "jobs-comma-lines": ("jobs", lambda: filled(JOBS, b",\n", size), SET),
        "jobs-blank": ("jobs", lambda: filled(JOBS, b"\n", size), SET),
        "jobs-quoted-header": ("jobs", lambda: b'"' + b"x" * quoted + b'"\n', SET),
        "jobs-quoted-name": ("jobs", lambda: JOBS + b'"' + b"x" * quoted + b'",0,1\n', SET),
        "jobs-quoted-script": ("jobs", lambda: JOBS + b't,0,"' + b"x" * quoted + b'"\n', SET),
        "jobs-open-quote": ("jobs", lambda: filled(JOBS + b't,0,"', b'""', size), SET),
        "jobs-long-number": ("jobs", lambda: JOBS + b"t," + b"1" * quoted + b",1\n", SET),
        "jobs-long-script": ("jobs", lambda: filled(JOBS + b"t,0,1 a:1", b" 1 a:1", size), LONG),
        "jobs-most": ("jobs", lambda: most(b"1 a:1" + b" 1 a:1" * 9), OFTEN),
        "jobs-short-most": ("jobs", shortest, SHORT),
        "rows-one-tick": ("rows", lambda: filled(ROWS, b"1,1,\n1,,\n", size), SET),
        "rows-bad-first": ("rows", lambda: filled(ROWS + b"0,,\n", b"1,1,\n1,,\n", size), SET),
        "rows-commas": ("rows", lambda: filled(b"", b",", size), SET),
        "rows-commas-in-line": ("rows", lambda: filled(ROWS + b"1", b",", size), SET),
        "rows-quoted-cell": ("rows", lambda: ROWS + b'1,"' + b"1" * quoted + b'",\n', SET),
    }


def resident(pid):
    """The most memory that the program held so far, in bytes, and whether it waits; none where it has ended."""
    try:
        lines = Path(f"/proc/{pid}/status").read_text().splitlines()
    except OSError:
        return None
    told = dict(line.split(":", 1) for line in lines)
    return (int(told["VmHWM"].split()[0]) * 1024, told["State"].split()[0] == "S") if "VmHWM" in told else None


def held_at_its_end(pid):
    """The most memory that a program held whose output nobody takes yet: it ends, or it waits, which it does in its last write alone."""
    held, waited = 0, 0
    while waited < WAITS and (now := resident(pid)):
        held, waited = now[0], waited + 1 if now[1] else 0
        time.sleep(PAUSE)
    return held


def run(program, words):
    """The first line that a run writes, the most memory that it held, in bytes, and its seconds. The system counts the memory of whoever
    starts a program as the program's, so its own is read while it waits to write into a pipe that is full."""
    began = time.monotonic()
    taken, given = os.pipe()
    room = os.write(given, bytes(fcntl.fcntl(given, fcntl.F_GETPIPE_SZ)))
    ran = subprocess.Popen([program, *words], stdin=subprocess.DEVNULL, stdout=given)
    os.close(given)
    held = held_at_its_end(ran.pid)
    took = time.monotonic() - began - WAITS * PAUSE
    with open(taken, "rb") as out:
        text = out.read()[room:]
    status = ran.wait()
    return text.split(b"\n", 1)[0].decode() or f"status {status}", held, took


def shown(kind, size, held, seconds, answer):
    times = f"{held / size:5.2f}" if size >= MIB else "    -"
    print(f"{kind:20} {size / MIB:7.1f} MiB {held / MIB:8.1f} MiB {times} {seconds:7.2f} s  {answer}", flush=True)


def write_files(folder, kind, size):
    """Writes the files of a kind, in a process of their own: a program that is started has at least the memory that its starter holds."""
    made = os.fork()
    if made == 0:
        status = 1
        try:
            which, text, parts = kinds(size)[kind] if kind in kinds(size) else (None, None, SET)
            files = {"set": json.dumps(parts).encode(), "jobs": JOBS + b"t,0,1 a:1\n", "rows": ROWS + b"1,1,\n1,1,1\n"}
            if which:
                files[which] = text()
            for name, content in files.items():
                (folder / name).write_bytes(content)
            status = 0
        finally:
            os._exit(status)
    if os.waitpid(made, 0)[1] != 0:
        sys.exit(f"the files of {kind} could not be written")


def try_kind(program, folder, kind, size):
    """Makes the file of a kind, runs the program on it, and prints the line."""
    write_files(folder, kind, size)
    paths = [folder / name for name in ("set", "jobs", "rows")]
    answer, held, seconds = run(program, ["conform", "fmlp+", *map(str, paths)])
    shown(kind, max(path.stat().st_size for path in paths), held, seconds, answer)


def main():
    given = argparse.ArgumentParser()
    given.add_argument("--program", default=str(BUILT))
    given.add_argument("--size", type=int, default=64)
    given.add_argument("kinds", nargs="*")
    given = given.parse_args()
    program = built(given.program)
    size = given.size * MIB
    every = list(kinds(size))
    unknown = [kind for kind in given.kinds if kind not in every]
    if unknown:
        sys.exit(f"no such kind: {' '.join(unknown)}; there are {' '.join(every)}")
    with tempfile.TemporaryDirectory(prefix="csv-memory-") as name:
        for kind in ["small", *(given.kinds or every)]:
            try_kind(program, Path(name), kind, size)


main()
