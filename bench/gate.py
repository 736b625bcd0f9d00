#!/usr/bin/env python3
"""Runs the gate, and prints what each crate takes of it: processor time for its proof, its tests and its edits, and memory.

    python3 bench/gate.py [--tables FILE] [COMMAND ..]
    python3 bench/gate.py [--tables FILE] --watch PID

COMMAND is `rt ci` where none is given. With a kit that keeps what it passed, `rt ci --anew` proves everything. It runs at the top, what it
writes goes on to standard output, and each line that says that a crate is done is preceded by the time since the start. With --watch a run that goes on already is watched to its end, and what
it did before isn't counted. The processor times are those of the prover's processes, looked at twice a second, so each may be half a
second too small; where other work runs beside it they are greater than on an idle machine. The tables, in the form of a page of docs/,
go to standard error: the crates, and the edits that took longest. FILE gets them once a minute too, with every edit, while the run goes
on. It is no test: it bounds nothing.
"""
import argparse
import collections
import os
import re
import subprocess
import sys
import threading
import time
from pathlib import Path

TOP = Path(__file__).resolve().parent.parent
TICK = os.sysconf("SC_CLK_TCK")
PAUSE = 0.5
BETWEEN_TABLES = 60
EDITS_SHOWN = 20
KINDS = ("proof", "tests", "edits")


def read(path):
    try:
        return Path(path).read_bytes()
    except OSError:
        return b""


def processes():
    """Each process that runs: its parent, its processor seconds, and when it began, since numbers come again."""
    found = {}
    for name in os.listdir("/proc"):
        if name.isdigit():
            fields = read(f"/proc/{name}/stat").rpartition(b") ")[2].split()
            if len(fields) > 19:
                found[int(name)] = int(fields[1]), (int(fields[11]) + int(fields[12])) / TICK, fields[19]
    return found


def text_with(edit, file, text):
    """The text of a file with what an edit says of it, as the gate applies it."""
    path = old = ""
    for line in edit.split("\n"):
        key, _, rest = line.partition(":")
        rest = rest.removeprefix(" ")
        if key == "file":
            path = rest.strip()
        elif key == "old":
            old = rest
        elif key == "new" and path == file:
            text = text.replace(old, rest)
    return text


def edit_of(crate, room):
    """The name of the edit that a copy of a crate holds, or "" where it holds none, as the copy that the edits begin with."""
    own = TOP / "crates" / crate
    for file in sorted((own / "src").glob("*.rt")):
        place = f"src/{file.name}"
        text, here = read(file).decode(), read(f"{room}/{place}").decode()
        if here and here != text:
            for edit in sorted((own / "must-fail").glob("*.edit")):
                if text_with(read(edit).decode(), place, text) == here:
                    return edit.stem
    return ""


def work_of(pid):
    """The crate, the kind of work and the edit of a process of the prover, or None."""
    words = read(f"/proc/{pid}/cmdline").decode(errors="replace").split("\0")
    if not words[0].endswith("/rattle") or "--crate-name" not in words:
        return None
    try:
        room = os.readlink(f"/proc/{pid}/cwd")
    except OSError:
        return None
    crate = words[words.index("--crate-name") + 1]
    if os.path.basename(room).startswith("rt-edit-"):
        return crate, "edits", edit_of(crate, room)
    return crate, "tests" if "--test" in words else "proof", ""


def memory_of(pid):
    """The most memory that a process had, in GB."""
    most = re.search(rb"^VmHWM:\s+(\d+) kB", read(f"/proc/{pid}/status"), re.M)
    return int(most[1]) / 1e6 if most else 0.0


class Watch:
    """The prover's processes below another one, from its start to its end."""

    def __init__(self, top, anew):
        self.top = top
        self.works = {}
        self.spent = {}
        self.before = {} if anew else None
        self.memory = collections.Counter()
        self.start = time.monotonic()

    def look(self):
        running = processes()
        if self.before is None:
            self.before = {(pid, began): spent for pid, (_, spent, began) in running.items()}
        for pid, (parent, spent, began) in running.items():
            while parent in running and parent != self.top:
                parent = running[parent][0]
            if parent == self.top:
                self.note((pid, began), spent)

    def note(self, process, spent):
        # a process becomes the prover only after it was started
        work = self.works.get(process) or work_of(process[0])
        if work is not None:
            self.works[process] = work
            self.spent[process] = spent
            self.memory[work[0]] = max(self.memory[work[0]], memory_of(process[0]))

    def by_crate(self):
        table = collections.defaultdict(lambda: dict.fromkeys(KINDS, 0.0))
        for process, (crate, kind, _) in self.works.items():
            table[crate][kind] += self.spent[process] - self.before.get(process, 0.0)
        return table

    def by_edit(self):
        table = collections.Counter()
        for process, (crate, kind, edit) in self.works.items():
            if kind == "edits":
                table[f"{crate}/{edit or '(begin)'}"] += self.spent[process] - self.before.get(process, 0.0)
        return table


def clock(seconds):
    return f"{int(seconds) // 60}:{int(seconds) % 60:02}"


def row(cells):
    return "| " + " | ".join(cells) + " |"


def crate_rows(watch):
    """The table of the crates, dearest first: minutes and seconds of processor time."""
    table = watch.by_crate()
    lines = [row(["Crate", "Proof", "Tests", "Edits", "All", "Memory, GB"]), "|---|--:|--:|--:|--:|--:|"]
    for crate, times in sorted(table.items(), key=lambda entry: -sum(entry[1].values())):
        cells = [clock(times[kind]) if times[kind] else "" for kind in KINDS]
        lines.append(row([f"`{crate}`", *cells, clock(sum(times.values())), f"{watch.memory[crate]:.1f}"]))
    sums = [sum(times[kind] for times in table.values()) for kind in KINDS]
    lines.append(row(["all", *map(clock, sums), clock(sum(sums)), ""]))
    return lines


def edit_rows(watch, most):
    """The table of the edits that took longest."""
    costs = watch.by_edit().most_common(most)
    return [row(["Edit", "Time"]), "|---|--:|", *[row([f"`{edit}`", clock(spent)]) for edit, spent in costs]]


def tables(watch, most_edits):
    took = f"{clock(time.monotonic() - watch.start)} minutes on {os.cpu_count()} processors; processor time in minutes and seconds:"
    return "\n".join([took, "", *crate_rows(watch), "", *edit_rows(watch, most_edits), ""])


def watched(watch, goes_on, file):
    """Looks at a run while it goes on, and writes the tables so far into the file now and then."""
    written = watch.start
    while goes_on():
        watch.look()
        if file and time.monotonic() - written > BETWEEN_TABLES:
            Path(file).write_text(tables(watch, None), encoding="utf-8")
            written = time.monotonic()
        time.sleep(PAUSE)
    if file:
        Path(file).write_text(tables(watch, None), encoding="utf-8")
    print("\n" + tables(watch, EDITS_SHOWN), file=sys.stderr)


def pass_on(lines, start):
    """Writes what the run says, with the time before each line that says that something is done."""
    for line in lines:
        stamp = f"[{clock(time.monotonic() - start)}] " if line.startswith("rt: ") else ""
        print(f"{stamp}{line}", end="", flush=True)


def main():
    words = argparse.ArgumentParser()
    words.add_argument("--tables", metavar="FILE")
    words.add_argument("--watch", metavar="PID", type=int)
    words.add_argument("command", nargs=argparse.REMAINDER)
    words = words.parse_args()
    if words.watch:
        watch = Watch(words.watch, anew=False)
        watched(watch, lambda: os.path.exists(f"/proc/{watch.top}/stat"), words.tables)
        return 0
    command, place = (words.command, None) if words.command else (["rt", "ci"], TOP)
    run = subprocess.Popen(command, cwd=place, stdout=subprocess.PIPE, stderr=subprocess.STDOUT, text=True, errors="replace")
    reader = threading.Thread(target=pass_on, args=(run.stdout, time.monotonic()))
    reader.start()
    watched(Watch(run.pid, anew=True), lambda: run.poll() is None, words.tables)
    reader.join()
    return run.returncode


sys.exit(main())
