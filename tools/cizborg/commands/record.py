"""Makes jobs and rows from what a machine recorded."""
from __future__ import annotations

import re
import sys

from .. import files, ftrace, recording
from ..program import Parts, asked, set_of
from ..statuses import Status, Stop
from ..table import SET, Command, Given, Kind, Option, Word

ROWS = """
Makes jobs and rows of events: the files that `conform` and `audit` judge.

EVENTS is a CSV file with the header time,processor,task,what,resource. The form, and the rules by which events become rows, stand in
docs/RECORDING.md. TICK is how long a tick lasts, as 10us: a whole number and ns, us or ms. JOBS and ROWS are written.

A row shows an instant. What goes by while the system switches is charged to the job that comes next, and what a job executes behind the
cause of a switch too, where that is no longer than the latency. How often that was, and how far it went, is told on standard error.
"""
TRACE = """
Makes the events of a recording of the text that Linux' ftrace writes, with the events sched_switch and sched_wakeup on. The threads have
the names of the tasks, and write the rest into trace_marker themselves (docs/RECORDING.md).
"""
UNITS = {"ns": 1, "us": 1000, "ms": 1_000_000}
LATENCY = "100us"


def time_of(text: str) -> int:
    """A time in nanoseconds, or the end of the tool."""
    found = re.fullmatch(r"([1-9][0-9]{0,11})(ns|us|ms)", text)
    if not found:
        raise Stop(f"{text!r} is no time: a whole number and ns, us or ms", Status.WORDS)
    return int(found[1]) * UNITS[found[2]]


def accepted_set(given: Given) -> Parts:
    """The set, which the program has to accept."""
    answer = asked(given.program, "report", "mpcp", given.set)
    if answer.status != Status.DONE:
        raise Stop(answer.line(), answer.status)
    return set_of(given.set)


def run_rows(given: Given) -> int:
    """Writes jobs and rows, and says what the rules had to do."""
    tick, latency = time_of(given.tick), time_of(given.latency)
    parts = accepted_set(given)
    try:
        made = recording.recorded(parts, files.read_text(given.events), tick, latency)
    except recording.Refused as why:
        raise Stop(str(why), Status.REFUSED) from None
    files.write_out(made.jobs, given.jobs)
    files.write_out(made.rows, given.rows)
    for line in (f"{made.ticks} ticks", *made.counts.lines()):
        print(f"block record: {line}", file=sys.stderr)
    return Status.DONE


def processors_of(given: Given, count: int) -> list[int]:
    """The numbers that Linux gives to the processors of the set."""
    numbers = given.processors.split(",") if given.processors else [str(k) for k in range(count)]
    if len(numbers) != count or not all(re.fullmatch("[0-9]{1,4}", number) for number in numbers):
        raise Stop(f"--processors has to name {count} numbers with commas between them", Status.WORDS)
    return [int(number) for number in numbers]


def run_trace(given: Given) -> int:
    """Writes events."""
    parts = accepted_set(given)
    names = [task["name"] for task in parts["tasks"]]
    files.write_out(ftrace.converted(files.read_text(given.trace), names, processors_of(given, parts["processors"])), given.events)
    return Status.DONE


EVENTS = Word("EVENTS", Kind.CSV, "what the machine noted")
TICK = Word("TICK", Kind.TEXT, "how long a tick lasts, as 10us")
WRITTEN = tuple(Word(name, Kind.OUTPUT, f"the file of {said} that is written") for name, said in (("JOBS", "jobs"), ("ROWS", "rows"), ("EVENTS", "events")))
TIME = Option("--latency", f"how long behind the cause of a switch a job may still be seen; without it {LATENCY}", Word("TIME", Kind.TEXT, ""), LATENCY)
NUMBERS = Option("--processors", "the numbers of Linux for the processors of the set; without it 0, 1, ..", Word("NUMBERS", Kind.TEXT, ""))
COMMANDS = (
    Command("record rows", (SET, EVENTS, TICK, *WRITTEN[:2]), "makes jobs and rows from what a machine recorded", ROWS, run_rows, (TIME,)),
    Command("record trace", (SET, Word("TRACE", Kind.FILE, "the text of ftrace"), WRITTEN[2]), "makes events of the text of Linux' ftrace", TRACE, run_trace, (NUMBERS,)),
)
