"""For record: events of a recording (docs/RECORDING.md) from the text that Linux' ftrace writes.

Of its lines three kinds count. `sched_switch` says which thread a processor stops and which it starts. `tracing_mark_write` has what the
threads wrote into trace_marker themselves: `cizborg WHAT`, `cizborg WHAT RESOURCE`, and behind it the name of a task where it is about
another one than the thread's own. `sched_wakeup` says when a thread was woken: a release counts from there, since the thread can only
note it once it runs. A thread has the name of its task.
"""
from __future__ import annotations

import re
from dataclasses import dataclass
from typing import Iterable

LINE = re.compile(r"^\s*(?P<thread>.+)-\d+\s+(?:\([^)]*\)\s+)?\[(?P<processor>\d+)\]\s+(?:\S+\s+)?(?P<seconds>\d+)\.(?P<rest>\d{6,9}):\s+(?P<kind>\w+):\s+(?P<said>.*)$")
SWITCH = re.compile(r"^prev_comm=(?P<before>.+) prev_pid=\d+ prev_prio=\d+ prev_state=\S+ ==> next_comm=(?P<next>.+) next_pid=\d+ next_prio=\d+$")
WAKEUP = re.compile(r"^comm=(?P<thread>.+) pid=\d+ ")
MARK = "cizborg "


@dataclass(frozen=True)
class Line:
    """A line of ftrace: when, on which processor, by which thread, of which kind, and what it says."""

    time: int
    processor: int
    thread: str
    kind: str
    said: str


def lines_of(text: str) -> Iterable[Line]:
    """The lines that have the form of an event; comments and others are passed over."""
    for found in filter(None, map(LINE.match, text.splitlines())):
        time = int(found["seconds"]) * 10**9 + int(found["rest"].ljust(9, "0"))
        yield Line(time, int(found["processor"]), found["thread"].strip(), found["kind"], found["said"].strip())


class Converter:
    """Makes events of lines, one after the other."""

    def __init__(self, tasks: list[str], processors: list[int]) -> None:
        self.tasks = tasks
        self.processors = processors
        self.woken: dict[str, int] = {}
        self.events: list[tuple[int, int, str, str, str]] = []

    def add(self, line: Line, task: str, what: str, resource: str = "") -> None:
        """An event of a task; others than those of the set are passed over."""
        if task in self.tasks:
            time = self.woken.get(task, line.time) if what == "release" else line.time
            self.events.append((time, self.processors.index(line.processor) + 1, task, what, resource))

    def take(self, line: Line) -> None:
        """The events of a line."""
        switch = SWITCH.match(line.said) if line.kind == "sched_switch" else None
        woken = WAKEUP.match(line.said) if line.kind == "sched_wakeup" else None
        if switch:
            self.woken.pop(switch["before"], None)
            self.add(line, switch["before"], "stop")
            self.woken.setdefault(switch["next"], line.time)
            self.add(line, switch["next"], "start")
        elif woken:
            self.woken[woken["thread"]] = line.time
        elif line.kind == "tracing_mark_write" and line.said.startswith(MARK):
            what, *rest = line.said.removeprefix(MARK).split()
            task = rest.pop() if rest and rest[-1] in self.tasks else line.thread
            self.add(line, task, what, *rest[:1])


def converted(text: str, tasks: list[str], processors: list[int]) -> str:
    """The file of events: of the processors with these numbers of Linux, in this order, from the first release on."""
    converter = Converter(tasks, processors)
    for line in lines_of(text):
        if line.processor in processors:
            converter.take(line)
    begin = min((event[0] for event in converter.events if event[3] == "release"), default=0)
    found = sorted((event for event in converter.events if event[0] >= begin), key=lambda event: event[0])
    rows = [f"{time - begin},{processor},{task},{what},{resource}\n" for time, processor, task, what, resource in found]
    return "".join(["time,processor,task,what,resource\n", *rows])
