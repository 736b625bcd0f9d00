"""For record: jobs and rows of what a machine noted, events in, the files of `conform` and `audit` out.

The form of events and the rules by which they become rows stand in docs/RECORDING.md. In short: a row shows the state at one instant,
a tick after the one before. What goes by between the cause of a switch and the first instant at which the next job was seen is charged
to that job.
"""
from __future__ import annotations

import csv
import io
from collections import defaultdict
from dataclasses import dataclass, field
from typing import Iterable, Optional

from .program import Parts

HEADER = ["time", "processor", "task", "what", "resource"]
WITHOUT_RESOURCE = ("arrive", "release", "start", "stop", "finish")
WITH_RESOURCE = ("issue", "grant", "end")
# behind every time, and before every one
NEVER, BEFORE = 10**30, -1


class Refused(Exception):
    """Why events are no recording, or why one can't be written in ticks."""


@dataclass(frozen=True)
class Event:
    time: int
    processor: int
    task: int
    what: str
    resource: Optional[int]


@dataclass
class Stretch:
    """A job executes on a processor from one time to another."""

    job: Job
    processor: int
    start: int
    end: int


@dataclass
class Section:
    """A part of a job: local, or a request from its issue to its end, which is granted on the way."""

    resource: Optional[int]
    begin: int
    grant: int = NEVER
    end: int = NEVER


@dataclass
class Job:
    task: int
    arrival: int
    release: int
    ready: int
    sections: list[Section] = field(default_factory=list)
    stretches: list[Stretch] = field(default_factory=list)
    finish: int = NEVER

    def ready_at(self, time: int) -> int:
        """When the job last became ready, up to this time."""
        return max([self.ready, *(one.grant for one in self.sections if one.resource is not None and one.begin < one.grant <= time)])

    def yielded_at(self, time: int) -> int:
        """When the job last gave way of itself, up to this time: it ended, began to wait, or ended a request."""
        waits = [one.begin for one in self.sections if one.resource is not None and one.grant > one.begin]
        ends = [one.end for one in self.sections if one.resource is not None]
        return max([BEFORE, *(at for at in [self.finish, *waits, *ends] if at <= time)])

    def waiting(self) -> list[tuple[int, int]]:
        """When the job isn't ready after its release."""
        return [(one.begin, one.grant) for one in self.sections if one.resource is not None and one.grant > one.begin] + [(self.finish, NEVER)]


@dataclass
class Counts:
    """How much the rules of switches had to do."""

    switches: int = 0
    most_charged: int = 0
    stops: int = 0
    most_stopped: int = 0
    cut: int = 0
    most_cut: int = 0
    late: int = 0
    most_late: int = 0
    behind: int = 0

    def lines(self) -> list[str]:
        return [
            f"{self.switches} switches, of which the longest took {self.most_charged} ns",
            f"{self.stops} stops of a job to which no other came, of which the longest took {self.most_stopped} ns",
            f"{self.cut} times a job was seen on its processor behind the cause of a switch, for {self.most_cut} ns at most",
            f"{self.late} times for longer than the latency, for {self.most_late} ns at most",
            f"{self.behind} sections went on behind their last row, where the rows may break a rule that the machine kept: a shorter tick has fewer",
        ]


def read_events(text: str, tasks: list[str], resources: list[str], processors: int) -> list[Event]:
    """The events in the order of their times, and those of one time as they stand."""
    rows = list(csv.reader(io.StringIO(text)))
    if not rows or rows[0] != HEADER:
        raise Refused(f"the first line isn't {','.join(HEADER)}")
    return sorted((event_of(number, row, tasks, resources, processors) for number, row in enumerate(rows[1:], 1)), key=lambda one: one.time)


def event_of(number: int, row: list[str], tasks: list[str], resources: list[str], processors: int) -> Event:
    if len(row) != len(HEADER):
        raise Refused(f"line {number} has {len(row)} fields in place of {len(HEADER)}")
    time, processor, task, what, resource = row
    if not (time.isdecimal() and processor.isdecimal() and 1 <= int(processor) <= processors):
        raise Refused(f"line {number} has no time, or a processor that the set hasn't")
    if task not in tasks:
        raise Refused(f"line {number} names no task of the set: {task}")
    if what not in WITHOUT_RESOURCE + WITH_RESOURCE:
        raise Refused(f"line {number} says {what!r}, which is none of {', '.join(WITHOUT_RESOURCE + WITH_RESOURCE)}")
    if (resource in resources) != (what in WITH_RESOURCE) or (resource and what in WITHOUT_RESOURCE):
        raise Refused(f"line {number} has another resource than {what!r} asks for: {resource!r}")
    return Event(int(time), int(processor), tasks.index(task), what, resources.index(resource) if resource else None)


class Task:
    """The jobs of a task, made of its events one after the other."""

    def __init__(self, name: str) -> None:
        self.name = name
        self.jobs: list[Job] = []
        self.arrival: Optional[int] = None
        self.released: list[tuple[int, int]] = []
        self.open: Optional[tuple[int, int]] = None

    def wrong(self, event: Event) -> Refused:
        return Refused(f"{self.name} has {event.what!r} at {event.time} where it can't come")

    def current(self, event: Event) -> Job:
        """The job that is there, which begins here where it is due."""
        if self.jobs and self.jobs[-1].finish == NEVER:
            return self.jobs[-1]
        if not self.released:
            raise self.wrong(event)
        arrival, release = self.released.pop(0)
        ready = max([release, *(one.finish for one in self.jobs[-1:])])
        self.jobs.append(Job(event.task, arrival, release, ready, [Section(None, release)]))
        return self.jobs[-1]

    def take(self, event: Event) -> None:
        if event.what == "arrive":
            self.arrival = event.time
        elif event.what == "release":
            self.released.append((event.time if self.arrival is None else self.arrival, event.time))
            self.arrival = None
            if self.open and self.jobs[-1].finish != NEVER:
                self.current(event)
        elif event.what in ("start", "stop"):
            self.take_stretch(event)
        else:
            self.take_section(event)

    def take_stretch(self, event: Event) -> None:
        if event.what == "start":
            self.current(event)
            if self.open:
                raise self.wrong(event)
            self.open = (event.time, event.processor)
        else:
            if self.open is None or self.open[1] != event.processor:
                raise self.wrong(event)
            self.close(event.time)
            self.open = None

    def close(self, time: int) -> None:
        """The stretch that is open ends for the job that is there; where none is, it was what comes after a job's end."""
        if self.open and self.jobs and self.jobs[-1].finish == NEVER:
            job = self.jobs[-1]
            job.stretches.append(Stretch(job, self.open[1], max(self.open[0], job.ready), time))

    def take_section(self, event: Event) -> None:
        job = self.current(event)
        last = job.sections[-1]
        if event.what == "issue" and last.resource is None:
            last.end = event.time
            job.sections.append(Section(event.resource, event.time))
        elif event.what == "grant" and last.resource == event.resource and last.grant == NEVER:
            last.grant = event.time
        elif event.what == "end" and last.resource == event.resource and last.grant <= event.time:
            last.end = event.time
            job.sections.append(Section(None, event.time))
        elif event.what == "finish" and last.resource is None:
            self.close(event.time)
            last.end = job.finish = event.time
        else:
            raise self.wrong(event)


def ordered(events: list[Event]) -> list[Event]:
    """Those of one time so that what ends something comes before what begins it: an issue before its grant, a stop after the events of
    the job that it stops."""
    places = {"finish": 7, "arrive": 0, "release": 1, "end": 2, "issue": 3, "grant": 4}
    return sorted(events, key=lambda one: (one.time, places.get(one.what, 5)))


def jobs_of(events: list[Event], names: list[str], last: int) -> list[Job]:
    """The jobs, in the order of their releases. What is open at the last time is cut there."""
    tasks = [Task(name) for name in names]
    for event in events:
        tasks[event.task].take(event)
    for task in tasks:
        task.close(last)
        for arrival, release in task.released:
            ready = max([release, *(one.finish for one in task.jobs[-1:])])
            task.jobs.append(Job(tasks.index(task), arrival, release, ready, [Section(None, release)]))
    return sorted((job for task in tasks for job in task.jobs), key=lambda job: (job.release, job.task))


def mend_grants(jobs: list[Job], latency: int) -> None:
    """Puts each grant to its cause, the issue or the end of the request before, where that lies no more than the latency before it."""
    requests = defaultdict(list)
    for job in jobs:
        for section in job.sections:
            if section.resource is not None and section.grant != NEVER:
                requests[section.resource].append(section)
    for served in requests.values():
        served.sort(key=lambda one: (one.grant, one.begin))
        for before, one in zip([None, *served], served):
            cause = max(one.begin, before.end if before else one.begin)
            if cause <= one.grant <= cause + latency:
                one.grant = cause


def executed_parts(job: Job) -> Iterable[Stretch]:
    """The job's stretches without what lies in its waiting."""
    for one in job.stretches:
        parts = [(one.start, one.end)]
        for begin, end in job.waiting():
            parts = [piece for start, stop in parts for piece in ((start, min(stop, begin)), (max(start, end), stop)) if piece[0] <= piece[1]]
        for start, stop in parts:
            yield Stretch(job, one.processor, start, stop)


def switched(stretches: list[Stretch], latency: int, counts: Counts) -> list[Stretch]:
    """The stretches of a processor, in which each begins at its cause."""
    lasting: list[Stretch] = []
    for one in sorted(stretches, key=lambda stretch: (stretch.start, stretch.end)):
        before = lasting[-1] if lasting else None
        if before and before.end > one.start:
            raise Refused(f"two jobs execute on processor {one.processor} at {one.start}")
        cause = one.job.ready_at(one.start)
        if before:
            cause = max(cause, before.end if before.job is one.job else before.job.yielded_at(one.start))
        cause = take_back(lasting, cause, latency, counts)
        if lasting:
            lasting[-1].end = min(cause, lasts_to(lasting[-1]))
        if lasting and lasting[-1].job is one.job and lasting[-1].end == cause:
            counts.stops += 1
            counts.most_stopped = max(counts.most_stopped, one.start - cause)
            lasting[-1].end = one.end
        else:
            counts.switches += 1
            counts.most_charged = max(counts.most_charged, one.start - cause)
            lasting.append(Stretch(one.job, one.processor, cause, one.end))
    return lasting


def lasts_to(stretch: Stretch) -> int:
    """Up to when the job could go on executing where it was seen last: to its waiting or its end, or until it is seen again."""
    waits = [begin for begin, _ in stretch.job.waiting() if begin >= stretch.end]
    again = [one.start for one in stretch.job.stretches if one.start >= stretch.end]
    return min([*waits, *again])


def take_back(lasting: list[Stretch], cause: int, latency: int, counts: Counts) -> int:
    """When the next stretch begins: at its cause, but behind what was seen later than the latency after it."""
    while lasting and lasting[-1].end > cause:
        over = lasting[-1].end - cause
        if over > latency:
            counts.late += 1
            counts.most_late = max(counts.most_late, over)
            return lasting[-1].end
        counts.cut += 1
        counts.most_cut = max(counts.most_cut, over)
        if lasting[-1].start < cause:
            lasting[-1].end = cause
        else:
            lasting.pop()
    return cause


def instants(start: int, end: int, tick: int, ticks: int) -> range:
    """The ticks whose instants lie from the start on and before the end."""
    return range(min(ticks, -(-start // tick)), min(ticks, -(-end // tick)))


def rows_in(section: Section, stretches: list[Stretch], tick: int, ticks: int) -> tuple[int, bool]:
    """How many ticks the job executes in a section, and whether it went on behind the last of these once it had been stopped."""
    whole = instants(section.begin, section.end, tick, ticks)
    count, goes_on = 0, False
    for one in stretches:
        part = instants(one.start, one.end, tick, ticks)
        rows = len(range(max(part.start, whole.start), min(part.stop, whole.stop)))
        is_there = max(one.start, section.begin) < min(one.end, section.end)
        count, goes_on = count + rows, is_there and not rows if rows or is_there else goes_on
    return count, goes_on


def script_of(job: Job, stretches: list[Stretch], tick: int, ticks: int, names: list[str], counts: Counts) -> str:
    """The sections of a job with their ticks. What is open gets one more, since it isn't over."""
    words: list[str] = []
    for section in job.sections:
        rows, goes_on = rows_in(section, stretches, tick, ticks)
        count = rows + (section.end == NEVER)
        counts.behind += goes_on
        if count == 0 and section is job.sections[-1] and words:
            continue
        if count == 0:
            raise Refused(f"a job released at {job.release} has a section from {section.begin} to {section.end} without a tick: take a shorter tick")
        words.append(f"{count}" if section.resource is None else f"{names[section.resource]}:{count}")
    return " ".join(words)


def runs_of(columns: list[list[tuple[range, int]]], ticks: int) -> Iterable[tuple[int, list[str]]]:
    """Equal rows on end as one: how many, and the cells."""
    changes = defaultdict(list)
    for place, column in enumerate(columns):
        for lasting, job in column:
            if len(lasting):
                changes[lasting.start].append((1, place, str(job)))
                changes[lasting.stop].append((0, place, ""))
    cells, begin = [""] * len(columns), 0
    for at in [*sorted(changes), ticks]:
        if at > begin:
            yield at - begin, list(cells)
        begin = max(begin, at)
        for _, place, cell in sorted(changes.get(at, [])):
            cells[place] = cell


@dataclass
class Recording:
    jobs: str
    rows: str
    ticks: int
    counts: Counts


def holders_of(jobs: list[Job], resources: int, tick: int, ticks: int) -> list[list[tuple[range, int]]]:
    """Of each resource who holds it, and in which ticks."""
    held: list[list[tuple[range, int]]] = [[] for _ in range(resources)]
    for number, job in enumerate(jobs, 1):
        for one in job.sections:
            if one.resource is not None and one.grant != NEVER:
                held[one.resource].append((instants(one.grant, one.end, tick, ticks), number))
    return held


def recorded(parts: Parts, text: str, tick: int, latency: int) -> Recording:
    """The jobs and rows of a text of events, for a set, a tick and a latency in the unit of the events' times."""
    names = [task["name"] for task in parts["tasks"]]
    resources = [one["name"] for one in parts.get("resources", ())]
    events = ordered(read_events(text, names, resources, parts["processors"]))
    last = events[-1].time if events else 0
    ticks = -(-last // tick)
    jobs = jobs_of(events, names, last)
    mend_grants(jobs, latency)
    counts, columns, stretches = Counts(), [], defaultdict(list)
    numbers = {id(job): number for number, job in enumerate(jobs, 1)}
    executed = [part for job in jobs for part in executed_parts(job)]
    for processor in range(1, parts["processors"] + 1):
        lasting = switched([part for part in executed if part.processor == processor], latency, counts)
        columns.append([(instants(one.start, one.end, tick, ticks), numbers[id(one.job)]) for one in lasting])
        for one in lasting:
            stretches[id(one.job)].append(one)
    columns += holders_of(jobs, len(resources), tick, ticks)
    lines = [f"{names[job.task]},{-(-job.arrival // tick)},{-(-job.release // tick)},{script_of(job, stretches[id(job)], tick, ticks, resources, counts)}" for job in jobs]
    head = ["ticks", *(f"P{k}" for k in range(1, parts["processors"] + 1)), *resources]
    rows = [",".join(head), *(",".join([str(count), *cells]) for count, cells in runs_of(columns, ticks))]
    return Recording("\n".join(["task,arrival,release,script", *lines, ""]), "\n".join([*rows, ""]), ticks, counts)
