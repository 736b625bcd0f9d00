"""Reads a set, its jobs and its rows, and says what each job does when: the boxes of a picture."""
from __future__ import annotations

import csv
import io
import json
from bisect import bisect_right
from dataclasses import dataclass, field
from typing import Iterator, NoReturn, Optional, Sequence

from .changes import deadline_of
from .files import read_text
from .program import Parts
from .progress import Progress
from .statuses import Status, Stop


@dataclass(frozen=True)
class Task:
    """A task of the set: its place there, from the highest on."""

    name: str
    processor: int
    deadline: int
    place: int


@dataclass(eq=False)
class Job:
    """A job: its number, its task, its arrival, its release, and its parts, each the name of a resource or None, and ticks."""

    number: int
    task: Task
    arrival: int
    release: int
    parts: list[tuple[Optional[str], int]]
    done: int = 0
    part: int = 0

    def is_finished(self) -> bool:
        """Whether all its parts are done."""
        return self.part == len(self.parts)

    def resource(self) -> Optional[str]:
        """The resource that it requests now, or None."""
        return None if self.is_finished() else self.parts[self.part][0]

    def left(self) -> int:
        """The ticks that are left of its part."""
        return self.parts[self.part][1] - self.done

    def run(self, ticks: int) -> None:
        """It executes for so many ticks of its part."""
        self.done += ticks
        if self.left() == 0:
            self.part, self.done = self.part + 1, 0


@dataclass(frozen=True)
class Run:
    """Equal rows: how many, who runs on each processor, and who holds each resource, as places in the list of jobs or None."""

    ticks: int
    running: list[Optional[int]]
    holders: list[Optional[int]]


@dataclass
class Box:
    """A job executes, spins or is blocked, from a tick to another."""

    job: Job
    start: int
    end: int
    processor: int
    resource: Optional[str]


@dataclass
class Boxes:
    """Boxes of one kind, in the order in which they begin. What goes on without a change is one box."""

    all: list[Box] = field(default_factory=list)
    last: dict[int, Box] = field(default_factory=dict)

    def add(self, box: Box) -> None:
        """Adds a box, to the last one of its job where that goes on."""
        last = self.last.get(box.job.number)
        if last and (last.end, last.processor, last.resource) == (box.start, box.processor, box.resource):
            last.end = box.end
        else:
            self.all.append(box)
            self.last[box.job.number] = box


@dataclass(frozen=True)
class Mark:
    """A mark at a tick: a release, an arrival or a deadline of a job of a task."""

    kind: str
    tick: int
    task: Task


@dataclass(frozen=True)
class Picture:
    """What a schedule comes to: boxes of executing, of spinning and of blocked jobs."""

    set: Parts
    tasks: list[Task]
    jobs: list[Job]
    ticks: int
    executed: list[Box]
    spinning: list[Box]
    blocked: list[Box]

    def resources(self) -> list[str]:
        """The names of the resources."""
        return [resource["name"] for resource in self.set.get("resources", [])]

    def marks(self) -> list[Mark]:
        """What is marked of the jobs, up to the end: releases, arrivals where these are at other ticks, and deadlines."""
        marks = []
        for job in self.jobs:
            if job.arrival != job.release:
                marks.append(Mark("arrival", job.arrival, job.task))
            marks.append(Mark("release", job.release, job.task))
            marks.append(Mark("deadline", job.arrival + job.task.deadline, job.task))
        return [mark for mark in marks if mark.tick <= self.ticks]


@dataclass(frozen=True)
class Line:
    """A line of a CSV file, with its number there: data lines count from 1, as in the program's answers."""

    path: str
    number: int
    cells: list[str]

    def refuse(self, why: str) -> NoReturn:
        """Ends the tool with the place of what is wrong."""
        raise Stop(f"{self.path}, line {self.number}{why}", Status.REFUSED)

    def whole(self, text: str, least: int) -> int:
        """The whole number in a cell."""
        if not text.isascii() or not text.isdigit() or int(text) < least:
            self.refuse(f": {text!r} is no number from {least} on")
        return int(text)


def read_set(path: str) -> tuple[Parts, list[Task]]:
    """A set, and its tasks."""
    text = read_text(path)
    try:
        parts: Parts = json.loads(text)
        tasks = [Task(task["name"], task["processor"], deadline_of(task), place) for place, task in enumerate(parts["tasks"])]
        numbers = [parts["processors"], *(number for task in tasks for number in (task.processor, task.deadline))]
        is_set = all(isinstance(resource["name"], str) for resource in parts.get("resources", []))
    except (ValueError, KeyError, TypeError, AttributeError) as error:
        raise Stop(f"{path} is no task set: {error!r}", Status.REFUSED) from None
    is_set = is_set and all(isinstance(number, int) for number in numbers)
    if not is_set or not all(1 <= task.processor <= parts["processors"] for task in tasks):
        raise Stop(f"{path} is no task set: a number is out of range", Status.REFUSED)
    return parts, tasks


def lines_of(path: str, *headers: list[str]) -> Iterator[Line]:
    """The lines of a CSV file after its header, which has to be one of these."""
    lines = [line for line in csv.reader(io.StringIO(read_text(path))) if line]
    if not lines or lines[0] not in headers:
        raise Stop(f"{path} doesn't begin with the line {' or '.join(','.join(header) for header in headers)}", Status.REFUSED)
    for number, cells in enumerate(lines[1:], 1):
        line = Line(path, number, cells)
        if len(cells) != len(lines[0]):
            line.refuse(f" has {len(cells)} fields in place of {len(lines[0])}")
        yield line


def part_of(line: Line, token: str, resources: Sequence[str]) -> tuple[Optional[str], int]:
    """A part of a script."""
    name, colon, ticks = token.rpartition(":")
    if colon and name not in resources:
        line.refuse(f": the set has no resource {name!r}")
    return (name if colon else None), line.whole(ticks, 1)


def read_jobs(path: str, tasks: Sequence[Task], resources: Sequence[str]) -> list[Job]:
    """The jobs of a file."""
    named = {task.name: task for task in tasks}
    jobs = []
    for line in lines_of(path, ["task", "release", "script"], ["task", "arrival", "release", "script"]):
        name, *given, script = line.cells
        if name not in named:
            line.refuse(f": the set has no task {name!r}")
        parts = [part_of(line, token, resources) for token in script.split(" ")]
        ticks = [line.whole(tick, 0) for tick in given]
        jobs.append(Job(line.number, named[name], ticks[0], ticks[-1], parts))
    return jobs


def cell_of(line: Line, text: str, jobs: int) -> Optional[int]:
    """The place of the job in a cell, or None where it is empty."""
    if text == "":
        return None
    number = line.whole(text, 1)
    if number > jobs:
        line.refuse(f": there is no job {number}")
    return number - 1


def read_rows(path: str, processors: int, resources: Sequence[str], jobs: int) -> list[Run]:
    """The rows of a file."""
    runs = []
    for line in lines_of(path, ["ticks", *(f"P{k}" for k in range(1, processors + 1)), *resources]):
        ticks, *cells = line.cells
        named = [cell_of(line, text, jobs) for text in cells]
        runs.append(Run(line.whole(ticks, 1), named[:processors], named[processors:]))
    return runs


class Queues:
    """The jobs of each task in the order of the list, of which the first that isn't finished is active once it is released."""

    def __init__(self, jobs: Sequence[Job]) -> None:
        self.jobs: dict[int, list[Job]] = {}
        for job in reversed(jobs):
            self.jobs.setdefault(job.task.place, []).append(job)
        self.coming = sorted(jobs, key=lambda job: job.release, reverse=True)
        self.active: dict[int, Job] = {}

    def at(self, tick: int) -> list[Job]:
        """The active jobs at a tick that is no earlier than those asked for before, those of higher tasks first."""
        while self.coming and self.coming[-1].release <= tick:
            self.renew(self.coming.pop().task.place, tick)
        return [self.active[place] for place in sorted(self.active)]

    def renew(self, place: int, tick: int) -> None:
        """Looks anew for the active job of a task, after a release or the end of a job."""
        queue = self.jobs[place]
        while queue and queue[-1].is_finished():
            queue.pop()
        if queue and queue[-1].release <= tick:
            self.active[place] = queue[-1]
        else:
            self.active.pop(place, None)


class Walk:
    """Goes over the rows, and makes boxes of what jobs do."""

    def __init__(self, jobs: list[Job], runs: list[Run], resources: list[str], spins: bool) -> None:
        self.jobs, self.runs, self.resources, self.spins = jobs, runs, resources, spins
        self.at_homes = any(job is not None and jobs[job].task.processor != k for run in runs for k, job in enumerate(run.running, 1))
        self.releases = sorted({job.release for job in jobs})
        self.queues = Queues(jobs)
        self.executed, self.spinning, self.blocked = Boxes(), Boxes(), Boxes()

    def is_spinning(self, run: Run, job: Job) -> bool:
        """Whether a job is in a request that it doesn't hold. Under spin locks it keeps its processor busy then."""
        resource = job.resource()
        if resource is None:
            return False
        holder = run.holders[self.resources.index(resource)]
        return holder is None or self.jobs[holder] is not job

    def is_delayed(self, job: Job, running: dict[int, Job]) -> bool:
        """Whether a higher task's job runs in its place."""
        here = running.get(job.task.processor)
        interferes = here is not None and here.task.place < job.task.place and here.task.processor == job.task.processor
        return here is not None and interferes and (here.resource() is None or not self.at_homes)

    def take(self, run: Run, running: dict[int, Job], tick: int, ticks: int) -> None:
        """Some ticks of a run, in which no job comes to another part and none is released."""
        executing = {job.number for job in running.values()}
        for job in self.queues.at(tick):
            if job.number in executing:
                continue
            if self.spins and self.is_spinning(run, job):
                self.spinning.add(Box(job, tick, tick + ticks, job.task.processor, job.resource()))
            if not self.is_delayed(job, running):
                self.blocked.add(Box(job, tick, tick + ticks, job.task.processor, job.resource()))
        for k, job in running.items():
            self.executed.add(Box(job, tick, tick + ticks, k, job.resource()))
        for job in running.values():
            job.run(ticks)
            if job.is_finished():
                self.queues.renew(job.task.place, tick + ticks)

    def step(self, run: Run, tick: int, end: int) -> int:
        """Goes on from a tick within a run, as far as nothing changes; says to which tick."""
        running = {k: self.jobs[job] for k, job in enumerate(run.running, 1) if job is not None and not self.jobs[job].is_finished()}
        following = bisect_right(self.releases, tick)
        ends = [end, *(tick + job.left() for job in running.values()), *self.releases[following : following + 1]]
        self.take(run, running, tick, min(ends) - tick)
        return min(ends)

    def over(self) -> int:
        """Goes over all rows; says how many ticks they last."""
        progress = Progress(len(self.runs), "lines of rows")
        tick = 0
        for run in self.runs:
            tick = self.through(run, tick)
            progress.step()
        progress.end()
        return tick

    def through(self, run: Run, tick: int) -> int:
        """Goes over a run that begins at a tick; says where it ends."""
        end = tick + run.ticks
        while tick < end:
            tick = self.step(run, tick, end)
        return end


def picture_of(set_path: str, jobs_path: str, rows_path: str, spins: bool = False) -> Picture:
    """The boxes of a schedule; `spins` says whether who waits spins."""
    parts, tasks = read_set(set_path)
    resources = [resource["name"] for resource in parts.get("resources", [])]
    jobs = read_jobs(jobs_path, tasks, resources)
    walk = Walk(jobs, read_rows(rows_path, parts["processors"], resources, len(jobs)), resources, spins)
    ticks = walk.over()
    return Picture(parts, tasks, jobs, ticks, walk.executed.all, walk.spinning.all, walk.blocked.all)
