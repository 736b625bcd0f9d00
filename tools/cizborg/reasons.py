"""What a bound consists of, and which tasks block, from answers of the program.

The program writes points of blocking programs only in refusals. So for a task of a schedulable set it is asked to refute the same set with
the task's deadline one tick below its bound: the last step of that refusal is of this task and comes to the bound, and its point is worth
the blocking. Where `analyse` or `refute` is wide `settle` is asked, whose points may be rounded down, and come to the same whole ticks. Deadlines are no part of a program but for windows that are longer than them; these count nothing there.
"""
from __future__ import annotations

import json
import math
import os
from concurrent.futures import ThreadPoolExecutor
from dataclasses import dataclass
from fractions import Fraction
from pathlib import Path
from typing import Any, Optional, Sequence

from .blocking_programs import KINDS, Bounds, TaskSet, columns_of
from .changes import with_task
from .program import Answer, Block, Parts
from .progress import Progress
from .statuses import UNKNOWN, Status, Stop


# a fraction over more is rounded where it is printed
MOST_DENOMINATOR = 1_000_000


@dataclass(frozen=True)
class Blocked:
    """A column: so many requests of a resource by a task, each for so many ticks, block in one way."""

    task: str
    resource: str
    way: str
    requests: Fraction
    length: int

    def ticks(self) -> Fraction:
        """How many ticks it comes to."""
        return self.requests * self.length


@dataclass(frozen=True)
class Delayed:
    """A higher task: so many of its jobs, each for so many ticks, interfere."""

    task: str
    jobs: int
    each: int

    def ticks(self) -> int:
        """How many ticks it comes to."""
        return self.jobs * self.each


@dataclass(frozen=True)
class Reason:
    """What a task's value is made of. It is the task's bound where the set is schedulable, and else what a refusal had come to."""

    task: str
    value: int
    deadline: int
    jitter: int
    cost: int
    blocked: list[Blocked]
    delayed: list[Delayed]
    backed_by: list[str]

    def worth(self) -> Fraction:
        """What the columns come to."""
        return sum((one.ticks() for one in self.blocked), Fraction(0))

    def blocking(self) -> int:
        """The whole ticks of blocking."""
        return math.floor(self.worth())

    def interference(self) -> int:
        """The ticks of interference."""
        return sum(one.ticks() for one in self.delayed)

    def left(self) -> int:
        """What is left of the deadline; below zero, what is lacking."""
        return self.deadline - self.jitter - self.value


@dataclass(frozen=True)
class Step:
    """A step of a refusal: the place of its task, its value, and its point."""

    place: int
    value: int
    point: list[Fraction]


def steps_of(text: str) -> list[Step]:
    """The steps of a refusal."""
    steps: list[dict[str, Any]] = json.loads(text)["steps"]
    return [Step(step["task"] - 1, step["value"], [Fraction(number, step["point"]["den"]) for number in step["point"]["num"]]) for step in steps]


def number(value: Fraction) -> str:
    """A number of requests or ticks. A fraction that is too long to be read is rounded."""
    if value.denominator > MOST_DENOMINATOR:
        return f"about {float(value):.6f}"
    return str(value.numerator) if value.denominator == 1 else f"{value.numerator}/{value.denominator}"


def need_programs(protocol: str) -> None:
    """Ends the tool where it doesn't know the columns of a protocol."""
    if protocol not in KINDS:
        raise Stop(f"this tool doesn't form the columns of {protocol}", Status.WORDS)


def reason_of(s: TaskSet, protocol: str, place: int, value: int, point: Optional[Sequence[Fraction]], bounds: Bounds, backed_by: list[str]) -> Reason:
    """The reason of a task's value at these bounds, with a point of its program or none."""
    columns = columns_of(s, protocol, place) if point is not None else []
    if point is not None and len(point) != len(columns):
        raise Stop(f"the program has {len(point)} columns for {s.tasks[place]['name']}, and {len(columns)} are formed here", Status.LACKING)
    blocked = [
        Blocked(s.tasks[column.task]["name"], s.resources[column.resource]["name"], column.way, amount, s.length[column.task][column.resource])
        for column, amount in zip(columns, point or [])
        if amount
    ]
    delayed = [Delayed(s.tasks[h]["name"], jobs, each) for h, jobs, each in s.interfering(protocol, bounds, place) if jobs] if point is not None else []
    return Reason(s.tasks[place]["name"], value, s.deadline[place], s.jitter[place], s.cost[place], blocked, delayed, backed_by)


def at_refusal(s: TaskSet, protocol: str, steps: Sequence[Step], wanted: Optional[int], backed_by: list[str]) -> Reason:
    """The reason of the last step of a confirmed refusal, or of the last one of a wanted task; where it has none, its cost is all."""
    bounds, last = list(s.cost), None
    before = list(bounds)
    for step in steps:
        if wanted in (None, step.place):
            last, before = step, list(bounds)
        bounds[step.place] = step.value
    if last is None:
        assert wanted is not None
        return reason_of(s, protocol, wanted, s.cost[wanted], None, before, backed_by)
    return reason_of(s, protocol, last.place, last.value, last.point, before, backed_by)


class Asking:
    """Asks the program for the reasons of a set."""

    def __init__(self, block: Block, parts: Parts, path: str, allowance: Sequence[str]) -> None:
        need_programs(block.protocol)
        self.block, self.parts, self.path, self.allowance = block, parts, path, allowance
        self.s = TaskSet(parts)
        self.words = " ".join([block.protocol, path, *allowance])
        # the command that has shown the set, where it is schedulable, and those that wrote refusals
        self.shown_by = "analyse"
        self.refused_by: set[str] = set()

    def refusal_of(self, path: Path) -> Answer:
        """The refusal of a set of a file, by `refute` or where that is wide by `settle`, or the end of the tool."""
        answer = self.block.answer("refute", path, *self.allowance)
        is_refused = answer.status == Status.DONE
        if answer.status == Status.WIDE:
            answer = self.block.answer("settle", path, *self.allowance)
            is_refused = answer.status == Status.NO
        if not is_refused:
            raise Stop(f"block {answer.by} answers {answer.line()}", answer.status or Status.LACKING)
        return answer

    def refused_steps(self, parts: Parts) -> tuple[str, list[Step]]:
        """Which command refused a set, and the steps of the refusal, which the program has confirmed."""
        text = json.dumps(parts)
        answer = self.refusal_of(self.block.file(text))
        # the folder's file of this thread holds the set; the refusal goes to one beside it
        place = self.block.file(text)
        refusal = place.with_name(f"{place.name}.refusal")
        refusal.write_text(answer.text, encoding="utf-8")
        confirmed = self.block.answer("confirm", place, refusal)
        if confirmed.line() != "confirmed":
            raise Stop(f"block confirm answers {confirmed.line()} to what block {answer.by} wrote", Status.LACKING)
        self.refused_by.add(answer.by)
        return answer.by, steps_of(answer.text)

    def shown(self, place: int, bounds: Bounds) -> Reason:
        """The reason of a task of a schedulable set with these bounds."""
        s, name = self.s, self.s.tasks[place]["name"]
        shown_by = f"block {self.shown_by} {self.words}"
        if bounds[place] == s.cost[place]:
            return reason_of(s, self.block.protocol, place, bounds[place], None, bounds, [shown_by])
        deadline = bounds[place] + s.jitter[place] - 1
        by, steps = self.refused_steps(with_task(self.parts, place, {**self.parts["tasks"][place], "deadline": deadline}))
        last = steps[-1]
        backed_by = [shown_by, f"block {by} {self.words}, with the deadline of {name} at {deadline}", "block confirm of that refusal"]
        reason = reason_of(s, self.block.protocol, place, bounds[place], last.point, bounds, backed_by)
        come_to = reason.cost + reason.blocking() + reason.interference()
        if (last.place, last.value) != (place, bounds[place]) or come_to != bounds[place]:
            raise Stop(f"the parts of {name} come to {come_to}, and its bound is {bounds[place]}", Status.LACKING)
        return reason

    def not_shown(self, wanted: Optional[int]) -> Reason:
        """The reason at the refusal of a set that isn't shown: of the task that passes its deadline, or what a wanted task had come to."""
        by, steps = self.refused_steps(self.parts)
        backed_by = [f"block {by} {self.words}", "block confirm of that refusal"]
        return at_refusal(self.s, self.block.protocol, steps, wanted, backed_by)


def bounds_of(asking: Asking) -> Optional[list[int]]:
    """The bounds of a set, or None where it isn't shown."""
    answer = asking.block.analysed(asking.parts, *asking.allowance)
    if answer.status == Status.REFUSED:
        raise Stop(answer.line(), answer.status)
    if answer.status in UNKNOWN:
        raise Stop(f"block {answer.by} {asking.words} answers {answer.line()}: nothing is known of the set", answer.status)
    asking.shown_by = answer.by
    bounds: list[int] = json.loads(answer.text)["bounds"] if answer.status == Status.DONE else []
    return bounds or None


def all_shown(asking: Asking, places: Sequence[int], bounds: Sequence[int]) -> list[Reason]:
    """The reasons of these tasks of a schedulable set."""
    progress = Progress(len(places), "tasks")
    with ThreadPoolExecutor(max_workers=os.cpu_count() or 1) as pool:
        found = []
        for reason in pool.map(lambda place: asking.shown(place, bounds), places):
            found.append(reason)
            progress.step()
    progress.end()
    return found
