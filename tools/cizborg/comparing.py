"""What the program says of a set under each word, of all tasks: also of those behind the first that isn't shown."""
from __future__ import annotations

import json
from concurrent.futures import ThreadPoolExecutor
from dataclasses import dataclass, field
from fractions import Fraction
from typing import Callable, Optional, Sequence

from .changes import deadline_of, with_task
from .program import Answer, Block, Parts
from .progress import Progress
from .statuses import Status


@dataclass(frozen=True)
class Shown:
    """What is known of a task under a word. Slack below zero is what the task lacks; where `is_most` is true it lacks at least that."""

    task: str
    deadline: int
    bound: Optional[int]
    slack: Optional[int]
    is_most: bool = False

    def share(self) -> Optional[Fraction]:
        """The slack as a share of the deadline."""
        return None if self.slack is None else Fraction(self.slack, self.deadline)


@dataclass(frozen=True)
class Judged:
    """What is known of a set under a word: the program's answer to the set, and of each task what is known. `relaxed` names those whose
    deadlines were set to their periods to see the others, `aside` those that were left out then."""

    word: str
    answer: Answer
    tasks: list[Shown]
    relaxed: list[str]
    aside: list[str]
    analyses: int

    def line(self) -> str:
        """The answer in a line."""
        return "schedulable" if self.answer.status == Status.DONE else self.answer.line()

    def least(self) -> Optional[Shown]:
        """The task that comes nearest to its deadline, where the set is schedulable."""
        if self.answer.status != Status.DONE:
            return None
        return min(self.tasks, key=lambda one: one.share() or Fraction(0))

    def missing(self) -> list[str]:
        """The tasks that aren't shown."""
        return [one.task for one in self.tasks if one.slack is not None and one.slack < 0]


@dataclass
class Loosened:
    """A set whose tasks that aren't shown have their periods for deadlines, or are left out where that isn't enough."""

    parts: Parts
    relaxed: list[str] = field(default_factory=list)
    values: dict[str, int] = field(default_factory=dict)

    def loosen(self, answer: Answer) -> None:
        """Takes the deadline of the task that an answer names to its period, or the task out."""
        _, _, name, value, _ = answer.line().split()
        place = next(k for k, task in enumerate(self.parts["tasks"]) if task["name"] == name)
        task = self.parts["tasks"][place]
        if deadline_of(task) < task["period"]:
            self.parts = with_task(self.parts, place, {**task, "deadline": task["period"]})
            self.relaxed.append(name)
        else:
            self.values[name] = int(value)
            self.parts = {**self.parts, "tasks": [*self.parts["tasks"][:place], *self.parts["tasks"][place + 1 :]]}


def shown_of(task: Parts, loosened: Loosened, bounds: dict[str, int]) -> Shown:
    """What is known of a task."""
    name, deadline = task["name"], deadline_of(task)
    latest = deadline - task.get("jitter", 0)
    if name in loosened.values:
        return Shown(name, deadline, None, latest - loosened.values[name], is_most=True)
    if name in bounds:
        return Shown(name, deadline, bounds[name], latest - bounds[name])
    return Shown(name, deadline, None, None)


def judged(block: Block, parts: Parts, allowance: Sequence[str]) -> Judged:
    """What the program says of a set under the word of the block."""
    first = block.analysed(parts, *allowance)
    answer, loosened, analyses = first, Loosened(parts), 1
    while answer.status == Status.NO and len(loosened.parts["tasks"]) > 0:
        loosened.loosen(answer)
        if loosened.parts["tasks"]:
            answer = block.analysed(loosened.parts, *allowance)
            analyses += 1
    bounds: dict[str, int] = {}
    if answer.status == Status.DONE:
        names = [task["name"] for task in loosened.parts["tasks"]]
        bounds = dict(zip(names, json.loads(answer.text)["bounds"]))
    tasks = [shown_of(task, loosened, bounds) for task in parts["tasks"]]
    relaxed = [name for name in loosened.relaxed if name not in loosened.values]
    return Judged(block.protocol, first, tasks, relaxed, list(loosened.values), analyses)


def all_judged(block_of: Callable[[str], Block], words: Sequence[str], parts: Parts, allowance: Sequence[str], at_once: int) -> list[Judged]:
    """What the program says of a set under each of these words."""
    progress = Progress(len(words), "words")
    with ThreadPoolExecutor(max_workers=at_once) as pool:
        started = [pool.submit(judged, block_of(word), parts, allowance) for word in words]
        try:
            for future in started:
                future.result()
                progress.step()
        except BaseException:
            pool.shutdown(cancel_futures=True)
            raise
        finally:
            progress.end()
    return [future.result() for future in started]


def most_slack(found: Sequence[Judged]) -> list[Judged]:
    """The words whose nearest task keeps the greatest share of its deadline; none where no word shows the set."""
    nearest = [(one, least.share() or Fraction(0)) for one in found for least in [one.least()] if least]
    best = max((share for _, share in nearest), default=None)
    return [one for one, share in nearest if share == best]
