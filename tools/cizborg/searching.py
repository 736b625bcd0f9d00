"""Looks for the last value of a number at which a set is schedulable, by halving between values that the program has answered."""
from __future__ import annotations

from concurrent.futures import ThreadPoolExecutor
from dataclasses import dataclass
from typing import Optional, Sequence

from .changes import Number
from .program import Answer, Block, Parts
from .progress import Progress
from .statuses import UNKNOWN, Status, Stop


@dataclass(frozen=True)
class Edge:
    """Two neighbours: a value that was analysed as schedulable, and the next one in the harder way, with what the program answered to it."""

    number: Number
    value: Optional[int]
    """None where no schedulable value was seen."""
    following: int
    answer: Answer
    analyses: int
    settled: int
    """How many of the analyses were too wide, so that `settle` was asked."""
    unknown: int
    """How many gave no answer in the end: too wide, or more than their allowance."""


class Asking:
    """The answers to a number's values, each asked for once. A value is told by its distance from that of the set."""

    def __init__(self, block: Block, parts: Parts, allowance: Sequence[str], number: Number, base: Answer, step: int) -> None:
        self.block, self.parts, self.allowance, self.number, self.step = block, parts, allowance, number, step
        self.answers = {0: base}

    def value(self, distance: int) -> int:
        """The value at a distance."""
        return self.number.now + self.step * distance

    def status(self, distance: int) -> int:
        """With which status the program answers the set with the value at a distance."""
        if distance not in self.answers:
            changed = self.number.put(self.parts, self.value(distance))
            self.answers[distance] = self.block.analysed(changed, *self.allowance)
        return self.answers[distance].status

    def halved(self, shown: int, other: int, good: Sequence[int]) -> tuple[int, int]:
        """Two neighbours between two distances, the first with a good status and the second without one, as the two had them."""
        while abs(other - shown) > 1:
            middle = (shown + other) // 2
            if self.status(middle) in good:
                shown = middle
            else:
                other = middle
        return shown, other

    def edge(self, shown: Optional[int], other: int) -> Edge:
        """What was seen at two neighbours; `shown` is None where no schedulable value was."""
        asked = [answer for distance, answer in self.answers.items() if distance]
        settled, unknown = sum(answer.by == "settle" for answer in asked), sum(answer.status in UNKNOWN for answer in asked)
        value = None if shown is None else self.value(shown)
        return Edge(self.number, value, self.value(other), self.answers[other], len(asked), settled, unknown)


def last_schedulable(block: Block, parts: Parts, allowance: Sequence[str], number: Number, base: Answer) -> Edge:
    """The edge of a number of a schedulable set, in the harder way: the next value isn't schedulable, is unknown, or is no input."""
    asking = Asking(block, parts, allowance, number, base, number.step)
    assert number.harder is not None
    last = abs(number.harder - number.now)
    shown, other = (last, last + 1) if asking.status(last) == Status.DONE else asking.halved(0, last, (Status.DONE,))
    if asking.status(other) == Status.DONE:
        raise Stop(f"{number.task} {number.name} is schedulable at {asking.value(other)}, which was taken for the limit of inputs", Status.LACKING)
    return asking.edge(shown, other)


def first_schedulable(block: Block, parts: Parts, allowance: Sequence[str], number: Number, base: Answer) -> Edge:
    """The edge of a number of a set that isn't shown, in the easier way. A value that is refused as an input is gone too far."""
    asking = Asking(block, parts, allowance, number, base, -number.step)
    assert number.easier is not None
    last = abs(number.easier - number.now)
    if last == 0 or asking.status(last) not in (Status.DONE, Status.REFUSED):
        return asking.edge(None, last)
    shown, other = asking.halved(last, 0, (Status.DONE, Status.REFUSED))
    return asking.edge(shown if asking.status(shown) == Status.DONE else None, other)


def edges_of(block: Block, parts: Parts, allowance: Sequence[str], numbers: Sequence[Number], base: Answer, jobs: int) -> list[Edge]:
    """The edges of all numbers, as many at once as asked. The base is what the program answers to the set itself."""
    search = first_schedulable if base.status == Status.NO else last_schedulable
    progress = Progress(len(numbers), "numbers")
    with ThreadPoolExecutor(max_workers=jobs) as pool:
        started = [pool.submit(search, block, parts, allowance, number, base) for number in numbers]
        try:
            for future in started:
                future.result()
                progress.step()
        except BaseException:
            pool.shutdown(cancel_futures=True)
            raise
        finally:
            progress.end()
    return [future.result() for future in started]
