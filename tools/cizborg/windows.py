"""What of a schedule is drawn: a window of ticks, and the tasks and processors that are wanted."""
from __future__ import annotations

from dataclasses import dataclass
from typing import Sequence

from .schedule import Box, Mark, Picture, Task

# how many boxes side by side a picture can show
COLUMNS = 1800


@dataclass(frozen=True)
class Window:
    """From a tick up to another, with the tasks and processors that are shown."""

    start: int
    end: int
    tasks: Sequence[Task]
    processors: Sequence[int]

    def ticks(self) -> int:
        """How long it is."""
        return self.end - self.start

    def parts(self, boxes: Sequence[Box]) -> list[Box]:
        """What of these boxes lies in it, cut at its ends."""
        places = {task.place for task in self.tasks}
        return [
            Box(box.job, max(box.start, self.start), min(box.end, self.end), box.processor, box.resource)
            for box in boxes
            if box.start < self.end and self.start < box.end and box.job.task.place in places and box.processor in self.processors
        ]

    def marks(self, picture: Picture) -> list[Mark]:
        """The marks that lie in it."""
        return [mark for mark in picture.marks() if self.start <= mark.tick <= self.end and mark.task in self.tasks and mark.task.processor in self.processors]


@dataclass(frozen=True)
class Thinned:
    """Boxes that a picture can show, and how many were left out since no picture shows them."""

    boxes: list[Box]
    left_out: int


def thinned(boxes: Sequence[Box], ticks: int, is_lane: bool) -> Thinned:
    """Of the boxes of one lane that are narrower than a column of the picture no more than one in each column. A lane is a processor's, or a
    task's where `is_lane` is false."""
    column = ticks / COLUMNS
    kept: list[Box] = []
    last: dict[int, int] = {}
    left_out = 0
    for box in boxes:
        lane = box.processor if is_lane else box.job.task.place
        place = int(box.start / column)
        if box.end - box.start < column and last.get(lane) == place:
            left_out += 1
        else:
            kept.append(box)
            last[lane] = place
    return Thinned(kept, left_out)
