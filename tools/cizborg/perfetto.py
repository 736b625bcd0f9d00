"""A schedule as a Chrome trace, which trace viewers open. A tick is shown as a microsecond."""
from __future__ import annotations

import json
from typing import Any, Iterator, Sequence

from .schedule import Box, Picture

Event = dict[str, Any]
PROCESSORS, TASKS = 1, 2


def named(process: int, thread: int, name: str) -> Event:
    """The name of a lane."""
    return {"name": "thread_name", "ph": "M", "pid": process, "tid": thread, "args": {"name": name}}


def stretch(box: Box, process: int, thread: int, what: str) -> Event:
    """A box as a stretch of a lane."""
    where = f" in {box.resource}" if box.resource else ""
    more: Event = {"job": box.job.number, **({"resource": box.resource} if box.resource else {})}
    return {"name": box.job.task.name + where, "cat": what, "ph": "X", "ts": box.start, "dur": box.end - box.start, "pid": process, "tid": thread, "args": more}


def lanes(picture: Picture) -> Iterator[Event]:
    """The lanes: of processors, which execute, and of tasks, which wait."""
    yield {"name": "process_name", "ph": "M", "pid": PROCESSORS, "args": {"name": "processors"}}
    yield {"name": "process_name", "ph": "M", "pid": TASKS, "args": {"name": "tasks: blocked, spinning, releases and deadlines"}}
    yield from (named(PROCESSORS, k, f"P{k}") for k in range(1, picture.set["processors"] + 1))
    yield from (named(TASKS, task.place + 1, task.name) for task in picture.tasks)


def waits(boxes: Sequence[Box], what: str) -> Iterator[Event]:
    """Boxes of jobs that wait, in the lanes of their tasks."""
    for box in boxes:
        yield {**stretch(box, TASKS, box.job.task.place + 1, what), "name": what}


def events(picture: Picture) -> Iterator[Event]:
    """All of a schedule."""
    yield from lanes(picture)
    yield from (stretch(box, PROCESSORS, box.processor, "executes") for box in picture.executed)
    yield from waits(picture.blocked, "blocked")
    yield from waits(picture.spinning, "spins")
    for mark in picture.marks():
        yield {"name": mark.kind, "cat": "mark", "ph": "i", "s": "t", "ts": mark.tick, "pid": TASKS, "tid": mark.task.place + 1}


def text_of(picture: Picture) -> str:
    """The trace as JSON."""
    return json.dumps({"traceEvents": list(events(picture)), "displayTimeUnit": "ns"}, separators=(",", ":")) + "\n"
