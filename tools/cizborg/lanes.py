"""A stretch of a schedule as a picture inside a page: a lane for each processor. What it looks like stands in dossier.css."""
from __future__ import annotations

from dataclasses import dataclass
from typing import Any, Optional, Sequence

from .drawing import colour
from .pages import element, escaped
from .schedule import Box, Job, Picture, Task

WIDTH = 760
LANE = 34
LOW = 11
ARROW = 24
BAR = 5
LEFT = 40
RIGHT = 12
LETTER = 6.6
STEPS = (1, 2, 5)


@dataclass(frozen=True)
class Stretch:
    """From a tick up to another."""

    start: int
    end: int

    def has(self, box: Box) -> bool:
        """Whether a box lies in it, at least in part."""
        return box.start < self.end and self.start < box.end

    def place(self, tick: int) -> float:
        """Where a tick stands in the picture, from the left; what lies outside stands at the edge."""
        inside = min(max(tick, self.start), self.end) - self.start
        return LEFT + inside * (WIDTH - LEFT - RIGHT) / (self.end - self.start)


def colour_of(task: Task) -> str:
    """The colour of a task, which the drawing tools give it too."""
    return colour(task.place)


def nearest(picture: Picture, bounds: Sequence[int]) -> list[Job]:
    """Of each task the finished job that came nearest to the task's bound, the nearest of all first."""
    taken = {box.job.number: box for box in sorted(picture.executed, key=lambda box: box.end)}
    ended = [(box.end - box.job.release, box.job) for box in taken.values() if box.job.is_finished()]
    ended.sort(key=lambda pair: (-pair[0] / bounds[pair[1].task.place], pair[1].release))
    first: dict[int, Job] = {}
    for _, job in ended:
        first.setdefault(job.task.place, job)
    return list(first.values())


def hatches(resources: Sequence[str]) -> str:
    """A pattern for each resource."""
    made = []
    for place in range(len(resources)):
        lines = element("path", d="M0 0V8" if place // 4 % 2 == 0 else "M0 0V8M0 0H8", class_="hatch")
        turn = f"rotate({45 * (place % 4) + 15 * (place // 8)})"
        size: dict[str, Any] = {"width": 5 + place // 4, "height": 8, "patternUnits": "userSpaceOnUse", "patternTransform": turn}
        made.append(element("pattern", lines, id=f"hatch-{place}", **size))
    return element("defs", "".join(made))


class Lanes:
    """Where the lane of each processor lies: its base, and its bars below, one for each task there."""

    def __init__(self, picture: Picture) -> None:
        self.bases: dict[int, int] = {}
        self.bars: dict[int, int] = {}
        top = 0
        for k in range(1, picture.set["processors"] + 1):
            here = [task for task in picture.tasks if task.processor == k]
            self.bases[k] = top + ARROW + LANE
            self.bars.update({task.place: self.bases[k] + 4 + BAR * number for number, task in enumerate(here)})
            top = self.bases[k] + BAR * len(here) + 10
        self.height = top


def executed(box: Box, stretch: Stretch, lanes: Lanes, resources: Sequence[str]) -> str:
    """The box of a job that executes: filled by its task, and hatched by its resource."""
    left, right = stretch.place(box.start), stretch.place(box.end)
    top, name = lanes.bases[box.processor] - LANE + 8, box.job.task.name
    shape: dict[str, Any] = {"x": f"{left:.2f}", "y": top, "width": f"{max(right - left, 0.5):.2f}", "height": LANE - 8}
    where = f" in a request of {box.resource}" if box.resource else ""
    words = element("title", escaped(f"{name}{where}, ticks {box.start} to {box.end}"))
    drawn = element("rect", words, fill=colour_of(box.job.task), class_="box", **shape)
    if box.resource:
        drawn += element("rect", fill=f"url(#hatch-{resources.index(box.resource)})", class_="over", **shape)
    if right - left >= LETTER * len(name) + 6:
        drawn += element("text", escaped(name), x=f"{(left + right) / 2:.2f}", y=top + 17, class_="within")
    return drawn


def spinning(box: Box, stretch: Stretch, lanes: Lanes) -> str:
    """The low box of a job that spins: its processor is busy, and nothing executes there."""
    left, right = stretch.place(box.start), stretch.place(box.end)
    shape: dict[str, Any] = {"x": f"{left:.2f}", "y": lanes.bases[box.processor] - LOW, "width": f"{max(right - left, 0.5):.2f}", "height": LOW}
    words = element("title", escaped(f"{box.job.task.name} spins for {box.resource}, ticks {box.start} to {box.end}"))
    return element("rect", words, fill="none", stroke=colour_of(box.job.task), class_="spins", **shape)


def blocked(box: Box, stretch: Stretch, lanes: Lanes) -> str:
    """The thin bar of a job that is blocked, below the lane of its processor."""
    left, right = stretch.place(box.start), stretch.place(box.end)
    shape: dict[str, Any] = {"x": f"{left:.2f}", "y": lanes.bars[box.job.task.place], "width": f"{max(right - left, 0.5):.2f}", "height": BAR - 1}
    words = element("title", escaped(f"{box.job.task.name} is blocked, ticks {box.start} to {box.end}"))
    return element("rect", words, fill=colour_of(box.job.task), **shape)


def arrow(x: float, low: int, kind: str, tick: int, task: Task) -> str:
    """An arrow at a place: a release points upwards, an arrival too with a dotted line, and a deadline downwards."""
    high = low - LANE - ARROW + 10
    tip, foot, turn = (low - LANE + 6, high, -6) if kind == "deadline" else (high, low, 6)
    path = f"M{x:.2f} {foot}V{tip}M{x - 3.5:.2f} {tip + turn}L{x:.2f} {tip}L{x + 3.5:.2f} {tip + turn}"
    words = element("title", escaped(f"{kind} of a job of {task.name}, tick {tick}"))
    return element("path", words, d=path, stroke=colour_of(task), class_=f"arrow {kind}")


def arrows(picture: Picture, stretch: Stretch, lanes: Lanes) -> str:
    """The marks of the stretch, side by side where several come at one tick of a lane."""
    drawn = []
    counts: dict[tuple[int, int], int] = {}
    for mark in sorted(picture.marks(), key=lambda mark: (mark.kind, mark.task.place)):
        if stretch.start <= mark.tick <= stretch.end:
            lane = mark.task.processor
            beside = counts[lane, mark.tick] = counts.get((lane, mark.tick), -1) + 1
            drawn.append(arrow(stretch.place(mark.tick) + 6 * beside, lanes.bases[lane], mark.kind, mark.tick, mark.task))
    return "".join(drawn)


def axis(stretch: Stretch, lanes: Lanes) -> str:
    """The lines of the lanes, and the ticks below them."""
    least = (stretch.end - stretch.start) / 9
    power = 10 ** (len(str(int(least))) - 1)
    step = next(step * power for step in (*STEPS, 10) if step * power >= least)
    drawn = []
    for tick in range(-(-stretch.start // step) * step, stretch.end + 1, step):
        x = f"{stretch.place(tick):.2f}"
        drawn.append(element("path", d=f"M{x} 0V{lanes.height}", class_="grid"))
        drawn.append(element("text", str(tick), x=x, y=lanes.height + 13, class_="tick"))
    for k, base in lanes.bases.items():
        drawn.append(element("path", d=f"M{LEFT} {base}H{WIDTH - RIGHT}", class_="base"))
        drawn.append(element("text", f"P{k}", x=LEFT - 8, y=base - LANE / 2 + 8, class_="name"))
    return "".join(drawn)


def legend(picture: Picture, resources: Sequence[str], top: int) -> tuple[str, int]:
    """The colours of tasks and the hatches of resources, in lines as long as the picture."""
    looks: list[tuple[str, Optional[str], str]] = [(colour_of(task), None, task.name) for task in picture.tasks]
    looks += [("none", f"url(#hatch-{place})", f"in {name}") for place, name in enumerate(resources)]
    drawn = []
    x: float = LEFT
    for fill, over, words in looks:
        wide = 17 + 7.4 * len(words) + 14
        if x + wide > WIDTH:
            x, top = LEFT, top + 18
        shape: dict[str, Any] = {"x": f"{x:.2f}", "y": top, "width": 12, "height": 12}
        drawn.append(element("rect", fill=fill, class_="box", **shape) + (element("rect", fill=over, **shape) if over else ""))
        drawn.append(element("text", escaped(words), x=f"{x + 17:.2f}", y=top + 10, class_="key"))
        x += wide
    return "".join(drawn), top + 18


def picture_of(picture: Picture, stretch: Stretch, words: str, number: int = 0) -> str:
    """The stretch of a schedule; `words` say what the picture shows to who can't see it. The first picture of a page, by its number, has the
    hatches of all."""
    resources = picture.resources()
    lanes = Lanes(picture)
    drawn = [hatches(resources) if number == 0 else "", axis(stretch, lanes)]
    drawn += [executed(box, stretch, lanes, resources) for box in picture.executed if stretch.has(box)]
    drawn += [spinning(box, stretch, lanes) for box in picture.spinning if stretch.has(box)]
    drawn += [blocked(box, stretch, lanes) for box in picture.blocked if stretch.has(box)]
    drawn.append(arrows(picture, stretch, lanes))
    keys, height = legend(picture, resources, lanes.height + 24)
    box: dict[str, Any] = {"viewBox": f"0 0 {WIDTH} {height}", "role": "img", "aria_label": words, "class_": "lanes"}
    return element("svg", "".join(drawn) + keys, **box)
