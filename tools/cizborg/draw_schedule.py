"""Draws a window of a schedule, a lane for each processor."""
from __future__ import annotations

from typing import Any, Optional, Sequence

from . import drawing
from .schedule import Box, Picture, Task
from .windows import Thinned, Window, thinned

HATCHES = ("////", "....", "xxxx", "----", "\\\\\\\\", "oooo", "||||", "++++", "OO", "**")
BAR = 0.12
SPINNING = 0.32
HIGH = 0.75
# more arrows than this are left out, with a word: they would be one black stripe
MOST_MARKS = 400
MOST_NAMES = 300
ARROWS: dict[str, dict[str, Any]] = {"arrival": {"linewidth": 1.2, "linestyle": ":"}, "deadline": {"linewidth": 1.4}, "release": {"linewidth": 1.4}}


def hatch_of(resource: Optional[str], resources: Sequence[str]) -> Optional[str]:
    """The hatch of a resource; more than ten have denser ones."""
    if resource is None:
        return None
    place = resources.index(resource)
    return HATCHES[place % len(HATCHES)] * (1 + place // len(HATCHES))


class Lanes:
    """Where the lane of each processor lies: its base, and its bars below one for each task there."""

    def __init__(self, window: Window) -> None:
        self.places: dict[int, int] = {}
        self.bases: dict[int, float] = {}
        height = 0.0
        for k in window.processors:
            here = [task for task in window.tasks if task.processor == k]
            self.places.update({task.place: number for number, task in enumerate(here)})
            self.bases[k] = height - 1.45
            height -= 1.75 + BAR * len(here)
        self.height = -height

    def bar(self, task: Task) -> float:
        """Where the bar of a task lies."""
        return self.bases[task.processor] - BAR * (self.places[task.place] + 1.3)


class Drawn:
    """A picture in the making."""

    def __init__(self, picture: Picture, window: Window) -> None:
        self.picture, self.window = picture, window
        self.resources = picture.resources()
        self.lanes = Lanes(window)
        self.pyplot = drawing.plotting()
        self.figure, self.axes = self.pyplot.subplots(figsize=(9, 0.8 + 0.62 * self.lanes.height))
        self.left_out = 0

    def shown(self, boxes: Sequence[Box], is_lane: bool = True) -> list[Box]:
        """What of these boxes is shown."""
        found: Thinned = thinned(self.window.parts(boxes), self.window.ticks(), is_lane)
        self.left_out += found.left_out
        return found.boxes

    def fill(self, boxes: Sequence[tuple[Box, float]], high: float, **look: Any) -> None:
        """Boxes of one look, each with its base, as one collection: one by one they would take minutes."""
        if boxes:
            from matplotlib.collections import PolyCollection

            corners = [[(box.start, base), (box.start, base + high), (box.end, base + high), (box.end, base)] for box, base in boxes]
            self.axes.add_collection(PolyCollection(corners, **look))

    def draw_executed(self) -> None:
        """What executes, hatched by the resource, with names where there is room."""
        boxes = self.shown(self.picture.executed)
        for resource in (None, *self.resources):
            here = [(box, self.lanes.bases[box.processor]) for box in boxes if box.resource == resource]
            faces = [drawing.colour(box.job.task.place) for box, _ in here]
            self.fill(here, HIGH, facecolors=faces, edgecolors="black", linewidths=0.6, hatch=hatch_of(resource, self.resources))
        self.draw_names(boxes)

    def draw_names(self, boxes: Sequence[Box]) -> None:
        """The names of the tasks on boxes that have room for them."""
        wide = self.window.ticks() / 45
        named = [box for box in boxes if box.end - box.start >= wide * max(1, len(box.job.task.name) / 4)]
        for box in named[:MOST_NAMES]:
            back = {"boxstyle": "round,pad=0.15", "facecolor": "white", "edgecolor": "none", "alpha": 0.85}
            self.axes.text((box.start + box.end) / 2, self.lanes.bases[box.processor] + 0.37, box.job.task.name, ha="center", va="center", fontsize=8, bbox=back)

    def draw_waiting(self) -> None:
        """What spins, and what is blocked."""
        spins = self.shown(self.picture.spinning)
        for resource in self.resources:
            here = [(box, self.lanes.bases[box.processor]) for box in spins if box.resource == resource]
            edges = [drawing.colour(box.job.task.place) for box, _ in here]
            self.fill(here, SPINNING, facecolors="white", edgecolors=edges, linewidths=1.2, linestyles="--", hatch=hatch_of(resource, self.resources))
        bars = [(box, self.lanes.bar(box.job.task)) for box in self.shown(self.picture.blocked, is_lane=False)]
        self.fill(bars, BAR * 0.75, facecolors=[drawing.colour(box.job.task.place) for box, _ in bars], edgecolors="black", linewidths=0.4)

    def draw_marks(self) -> None:
        """Arrivals, deadlines and releases, side by side where several come at one tick."""
        marks = self.window.marks(self.picture)
        if len(marks) > MOST_MARKS:
            self.left_out += len(marks)
            return
        counts: dict[tuple[int, int], int] = {}
        for mark in sorted(marks, key=lambda mark: (mark.task.processor, mark.tick, mark.kind, mark.task.place)):
            lane = (mark.task.processor, mark.tick)
            counts[lane] = counts.get(lane, -1) + 1
            x, base = mark.tick + counts[lane] * self.window.ticks() / 110, self.lanes.bases[mark.task.processor]
            low, high = (x, base + 0.8), (x, base + 1.3)
            tip, foot = (low, high) if mark.kind == "deadline" else (high, low)
            arrow = {"arrowstyle": "->" if mark.kind == "arrival" else "-|>", **ARROWS[mark.kind], "color": drawing.colour(mark.task.place), "shrinkA": 0, "shrinkB": 0}
            self.axes.annotate("", xy=tip, xytext=foot, arrowprops=arrow)

    def draw_axes(self) -> None:
        """The lanes and the ticks, which are written as whole numbers."""
        axes, ticks = self.axes, self.window.ticks()
        for base in self.lanes.bases.values():
            axes.axhline(base, color="black", linewidth=0.8)
        axes.set_yticks([base + 0.37 for base in self.lanes.bases.values()], [f"P{processor}" for processor in self.lanes.bases])
        axes.tick_params(axis="y", length=0)
        axes.spines["left"].set_visible(False)
        axes.set_xlim(self.window.start - ticks / 80, self.window.end + ticks / 50)
        axes.set_ylim(-self.lanes.height, 0)
        axes.set_xlabel("ticks")
        axes.xaxis.get_major_locator().set_params(integer=True)
        axes.grid(axis="x", color="#dddddd", linewidth=0.6)
        axes.set_axisbelow(True)

    def draw_broken(self, tick: int, rule: str) -> None:
        """The first tick at which a rule is broken."""
        if self.window.start <= tick < self.window.end:
            self.axes.axvspan(tick, tick + 1, color="#d62728", alpha=0.35, linewidth=0)
            self.axes.axvline(tick, color="#d62728", linewidth=1.2)
            self.axes.text(tick, -0.02, f" broken {tick} {rule}", color="#d62728", fontsize=8, va="top")

    def legend_lines(self) -> list[Any]:
        """What stands in the legend for marks and waiting."""
        patch, line = self.pyplot.Rectangle, self.pyplot.Line2D
        shown = []
        if self.picture.spinning:
            shown.append(patch((0, 0), 1, 1, facecolor="white", edgecolor="#7f7f7f", linewidth=1.2, linestyle="--", label="spins"))
        if any(mark.kind == "arrival" for mark in self.picture.marks()):
            shown.append(line([], [], color="black", marker=r"$\uparrow$", linestyle="none", label="arrival"))
        return [
            *shown,
            line([], [], color="black", marker="^", linestyle="none", label="release"),
            line([], [], color="black", marker="v", linestyle="none", label="deadline"),
            line([], [], color="#7f7f7f", linewidth=4, label="blocked"),
        ]

    def draw_legend(self) -> None:
        """The colours of tasks, the hatches of resources, and the marks."""
        patch = self.pyplot.Rectangle
        tasks = [patch((0, 0), 1, 1, facecolor=drawing.colour(task.place), edgecolor="black", linewidth=0.6, label=task.name) for task in self.window.tasks]
        inside = [patch((0, 0), 1, 1, facecolor="white", edgecolor="black", linewidth=0.6, hatch=hatch_of(name, self.resources), label=f"in {name}") for name in self.resources]
        shown = [*tasks, *inside, *self.legend_lines()]
        rows = max(12, int(2.6 * self.lanes.height))
        self.axes.legend(handles=shown, loc="upper left", bbox_to_anchor=(1.01, 1), frameon=False, handleheight=1.4, ncols=-(-len(shown) // rows))


def draw(picture: Picture, window: Window, output: str, broken: Optional[tuple[int, str]] = None) -> int:
    """Draws a window to a file; says how many boxes and arrows are left out, since no picture of this size shows them."""
    drawn = Drawn(picture, window)
    drawn.draw_executed()
    drawn.draw_waiting()
    drawn.draw_marks()
    drawn.draw_axes()
    drawn.draw_legend()
    if broken:
        drawn.draw_broken(*broken)
    drawing.save(drawn.figure, output)
    drawn.pyplot.close(drawn.figure)
    return drawn.left_out
