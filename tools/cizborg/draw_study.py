"""Draws what the program writes for `study`."""
from __future__ import annotations

import re
from dataclasses import dataclass
from typing import Any, Optional

from . import drawing
from .files import read_text
from .statuses import Status, Stop

MARKERS = ("o", "s", "^")
STYLES = ("-", "--", ":")


@dataclass(frozen=True)
class Study:
    """The protocols, of each step its number and a count for each protocol, and how many analyses stopped."""

    protocols: list[str]
    steps: list[list[int]]
    stopped: int

    def most(self) -> int:
        """The greatest count."""
        return max(max(step[1:]) for step in self.steps)


def read_study(path: str) -> Study:
    """The study of a file."""
    lines = read_text(path).splitlines()
    head, steps, last = lines[:1], lines[1:-1], lines[-1:]
    protocols = head[0].split(" ")[1:] if head else []
    is_study = protocols and head[0].startswith("step ") and steps and re.fullmatch(r"stopped [0-9]+", last[0])
    if not is_study or not all(re.fullmatch(rf"[0-9]+( [0-9]+){{{len(protocols)}}}", line) for line in steps):
        raise Stop(f"{path} is no study: it has a line 'step mpcp fmlp+ dpcp', a line for each step, and a line 'stopped N'", Status.REFUSED)
    return Study(protocols, [[int(word) for word in line.split(" ")] for line in steps], int(last[0].split(" ")[1]))


def draw_curves(axes: Any, study: Study, sets: Optional[int]) -> None:
    """A curve for each protocol."""
    steps = [step[0] for step in study.steps]
    for number, protocol in enumerate(study.protocols):
        values = [step[number + 1] / (sets / 100 if sets else 1) for step in study.steps]
        look = {"marker": MARKERS[number % 3], "linestyle": STYLES[number % 3], "color": drawing.COLOURS[(0, 5, 2)[number % 3]], "markersize": 6}
        axes.plot(steps, values, label=protocol, linewidth=1.8, **look)
    axes.set_xticks(steps, [f"{step}\n{10 * step} %" for step in steps])


def draw(path: str, output: str, sets: Optional[int]) -> None:
    """Draws the study of a file; in shares where the number of sets of a step is given."""
    study = read_study(path)
    if sets is not None and sets < study.most():
        raise Stop(f"SETS is {sets}, and {path} counts {study.most()} sets in a step", Status.WORDS)
    figure, axes = drawing.plotting().subplots(figsize=(6.4, 4))
    draw_curves(axes, study, sets)
    axes.set_xlabel("step, and a processor's load on average")
    axes.set_ylabel("schedulable sets, %" if sets else "schedulable sets")
    axes.set_ylim(bottom=0)
    axes.grid(color="#dddddd", linewidth=0.6)
    axes.set_axisbelow(True)
    axes.legend(frameon=False)
    if study.stopped:
        axes.set_title(f"{study.stopped} analyses ended without an answer", fontsize=8, loc="right")
    drawing.save(figure, output)
