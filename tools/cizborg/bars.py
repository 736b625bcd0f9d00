"""Bars of shares, as pictures inside a page. What they look like stands in dossier.css."""
from __future__ import annotations

from dataclasses import dataclass
from typing import Any, Sequence

from .pages import element, escaped

WIDTH = 760
LINE = 26
LETTER = 7.4
NOTE = 150


@dataclass(frozen=True)
class Part:
    """A part of a bar: what it looks like, its size, and what it stands for."""

    look: str
    size: int
    words: str


@dataclass(frozen=True)
class Bar:
    """A bar: its name, its parts from the left, what its whole length is, and what stands behind it."""

    name: str
    parts: tuple[Part, ...]
    whole: int
    note: str


def placed(part: Part, start: float, end: float, top: int) -> str:
    """A part of a bar, between two places."""
    box: dict[str, Any] = {"x": f"{start:.2f}", "y": top + 4, "width": f"{max(end - start, 0.4):.2f}", "height": LINE - 8, "class_": part.look}
    return element("rect", element("title", escaped(part.words)), **box)


def line_of(bar: Bar, left: float, right: float, top: int) -> str:
    """One bar between two places, with its name before it and its note behind it."""
    scale = (right - left) / bar.whole
    track: dict[str, Any] = {"x": left, "y": top + 4, "width": f"{right - left:.2f}", "height": LINE - 8, "class_": "track"}
    drawn = [element("text", escaped(bar.name), x=left - 8, y=top + 17, class_="name"), element("rect", **track)]
    start = 0
    for part in bar.parts:
        if part.size:
            drawn.append(placed(part, left + start * scale, left + (start + part.size) * scale, top))
        start += part.size
    drawn.append(element("text", escaped(bar.note), x=right + 8, y=top + 17, class_="note"))
    return "".join(drawn)


def legend(looks: Sequence[tuple[str, str]], left: float, top: int) -> str:
    """The words of the looks, side by side."""
    drawn, x = [], left
    for look, words in looks:
        drawn.append(element("rect", x=x, y=top + 5, width=12, height=12, class_=look))
        drawn.append(element("text", escaped(words), x=x + 17, y=top + 15, class_="key"))
        x += 17 + LETTER * len(words) + 16
    return "".join(drawn)


def picture(bars: Sequence[Bar], looks: Sequence[tuple[str, str]], words: str) -> str:
    """All bars below each other, with a legend; `words` say what the picture shows to who can't see it."""
    left = 14 + LETTER * max(len(bar.name) for bar in bars)
    height = LINE * (len(bars) + 1) + 4
    drawn = [line_of(bar, left, WIDTH - NOTE, LINE * place) for place, bar in enumerate(bars)]
    drawn.append(legend(looks, left, LINE * len(bars) + 2))
    box: dict[str, Any] = {"viewBox": f"0 0 {WIDTH} {height}", "role": "img", "aria_label": words, "class_": "bars"}
    return element("svg", "".join(drawn), **box)
