"""Says how far a task set is from the edge."""
from __future__ import annotations

import json
import os
import sys
from pathlib import Path
from typing import Any, Iterator, Optional, Sequence

from .. import drawing
from ..changes import PARTS, Number, numbers_of
from ..program import Answer, Block, Parts, folder_of_calls, set_of
from ..searching import Edge, edges_of
from ..statuses import UNKNOWN, Status, Stop
from ..table import ALLOWANCE, JSON, PICTURE, PROTOCOL, SET, Command, Given, Kind, Option, Word

ABOUT = """
Says how far a task set is from the edge: how far each of its numbers can go, with all else as it is, and the set stays schedulable.

For each task it looks for the greatest cost, the greatest jitter and the least period, for each request for the greatest count and the
greatest length, and for the greatest factor, in thousandths, on all costs, local limits and lengths at once, each rounded up. A
deadline that the set doesn't give is the period, and changes with it; one that it gives stays as it is, but is lowered to the period
where that is shorter. For a set that isn't shown it looks for the single changes that make it schedulable: the same numbers the other
way, periods up to a hundred times as long, and longer deadlines. They are printed cheapest first, by how much of the number changes.
What no single change mends is printed too, with the furthest value that was asked for.

It proves nothing itself. It looks by halving, and prints two neighbours for each number: a value at which `block analyse` answered that
the set is schedulable, and the next one, with what it answered there: `not shown`, `wide` or `allowance`, after which nothing is known,
or `limit`, where the next value is refused as an input. Where `block analyse` is wide, `block settle` is asked. Of other values it says
nothing.

The status is that of `analyse` on the set, or of `settle` where that is wide.
"""

HEADER = ("task", "number", "now", "edge", "by", "")
NOTES = {
    "factor": "The factor is on all costs, local limits and lengths, each rounded up.",
    "period": "A deadline that the set doesn't give is the period, and changes with it; one that it gives stays, but is lowered to a shorter period.",
    "count": "A count of 0 is no request at all.",
}


def percent(edge: Edge) -> str:
    """The change in hundredths of the number, or nothing where the number is 0."""
    now = edge.number.now
    assert edge.value is not None
    return f"{100 * (edge.value - now) / now:+.1f} %" if now else ""


def answer_at(edge: Edge) -> str:
    """What the program answered to the neighbour."""
    line = edge.answer.line()
    at = f"{edge.number.shown(edge.following)}: "
    if edge.answer.status == Status.REFUSED:
        return f"{at}limit ({line})"
    return f"{at}{line}, so unknown" if edge.answer.status in UNKNOWN else at + line


def row_of(edge: Edge) -> tuple[str, ...]:
    """The cells of an edge."""
    number = edge.number
    assert edge.value is not None
    change = edge.value - number.now
    by = f"{change / PARTS:+.3f}" if number.name == "factor" else f"{change:+d}"
    return (number.task, number.name, number.shown(number.now), number.shown(edge.value), by, percent(edge), answer_at(edge))


def table(edges: Sequence[Edge], neighbour: str) -> Iterator[str]:
    """The lines of a table: numbers stand to the right, and behind them the answers to the neighbours."""
    rows = [(*HEADER, neighbour), *map(row_of, edges)]
    widths = [max(len(row[c]) for row in rows) for c in range(len(HEADER))]
    for row in rows:
        cells = [cell.ljust(width) if c < 2 else cell.rjust(width) for c, (cell, width) in enumerate(zip(row, widths))]
        yield "  ".join([*cells, row[-1]]).rstrip()


def lowered_deadlines(parts: Parts, printed: Sequence[Edge]) -> Iterator[str]:
    """What has to be said of periods that are shorter than a deadline that the set gives."""
    for edge in printed:
        if edge.number.name == "period" and edge.value is not None:
            tasks = zip(parts["tasks"], edge.number.put(parts, edge.value)["tasks"])
            for now, then in tasks:
                if now.get("deadline") != then.get("deadline"):
                    yield f"With the period {edge.value} the deadline of {now['name']} is lowered from {now['deadline']} to {then['deadline']}."


def notes(parts: Parts, edges: Sequence[Edge], printed: Sequence[Edge]) -> Iterator[str]:
    """What has to be said beside the table."""
    names = {edge.number.name.rpartition(" ")[2] for edge in printed}
    yield from (NOTES[name] for name in ("factor", "period") if name in names)
    yield from lowered_deadlines(parts, printed)
    if any(edge.number.name.endswith(" count") and edge.value == 0 for edge in printed):
        yield NOTES["count"]
    every, settled, unknown = (sum(getattr(edge, name) for edge in edges) for name in ("analyses", "settled", "unknown"))
    if settled:
        yield f"{settled} of the {every} analyses were wide, and block settle was asked."
    if unknown:
        yield f"{unknown} of the {every} analyses answered wide or allowance: nothing is known of those sets."


def cheapest_first(edges: Sequence[Edge]) -> list[Edge]:
    """The edges by the share of the number that changes."""
    return sorted(edges, key=lambda edge: abs((edge.value or 0) - edge.number.now) / edge.number.now)


def tried(edges: Sequence[Edge]) -> Iterator[str]:
    """What was tried and mends nothing: of each number the furthest value, and what the program answered there."""
    lines = [f"{edge.number.task} {edge.number.name} {edge.number.shown(edge.number.now)}, up to {answer_at(edge)}" for edge in edges if edge.value is None and edge.following != edge.number.now]
    if lines:
        yield ""
        yield "These were tried, each alone, and mend nothing, up to the furthest value that was asked for, with its answer:"
        yield from lines


def text(call: str, parts: Parts, base: Answer, edges: Sequence[Edge]) -> Iterator[str]:
    """The whole answer as lines."""
    found = [edge for edge in edges if edge.value is not None]
    if base.status == Status.DONE:
        yield f"{call} answers: schedulable."
        yield "At each edge the answer is the same, if nothing else changes. At the next value it is the one in the last column."
        yield ""
        yield from table(found, "at the next value")
    elif found:
        yield f"{call} answers: {base.line()}."
        yield "After any one of these changes the answer is: schedulable. One step before, it is the one in the last column. The cheapest come first."
        yield ""
        yield from table(cheapest_first(found), "one step before")
    else:
        yield f"{call} answers: {base.line()}."
        yield "No single change was found that makes the set schedulable."
    if base.status == Status.NO:
        yield from tried(edges)
    remarks = list(notes(parts, edges, found))
    yield from ["", *remarks] if remarks else []


def as_json(call: str, base: Answer, edges: Sequence[Edge]) -> str:
    """The whole answer for scripts."""
    listed = []
    for edge in edges:
        number = edge.number
        resource, _, name = number.name.rpartition(" ")
        value = None if edge.value is None else number.plain(edge.value)
        listed.append({
            "task": number.task, "resource": resource or None, "number": name, "now": number.plain(number.now), "edge": value,
            "next": number.plain(edge.following), "answer": edge.answer.line() if edge.answer.status != Status.DONE else "schedulable",
            "status": edge.answer.status, "analyses": edge.analyses, "settled": edge.settled, "unknown": edge.unknown,
        })
    answer = "schedulable" if base.status == Status.DONE else base.line()
    return json.dumps({"backed_by": call, "answer": answer, "status": base.status, "numbers": listed}, indent=1)


def bar(axes: Any, place: int, edge: Edge) -> None:
    """The bar of a task: of the greatest cost, what is used and what is free."""
    assert edge.value is not None
    used = 100 * edge.number.now / edge.value
    axes.barh(place, used, color=drawing.COLOURS[0], height=0.7, label=None if place else "used")
    axes.barh(place, 100 - used, left=used, color="#dddddd", height=0.7, label=None if place else "free")
    beyond = f", beyond it {edge.answer.line()}" if edge.answer.status in UNKNOWN else ""
    axes.text(101, place, f"{edge.number.now} of {edge.value}{beyond}", va="center", fontsize=8)


def draw(path: str, call: str, edges: Sequence[Edge]) -> None:
    """A bar for each task: of the greatest cost at which the set is schedulable, what is used and what is free."""
    bars = [edge for edge in edges if edge.number.name == "cost" and edge.value is not None]
    figure, axes = drawing.plotting().subplots(figsize=(7.2, 0.9 + 0.32 * len(bars)))
    for place, edge in enumerate(bars):
        bar(axes, place, edge)
    axes.set_yticks(range(len(bars)), [edge.number.task for edge in bars])
    axes.invert_yaxis()
    axes.set_xlim(0, 100)
    axes.set_xlabel("% of the greatest cost at which the set is schedulable, with all else as it is")
    axes.set_title(call, fontsize=8, loc="left")
    axes.legend(frameon=False, ncols=2, loc="lower right", bbox_to_anchor=(1, 1))
    drawing.save(figure, path)


def analysed(block: Block, path: str, allowance: Sequence[str], words: str) -> tuple[Parts, Answer]:
    """The set of a file, and what the program answers to it."""
    base = block.answer("analyse", path, *allowance)
    if base.status == Status.WIDE:
        base = block.settled(set_of(path), Path(path), *allowance)
    if base.status == Status.REFUSED:
        raise Stop(base.line(), base.status)
    if base.status in UNKNOWN:
        raise Stop(f"block {base.by} {words} answers {base.line()}: nothing is known of the set", base.status)
    return set_of(path), base


def way_of(number: Number, base: Answer) -> Optional[int]:
    """The furthest value of a number that is asked for."""
    return number.easier if base.status == Status.NO else number.harder


def run(given: Given) -> int:
    """Looks for the edges, and prints them."""
    allowance = [] if given.allowance is None else [str(given.allowance)]
    words = " ".join([given.protocol, given.set, *allowance])
    if given.picture:
        drawing.want(given.picture)
    with folder_of_calls() as folder:
        block = Block(given.program, given.protocol, folder)
        parts, base = analysed(block, given.set, allowance, words)
        call = f"block {base.by} {words}"
        numbers = [number for number in numbers_of(parts) if way_of(number, base) is not None]
        edges = edges_of(block, parts, allowance, numbers, base, given.jobs)
    print(as_json(call, base, edges) if given.json else "\n".join(text(call, parts, base, edges)))
    if given.picture and base.status == Status.NO:
        print("block sensitivity: a set that isn't shown has no picture", file=sys.stderr)
    elif given.picture:
        draw(given.picture, call, edges)
    return base.status


AT_ONCE = Option("--jobs", "how many analyses run at once", Word("N", Kind.NUMBER, "", least=1), os.cpu_count() or 1)
COMMANDS = (Command("sensitivity", (PROTOCOL, SET), "how far each number can go until the answer changes", ABOUT, run, (AT_ONCE, ALLOWANCE, JSON, PICTURE)),)
