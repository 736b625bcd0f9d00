"""Sets all words for protocols and analyses side by side."""
from __future__ import annotations

import csv
import io
import json
import os
from typing import Iterator, Optional, Sequence

from .. import drawing, protocols
from ..comparing import Judged, Shown, all_judged, most_slack
from ..program import Block, Parts, asked, folder_of_calls, set_of
from ..statuses import Status, Stop
from ..table import ALLOWANCE, CSV, JSON, PICTURE, SET, Command, Given

ABOUT = """
Sets all words for protocols side by side, plain and closer analyses: of each task the slack under each word, which is the deadline less
the jitter less the bound.

Where a task isn't shown its slack is below zero: that much it lacks. The program names the first such task alone. To see the others, the
tool gives a task that isn't shown its period for a deadline, and asks again. Bounds don't depend on deadlines, so those that come then are
bounds of the set as it is. Where a task isn't shown even so, it lacks at least what is printed (<=), and it is left out to see the others.
The figures of the others are then of a set without it, and too good; a line below the table says so.

It proves nothing itself: each column rests on answers of `block analyse`, and where that is wide of `block settle`.

Status 0 says that some word shows the set, and 1 that none does; else it is the status of the first word.
"""


def cell_of(one: Shown) -> str:
    """What is printed of a task under a word."""
    if one.slack is None:
        return "?"
    return f"<={one.slack}" if one.is_most else str(one.slack)


def share_of(one: Optional[Shown]) -> str:
    """The share of its deadline that a task keeps."""
    share = one.share() if one else None
    return "" if share is None else f"{float(100 * share):.1f} %"


def word_of(judged: Judged) -> str:
    """The answer under a word in a word."""
    return {Status.DONE: "shown", Status.NO: "not shown", Status.WIDE: "wide", Status.ALLOWANCE: "allowance"}.get(Status(judged.answer.status), "refused")


def table(parts: Parts, found: Sequence[Judged]) -> Iterator[str]:
    """The lines of the table."""
    rows = [["task", "deadline", *(one.word for one in found)]]
    for place, task in enumerate(parts["tasks"]):
        rows.append([task["name"], str(found[0].tasks[place].deadline), *(cell_of(one.tasks[place]) for one in found)])
    rows.append(["nearest", "", *(share_of(one.least()) for one in found)])
    rows.append(["answer", "", *(word_of(one) for one in found)])
    widths = [max(len(row[c]) for row in rows) for c in range(len(rows[0]))]
    for row in rows:
        yield "  ".join(cell.rjust(width) if c else cell.ljust(width) for c, (cell, width) in enumerate(zip(row, widths))).rstrip()


def notes_of(one: Judged) -> Iterator[str]:
    """What has to be said of a word."""
    if one.answer.status != Status.DONE:
        yield one.line()
    if one.answer.by == "settle":
        yield "the analysis is wide, and block settle answered"
    if one.relaxed:
        yield f"to see all bounds the periods were taken for deadlines, of {', '.join(one.relaxed)}"
    if one.aside:
        yield f"not shown with a whole period either, of {', '.join(one.aside)}; the figures of the others are of a set without, and too good"


def notes(found: Sequence[Judged]) -> Iterator[str]:
    """What has to be said, once for all words of which the same is said."""
    words: dict[str, list[str]] = {}
    for one in found:
        for note in notes_of(one):
            words.setdefault(note, []).append(one.word)
    yield from (f"{', '.join(named)}: {note}" for note, named in words.items())


def verdict(found: Sequence[Judged]) -> str:
    """Which word leaves most slack."""
    best = most_slack(found)
    least = best[0].least() if best else None
    if least:
        return f"Most slack: {', '.join(one.word for one in best)}. The task that comes nearest, {least.task}, keeps {share_of(least)} of its deadline."
    fewest = min((len(one.missing()) for one in found if one.answer.status == Status.NO), default=None)
    if fewest is None:
        return "No word says anything of the set."
    words = [one.word for one in found if one.answer.status == Status.NO and len(one.missing()) == fewest]
    return f"No word shows the set. Fewest tasks lack time under {', '.join(words)}: {fewest}."


def as_text(path: str, parts: Parts, found: Sequence[Judged]) -> Iterator[str]:
    """The whole answer as lines."""
    yield f"Slack in ticks of {path}, by block analyse under each word; below zero is what a task lacks."
    yield ""
    yield from table(parts, found)
    yield ""
    yield verdict(found)
    yield from notes(found)


def as_json(path: str, found: Sequence[Judged]) -> str:
    """The whole answer for scripts."""
    words = []
    for one in found:
        tasks = [{"task": task.task, "deadline": task.deadline, "bound": task.bound, "slack": task.slack, "at_most": task.is_most} for task in one.tasks]
        words.append({
            "word": one.word, "rules": protocols.PROTOCOLS[one.word].rules, "backed_by": f"block {one.answer.by} {one.word} {path}", "answer": one.line(),
            "status": one.answer.status, "tasks": tasks, "relaxed": one.relaxed, "aside": one.aside, "analyses": one.analyses,
        })
    return json.dumps({"set": path, "words": words, "most_slack": [one.word for one in most_slack(found)]}, indent=1) + "\n"


def as_csv(found: Sequence[Judged]) -> str:
    """A line for each task and word."""
    lines = io.StringIO()
    writer = csv.writer(lines, lineterminator="\n")
    writer.writerow(["word", "status", "task", "deadline", "bound", "slack", "at_most"])
    for one in found:
        for task in one.tasks:
            writer.writerow([one.word, one.answer.status, task.task, task.deadline, task.bound, task.slack, int(task.is_most)])
    return lines.getvalue()


def draw(path: str, title: str, parts: Parts, found: Sequence[Judged]) -> None:
    """Of each task a dot for each word, at the share of its deadline that is left."""
    names = [task["name"] for task in parts["tasks"]]
    figure, axes = drawing.plotting().subplots(figsize=(7.2, 1.4 + 0.3 * len(names)))
    for number, one in enumerate(found):
        dots = [(float(100 * share), place) for place, task in enumerate(one.tasks) for share in [task.share()] if share is not None]
        across = 0.5 * (number - (len(found) - 1) / 2) / max(len(found), 1)
        axes.plot([x for x, _ in dots], [y + across for _, y in dots], drawing.MARKERS[number % len(drawing.MARKERS)], color=drawing.colour(number), markersize=5, label=one.word)
    axes.axvline(0, color="#d62728", linewidth=1)
    axes.set_yticks(range(len(names)), names)
    axes.set_ylim(len(names) - 0.4, -0.6)
    axes.set_xlabel("slack, % of the deadline")
    axes.grid(axis="x", color="#dddddd", linewidth=0.6)
    axes.set_axisbelow(True)
    axes.set_title(title, fontsize=8, loc="left")
    axes.legend(frameon=False, loc="upper left", bbox_to_anchor=(1.01, 1))
    drawing.save(figure, path)


def status_of(found: Sequence[Judged]) -> int:
    """The status of the tool."""
    statuses = [one.answer.status for one in found]
    return next((status for status in (Status.DONE, Status.NO) if status in statuses), statuses[0])


def run(given: Given) -> int:
    """Compares the words."""
    if given.picture:
        drawing.want(given.picture)
    if given.json and given.csv:
        raise Stop("--json and --csv are not given together", Status.WORDS)
    with folder_of_calls() as folder:
        blocks = {word: Block(given.program, word, folder) for word in protocols.WORDS}
        report = asked(blocks["mpcp"].program, "report", "mpcp", given.set)
        if report.status != Status.DONE:
            raise Stop(report.line(), report.status)
        parts = set_of(given.set)
        allowance = [] if given.allowance is None else [str(given.allowance)]
        found = all_judged(blocks.__getitem__, protocols.WORDS, parts, allowance, os.cpu_count() or 1)
    print(as_json(given.set, found) if given.json else as_csv(found) if given.csv else "\n".join([*as_text(given.set, parts, found), ""]), end="")
    if given.picture:
        draw(given.picture, f"block compare {given.set}", parts, found)
    return status_of(found)


COMMANDS = (Command("compare", (SET,), "all words for protocols side by side: the slack of each task, or what it lacks", ABOUT, run, (ALLOWANCE, JSON, CSV, PICTURE)),)
