"""Experiments: curves as the literature draws them."""
from __future__ import annotations

import json
import os
import re
from pathlib import Path
from typing import Any, Iterator, Mapping

from .. import drawing, protocols
from ..experiments import AXES, SHARES, Experiment, Line, Point, experiment_of, in_order, lacking, lines_of, points_of, run_to
from ..generating import PERIODS, Parameters
from ..program import Block, folder_of_calls
from ..statuses import Status, Stop
from ..table import CSV, JSON, PICTURE, Command, Given, Kind, Option, Word

RUN = """
Draws task sets, and asks the program under each word which of them it shows. OUT gets a line for each set and word: the value of the axis,
the number of the set, the word, and the status of `analyse`, or of `settle` where that is wide. `experiment show` makes curves of it.

A run that was stopped goes on where it was: what OUT has is not asked again. Each set follows from the seed, its value and its number
alone, and sets of one number are drawn alike at all values. So --part K/N does every N-th of them on this machine, others can do the others, and their files on end are one file:

    parallel --sshlogin 8/first,8/second --return part-{}.csv --cleanup 'block experiment run part-{}.csv --part {}/16' ::: $(seq 16)
    cat part-*.csv >all.csv

Tasks are dealt to the processors in turn. Each processor has the same load, and its tasks get shares of it by UUniFast. Periods are drawn
log-uniformly or uniformly, and deadlines are periods; shorter ones are higher. Each task requests each resource with the probability
--access, up to --requests times, for a length that is drawn uniformly, as far as the cost holds the requests. Resources have their homes on
the processors in turn.

--axis changes one of these: load, tasks, processors, resources, access, requests or length, which is the longest. --values has its values.
"""
SHOW = """
Prints which share of the sets of an experiment is shown, for each value of its axis and each word. Sets that the program refuses, which
have too many requests, don't count; sets of which it knows nothing count as not shown, and a line says how many they are. --csv and --json
write all counts, and --picture draws the curves.

It rests on the statuses of `block analyse`, and of `block settle` where that is wide, that OUT has.
"""


def parameters_of(given: Given) -> Parameters:
    """The parameters that were given."""
    names = ("tasks", "processors", "resources", "requests", "shortest_length", "longest_length", "shortest_period", "longest_period", "periods")
    return Parameters(load=float(given.load), access=float(given.access), **{name: getattr(given, name) for name in names})


def asked(given: Given) -> Experiment:
    """The experiment that is asked for. Each value has to be right before any is tried."""
    words = tuple(given.words.split(",")) if given.words else protocols.WORDS
    unknown = [word for word in words if word not in protocols.WORDS]
    if unknown:
        raise Stop(f"--words has {unknown[0]!r}, and words are {', '.join(protocols.WORDS)}", Status.WORDS)
    for name, text in (("--load", given.load), ("--access", given.access)):
        if not re.fullmatch(r"[0-9]+(\.[0-9]+)?", text):
            raise Stop(f"{name} is {text!r}, which is no number", Status.WORDS)
    values = tuple(given.values.split(","))
    form = r"[0-9]+(\.[0-9]+)?" if given.axis in SHARES else r"[0-9]+"
    wrong = [value for value in values if not re.fullmatch(form, value) or len(value) > 12]
    if wrong or len(set(values)) < len(values):
        raise Stop(f"--values has {wrong[0]!r}, which is no number for {given.axis}" if wrong else "--values has a value twice", Status.WORDS)
    experiment = Experiment(parameters_of(given), given.axis, values, given.sets, given.seed, words)
    for value in values:
        why = experiment.at(value).wrong()
        if why:
            raise Stop(f"at {given.axis} {value}: {why}", Status.WORDS)
    return experiment


def part_of(text: str) -> tuple[int, int]:
    """A part K/N."""
    found = re.fullmatch(r"([1-9][0-9]{0,5})/([1-9][0-9]{0,5})", text)
    if not found or int(found[1]) > int(found[2]):
        raise Stop(f"--part is {text!r}, which is no part like 2/8", Status.WORDS)
    return int(found[1]), int(found[2])


def done_before(path: str, experiment: Experiment) -> list[Line]:
    """The lines that a file has already, which has to be of the same experiment. What was cut off at its end is taken away."""
    if not Path(path).exists():
        Path(path).write_text(experiment.head(), encoding="utf-8")
        return []
    head, lines = lines_of(path)
    if f"{head}\n" != experiment.head().partition("\n")[0] + "\n":
        raise Stop(f"{path} is of another experiment: its first line says which", Status.REFUSED)
    text = Path(path).read_bytes()
    Path(path).write_bytes(text[: text.rindex(b"\n") + 1])
    return lines


def run(given: Given) -> int:
    """Runs an experiment, or goes on with it."""
    experiment, part = asked(given), part_of(given.part)
    with folder_of_calls() as folder:
        blocks = {word: Block(given.program, word, folder) for word in experiment.words}
        wanted = lacking(experiment, done_before(given.out, experiment), part)
        with open(given.out, "a", encoding="utf-8") as file:
            run_to(file, experiment, wanted, blocks, given.jobs)
    return Status.DONE


def table(experiment: Experiment, points: Mapping[tuple[str, str], Point]) -> Iterator[str]:
    """The shares as lines."""
    rows = [[experiment.axis, "sets", *experiment.words]]
    for value in experiment.values:
        here = [points.get((value, word)) for word in experiment.words]
        most = max((point.sets() for point in here if point), default=0)
        rows.append([value, str(most), *(f"{100 * point.share():.0f} %" if point else "" for point in here)])
    widths = [max(len(row[c]) for row in rows) for c in range(len(rows[0]))]
    for row in rows:
        yield "  ".join(cell.rjust(width) for cell, width in zip(row, widths)).rstrip()


def notes(points: Mapping[tuple[str, str], Point]) -> Iterator[str]:
    """What has to be said of sets that don't count, or of which nothing is known."""
    unknown, refused = sum(point.unknown for point in points.values()), sum(point.refused for point in points.values())
    if unknown:
        yield f"Of {unknown} analyses nothing is known (wide or allowance); they count as not shown."
    if refused:
        yield f"{refused} analyses refused their set; they don't count."


def draw(path: str, experiment: Experiment, points: Mapping[tuple[str, str], Point]) -> None:
    """A curve for each word."""
    figure, axes = drawing.plotting().subplots(figsize=(6.4, 4))
    for number, word in enumerate(experiment.words):
        curve = [(float(value), 100 * points[value, word].share()) for value in experiment.values if (value, word) in points]
        look = {"marker": drawing.MARKERS[number % len(drawing.MARKERS)], "color": drawing.colour(number), "markersize": 5, "linewidth": 1.6}
        axes.plot([x for x, _ in curve], [y for _, y in curve], label=word, **look)
    axes.set_xlabel(LABELS[experiment.axis])
    axes.set_ylabel("sets that are shown, %")
    axes.set_ylim(-2, 102)
    axes.grid(color="#dddddd", linewidth=0.6)
    axes.set_axisbelow(True)
    axes.legend(frameon=False)
    drawing.save(figure, path)


def counts(experiment: Experiment, points: Mapping[tuple[str, str], Point]) -> list[dict[str, Any]]:
    """All counts."""
    return [
        {"value": value, "word": word, "shown": point.shown, "not_shown": point.not_shown, "unknown": point.unknown, "refused": point.refused}
        for value, word, point in in_order(experiment, points)
    ]


def show(given: Given) -> int:
    """Shows the curves of an experiment."""
    if given.json and given.csv:
        raise Stop("--json and --csv are not given together", Status.WORDS)
    if given.picture:
        drawing.want(given.picture)
    head, lines = lines_of(given.out)
    experiment = experiment_of(head, given.out)
    points = points_of(lines)
    listed = counts(experiment, points)
    if given.json:
        print(json.dumps({"asked": json.loads(head[2:]), "backed_by": "block analyse, and block settle where that is wide", "points": listed}, indent=1))
    elif given.csv:
        names = ("value", "word", "shown", "not_shown", "unknown", "refused")
        print("\n".join([",".join(names), *(",".join(str(one[name]) for name in names) for one in listed)]))
    else:
        print("\n".join([*table(experiment, points), *notes(points)]))
    if given.picture:
        draw(given.picture, experiment, points)
    return Status.DONE


LABELS = {
    "load": "load of each processor", "tasks": "tasks", "processors": "processors", "resources": "resources", "access": "probability that a task requests a resource",
    "requests": "requests of a resource by one job, at most", "length": "longest request, ticks",
}


def number(flag: str, says: str, default: int) -> Option:
    """An option that takes a whole number."""
    return Option(flag, f"{says}; {default} where nothing is said", Word("N", Kind.NUMBER, ""), default)


LOADS = ",".join(f"0.{k}" for k in range(1, 10))
OPTIONS = (
    Option("--axis", "what changes; load where nothing is said", Word("AXIS", Kind.CHOICE, "", choices=tuple(AXES)), "load"),
    Option("--values", f"the values of the axis, with commas between them; {LOADS} where nothing is said", Word("VALUES", Kind.TEXT, ""), LOADS),
    number("--sets", "how many sets are drawn for each value", 100),
    number("--seed", "the number from which draws are made", 1),
    Option("--words", "the words that are asked, with commas between them; all where nothing is said", Word("WORDS", Kind.TEXT, "")),
    Option("--load", "the load of each processor; 0.5 where nothing is said", Word("LOAD", Kind.TEXT, ""), "0.5"),
    number("--tasks", "how many tasks", 8),
    number("--processors", "how many processors", 4),
    number("--resources", "how many resources", 4),
    Option("--access", "the probability with which a task requests a resource; 0.5 where nothing is said", Word("P", Kind.TEXT, ""), "0.5"),
    number("--requests", "the most requests of a resource by one job", 2),
    number("--shortest-length", "the shortest request in ticks", 50),
    number("--longest-length", "the longest request in ticks", 500),
    number("--shortest-period", "the shortest period in ticks", 10_000),
    number("--longest-period", "the longest period in ticks", 100_000),
    Option("--periods", "log-uniform or uniform; log-uniform where nothing is said", Word("HOW", Kind.CHOICE, "", choices=tuple(PERIODS)), "log-uniform"),
    Option("--part", "which part of the sets is done here, as 2/8; all where nothing is said", Word("K/N", Kind.TEXT, ""), "1/1"),
    Option("--jobs", "how many analyses run at once", Word("N", Kind.NUMBER, "", least=1), os.cpu_count() or 1),
)
COMMANDS = (
    Command("experiment run", (Word("OUT", Kind.OUTPUT, "the file that gets a line for each set and word"),), "draws sets and asks which are shown, under each word", RUN, run, OPTIONS),
    Command("experiment show", (Word("OUT", Kind.CSV, "the file of an experiment"),), "the curves of an experiment", SHOW, show, (JSON, CSV, PICTURE), asks=False),
)
