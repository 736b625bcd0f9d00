"""Experiments: which share of drawn sets is shown, along an axis and under each word."""
from __future__ import annotations

import dataclasses
import json
import random
from concurrent.futures import ThreadPoolExecutor
from dataclasses import dataclass
from typing import Iterator, Mapping, Sequence, TextIO

from .files import read_text
from .generating import Parameters, Value, set_of
from .program import Block, Parts
from .progress import Progress
from .statuses import UNKNOWN, Status, Stop

HEADER = "value,set,word,status"
# which parameter each axis changes; values of those that are in SHARES have a decimal point
AXES = {"load": "load", "tasks": "tasks", "processors": "processors", "resources": "resources", "access": "access", "requests": "requests", "length": "longest_length"}
SHARES = ("load", "access")


@dataclass(frozen=True)
class Experiment:
    """What is drawn and asked: the parameters, the axis with its values, how many sets for each value, the seed, and the words."""

    parameters: Parameters
    axis: str
    values: tuple[str, ...]
    sets: int
    seed: int
    words: tuple[str, ...]

    def at(self, value: str) -> Parameters:
        """The parameters at a value of the axis. A length that is shorter than the shortest is the shortest too."""
        changed: Mapping[str, Value] = {AXES[self.axis]: float(value) if self.axis in SHARES else int(value)}
        if self.axis == "length":
            changed = {**changed, "shortest_length": min(self.parameters.shortest_length, int(value))}
        return dataclasses.replace(self.parameters, **changed)

    def head(self) -> str:
        """The first lines of its file: what was asked, so that a file goes on with the same alone."""
        return f"# {json.dumps(dataclasses.asdict(self))}\n{HEADER}\n"

    def drawn(self, value: str, number: int) -> Parts:
        """A set of a value, by its number. It is the same whichever else are drawn. Sets of one number are drawn alike at all values, so that a
        curve shows what the value does, and not other draws."""
        return set_of(self.at(value), random.Random(f"{self.seed} {number}"))


@dataclass(frozen=True)
class Line:
    """What the program answered to a set under a word."""

    value: str
    number: int
    word: str
    status: int


def lines_of(path: str) -> tuple[str, list[Line]]:
    """What a file says that was asked, and its lines. Files of parts on end are one file: they say the same. A last line that was cut is left out."""
    text = read_text(path)
    whole, _, _ = text.rpartition("\n")
    lines = whole.split("\n")
    heads = {line for line in lines if line.startswith("# ")}
    if len(heads) != 1 or HEADER not in lines:
        raise Stop(f"{path} is no file of one experiment: its parts differ in what was asked, or it has no header", Status.REFUSED)
    found = {}
    for line in lines:
        if line and line != HEADER and not line.startswith("# "):
            try:
                value, number, word, status = line.split(",")
                found[value, int(number), word] = int(status)
            except ValueError:
                raise Stop(f"{path} has a line that is none of an experiment: {line!r}", Status.REFUSED) from None
    return heads.pop(), [Line(*key, status) for key, status in found.items()]


def experiment_of(head: str, path: str) -> Experiment:
    """The experiment that a file says was asked."""
    try:
        value = json.loads(head[2:])
        made = Experiment(Parameters(**value["parameters"]), value["axis"], tuple(value["values"]), value["sets"], value["seed"], tuple(value["words"]))
        for each in made.values:
            made.at(each)
    except (ValueError, TypeError, KeyError) as error:
        raise Stop(f"{path} doesn't say what was asked: {error!r}", Status.REFUSED) from None
    return made


def answers(experiment: Experiment, blocks: Mapping[str, Block], value: str, number: int) -> list[Line]:
    """What the program answers to a set under each word."""
    parts = experiment.drawn(value, number)
    return [Line(value, number, word, blocks[word].analysed(parts).status) for word in experiment.words]


def lacking(experiment: Experiment, done: Sequence[Line], part: tuple[int, int]) -> list[tuple[str, int]]:
    """The sets of a part of the experiment that aren't done under all words: of so many parts the one of this number, from 1 on."""
    seen: dict[tuple[str, int], set[str]] = {}
    for line in done:
        seen.setdefault((line.value, line.number), set()).add(line.word)
    every = [(value, number) for number in range(experiment.sets) for value in experiment.values]
    return [one for place, one in enumerate(every) if place % part[1] == part[0] - 1 and seen.get(one, set()) < set(experiment.words)]


def run_to(file: TextIO, experiment: Experiment, wanted: Sequence[tuple[str, int]], blocks: Mapping[str, Block], at_once: int) -> None:
    """Asks for all wanted sets, and writes the lines of each as soon as it and those before it are done."""
    progress = Progress(len(wanted), "sets")
    with ThreadPoolExecutor(max_workers=at_once) as pool:
        try:
            for lines in pool.map(lambda one: answers(experiment, blocks, *one), wanted):
                file.write("".join(f"{line.value},{line.number},{line.word},{line.status}\n" for line in lines))
                file.flush()
                progress.step()
        except BaseException:
            pool.shutdown(cancel_futures=True)
            raise
        finally:
            progress.end()


@dataclass(frozen=True)
class Point:
    """Of the sets of a value under a word: how many are shown, how many aren't, of how many nothing is known, and how many were refused."""

    shown: int
    not_shown: int
    unknown: int
    refused: int

    def sets(self) -> int:
        """All of them."""
        return self.shown + self.not_shown + self.unknown + self.refused

    def share(self) -> float:
        """The share that is shown, of those that the program took."""
        taken = self.sets() - self.refused
        return self.shown / taken if taken else 0.0


def points_of(lines: Sequence[Line]) -> dict[tuple[str, str], Point]:
    """The points of the curves, by value and word; those that have a set."""
    statuses: dict[tuple[str, str], list[int]] = {}
    for line in lines:
        statuses.setdefault((line.value, line.word), []).append(line.status)
    return {key: point_of(found) for key, found in statuses.items()}


def point_of(statuses: Sequence[int]) -> Point:
    """The point of some statuses."""
    kinds: Sequence[Sequence[int]] = ((Status.DONE,), (Status.NO,), UNKNOWN, (Status.REFUSED,))
    return Point(*(sum(status in kind for status in statuses) for kind in kinds))


def in_order(experiment: Experiment, points: Mapping[tuple[str, str], Point]) -> Iterator[tuple[str, str, Point]]:
    """The points as they stand: by value, then by word."""
    for value in experiment.values:
        for word in experiment.words:
            if (value, word) in points:
                yield value, word, points[value, word]
