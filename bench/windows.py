#!/usr/bin/env python3
"""Shows by how much windows of requests lower the bounds of DPCP on generated sets, and what they cost in time.

    python3 bench/windows.py [--seed N] [--sets N] [--program FILE] [SIZE..]

The sets have 8, 16, 32 and 64 tasks, or as many as SIZE says, and are made from a seed. Each is analysed under `dpcp` and `dpcp-w`. A
line for each size says how many sets are schedulable under the one and the other; of the bounds of sets that are schedulable under
both, how many are lower with windows, and by how much of the bound, in the middle and at most; and the seconds that all analyses took.
The script ends with status 70 where a bound is greater with windows, which is proved never to be. It is no other test: no gate runs it,
and it bounds nothing.
"""
import argparse
import json
import statistics
import time
from dataclasses import dataclass
from pathlib import Path

from commands import BUILT
from cizborg.entry import end_with
from cizborg.program import Block, folder_of_calls
from cizborg.statuses import Status, Stop
from generated_sets import generated, seeded

SIZES = (8, 16, 32, 64)


@dataclass(frozen=True)
class Analysed:
    """The status of an analysis, the bounds or None where it has none, and the seconds that it took."""

    status: int
    bounds: object
    seconds: float


def analysed(block, parts):
    begun = time.perf_counter()
    answer = block.analysed(parts)
    seconds = time.perf_counter() - begun
    return Analysed(answer.status, json.loads(answer.text)["bounds"] if answer.status == Status.DONE else None, seconds)


def falls_of(pairs):
    """By which share each bound falls, of the sets that have bounds under both."""
    both = [(plain.bounds, windows.bounds) for plain, windows in pairs if plain.bounds and windows.bounds]
    falls = [(bound - less) / bound for bounds, lesser in both for bound, less in zip(bounds, lesser)]
    if min(falls, default=0) < 0 or any((plain.status, windows.status) == (Status.DONE, Status.NO) for plain, windows in pairs):
        raise Stop("a bound is greater with windows, or is there without them alone", Status.LACKING)
    return falls


def line_of(size, pairs):
    falls = falls_of(pairs)
    fallen = [fall for fall in falls if fall > 0]
    shown = [sum(one.bounds is not None for one in column) for column in zip(*pairs)]
    seconds = [sum(one.seconds for one in column) for column in zip(*pairs)]
    by = f", by {100 * statistics.median(fallen):.2f} % in the middle and {100 * max(fallen):.2f} % at most" if fallen else ""
    return (
        f"{size} tasks: {len(pairs)} sets; schedulable dpcp {shown[0]}, dpcp-w {shown[1]}; "
        f"{len(fallen)} of {len(falls)} bounds are lower{by}; dpcp {seconds[0]:.2f} s, dpcp-w {seconds[1]:.2f} s"
    )


def main():
    words = argparse.ArgumentParser(description=__doc__, formatter_class=argparse.RawDescriptionHelpFormatter)
    words.add_argument("sizes", metavar="SIZE", type=int, nargs="*", default=SIZES)
    words.add_argument("--seed", type=int, default=1)
    words.add_argument("--sets", type=int, default=20, help="how many sets of each size")
    words.add_argument("--program", metavar="FILE", type=Path, default=BUILT)
    given = words.parse_args()
    draw = seeded(given.seed)
    with folder_of_calls() as folder:
        blocks = [Block(given.program, protocol, folder) for protocol in ("dpcp", "dpcp-w")]
        for size in given.sizes:
            sets = [generated(size, draw) for _ in range(given.sets)]
            print(line_of(size, [tuple(analysed(block, parts) for block in blocks) for parts in sets]), flush=True)
    return Status.DONE


end_with("windows.py", main)
