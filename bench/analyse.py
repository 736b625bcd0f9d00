#!/usr/bin/env python3
"""Times `analyse` and `check` beside GLPK, and prints the ratios.

    python3 bench/analyse.py [SEED] [SIZE..]

Two comparisons, each left out with a word where what it wants is missing:
    alone   GLPK's solving alone: the distinct programs of an analysis, each solved in floating point by glp_simplex, all in one process
            (bench/glpk_time.c, which `cc` compiles with the package libglpk-dev). Forming, writing and reading programs isn't timed, and
            of each program the shortest of three solutions counts. So `analyse` as a whole, which forms its programs and solves them in
            exact fractions, stands beside nothing but the solving of the same programs in floats.
    usual   the usual way: `glpsol` of the package glpk-utils, one process for each program, in floating point and with --exact. Of each
            call the time of the same call with --check, which starts, reads the file and solves nothing, is told apart.
Both form the programs in Python (tools/cizborg/blocking_programs.py), and take the rounds of docs/ANALYSIS.md, as `analyse` does. Their bounds
must be those of the analysis; else the line says OTHER BOUNDS.

Times of `analyse` and `check` are those of processes, the least of a few calls; the time of a call that answers `refused words` is taken
off. `analyse` may start threads, so the time of all processors stands beside that of the clock. Sets: examples/plant.json, and two sets
each of 8, 16, 32 and 64 tasks, or of as many as SIZE says, with resources, made from SEED (1 where none is given), each under each
protocol. Units are the least allowance with which the answer is the same; where an analysis takes more than a tenth of a second they
aren't looked for. The program is the one that ./block builds. It is no test: no gate runs it, and it bounds nothing.
"""
import json
import resource
import shutil
import subprocess
import sys
import tempfile
import time
from dataclasses import dataclass
from pathlib import Path

from commands import TOP
from cizborg.blocking_programs import TaskSet, as_lp, program_of
from cizborg.protocols import WORDS as PROTOCOLS
from generated_sets import generated, seeded
from other_solvers import Distinct, alone_in, bounds_by, whole

PROGRAM = TOP / "crates" / "block_cli" / "out" / "block_cli"
SIZES = (8, 16, 32, 64)
SETS = 2
CALLS = 5
SECONDS = 5
DONE, NOT_SHOWN, WIDE = 0, 1, 5


@dataclass(frozen=True)
class Timed:
    """The least seconds of a few calls by the clock, and of all processors; the status of the calls, and what they write."""

    clock: float
    processors: float
    status: int
    text: str

    def without(self, start):
        """The seconds without those of a program's start."""
        return max(self.clock - start.clock, 1e-5), max(self.processors - start.processors, 1e-5)


def processors_so_far():
    used = resource.getrusage(resource.RUSAGE_CHILDREN)
    return used.ru_utime + used.ru_stime


def timed(command, where, calls):
    """A command, called a few times, fewer where that takes long."""
    clock, processors = [], []
    while len(clock) < calls and sum(clock) < SECONDS:
        before, begun = processors_so_far(), time.perf_counter()
        done = subprocess.run(command, cwd=where, capture_output=True, text=True)
        clock.append(time.perf_counter() - begun)
        processors.append(processors_so_far() - before)
    return Timed(min(clock), min(processors), done.returncode, done.stdout)


def units_of(protocol, where, status):
    """The least allowance with which the analysis ends as it does."""
    low, high = 1, 1_000_000
    while low < high:
        middle = (low + high) // 2
        done = subprocess.run([PROGRAM, "analyse", protocol, "set", str(middle)], cwd=where, capture_output=True)
        low, high = (low, middle) if done.returncode == status else (middle + 1, high)
    return low


class Usual:
    """The usual way: what its calls took, by what they did."""

    def __init__(self, s, protocol, where, exact):
        self.s, self.protocol, self.where = s, protocol, where
        self.flags = ["--exact"] if exact else []
        self.forming = self.reading = self.solving = 0.0

    def blocking(self, i, bounds):
        begun = time.perf_counter()
        costs, rows = program_of(self.s, self.protocol, i, bounds)
        (self.where / "program.lp").write_text(as_lp(costs, rows))
        self.forming += time.perf_counter() - begun
        if not costs:
            return 0
        read = timed(["glpsol", "--lp", "program.lp", "--check"], self.where, 1).clock
        took = timed(["glpsol", "--lp", "program.lp", *self.flags, "-w", "solution"], self.where, 1).clock
        self.reading += min(read, took)
        self.solving += max(0.0, took - read)
        for line in (self.where / "solution").read_text().splitlines():
            if line.startswith("s bas"):
                return whole(float(line.split()[-1]))
        return None


def milliseconds(seconds):
    return f"{seconds * 1000:.2f}" if seconds < 0.01 else f"{seconds * 1000:.1f}"


def word_on(bounds, analysis):
    """A word where the bounds aren't those of the analysis."""
    known = {DONE: lambda: json.loads(analysis.text)["bounds"], NOT_SHOWN: lambda: None}
    return [] if analysis.status not in known or bounds == known[analysis.status]() else ["OTHER BOUNDS"]


def beside_alone(alone, s, protocol, analysis, own):
    """What is said of GLPK's solving alone, and its seconds."""
    distinct = Distinct(alone, s, protocol)
    bounds = bounds_by(distinct.blocking, s, protocol)
    took = max(distinct.seconds(), 1e-9)
    words = f"GLPK solves its {len(distinct.answers)} distinct programs alone, in floats, in {milliseconds(took)} ms"
    if not distinct.answers:
        return ["no program to solve"], 0.0
    return [f"{words}: analyse takes {own / took:.2f} times that", *word_on(bounds, analysis)], took


def beside_usual(s, protocol, where, analysis, own):
    """What is said of the usual way, in floating point and exact."""
    for exact in (False, True):
        usual = Usual(s, protocol, where, exact)
        bounds = bounds_by(usual.blocking, s, protocol)
        everything = usual.forming + usual.reading + usual.solving
        yield (f"glpsol {'exact' if exact else 'in floats'}: forming {milliseconds(usual.forming)}, starting and reading "
               f"{milliseconds(usual.reading)}, solving {milliseconds(usual.solving)} ms, in all {everything / own:.1f} times analyse, "
               f"solving alone {usual.solving / own:.1f} times")
        yield from word_on(bounds, analysis)


@dataclass(frozen=True)
class Measured:
    """How an analysis ended, and its seconds beside those of GLPK's solving alone, which are 0 where it wasn't asked."""

    status: int
    own: float
    alone: float


def measured(name, parts, protocol, where, start, alone):
    """One set under one protocol: its line, which is printed."""
    (where / "set").write_text(json.dumps(parts))
    analysis = timed([PROGRAM, "analyse", protocol, "set"], where, CALLS)
    own, processors = analysis.without(start)
    units = units_of(protocol, where, analysis.status) if own < 0.1 else "not looked for"
    line = [name, protocol, f"status {analysis.status}", f"units {units}",
            f"analyse {milliseconds(own)} ms ({milliseconds(processors)} ms of all processors)"]
    if analysis.status == DONE:
        (where / "cert").write_text(analysis.text)
        check = timed([PROGRAM, "check", protocol, "set", "cert"], where, CALLS)
        took, _ = check.without(start)
        line.append(f"check {milliseconds(took)} ms ({took / own:.2f} of analyse, status {check.status})")
    took, s = 0.0, TaskSet(parts)
    if alone:
        words, took = beside_alone(alone, s, protocol, analysis, own)
        line += words
    if shutil.which("glpsol"):
        line += beside_usual(s, protocol, where, analysis, own)
    print("; ".join(line), flush=True)
    return Measured(analysis.status, own, took)


def print_whole(found):
    """The last lines: how many ended wide, and all that ended with an answer beside GLPK's solving alone."""
    print(f"{sum(one.status == WIDE for one in found)} of {len(found)} ended wide")
    both = [one for one in found if one.alone and one.status in (DONE, NOT_SHOWN)]
    if both:
        own, alone = sum(one.own for one in both), sum(one.alone for one in both)
        ratios = sorted(one.own / one.alone for one in both)
        print(f"{len(both)} whole analyses that gave an answer took {milliseconds(own)} ms, and GLPK's solving alone of their distinct "
              f"programs {milliseconds(alone)} ms: {own / alone:.2f} times that in all, from {ratios[0]:.2f} to {ratios[-1]:.2f} times, "
              f"{ratios[len(ratios) // 2]:.2f} in the middle")


def main():
    seed, *sizes = [int(word) for word in sys.argv[1:]] or [1]
    if not PROGRAM.exists():
        sys.exit("build the program first: ./block analyse fmlp+ examples/plant.json")
    if not shutil.which("glpsol"):
        print("glpsol is not installed (package glpk-utils): the usual way is left out")
    sets = [("plant", json.loads((TOP / "examples" / "plant.json").read_text()))]
    draw = seeded(seed)
    sets += [(f"{n} tasks, set {k + 1}", generated(n, draw)) for n in sizes or SIZES for k in range(SETS)]
    with tempfile.TemporaryDirectory() as folder:
        where = Path(folder)
        alone = alone_in(where)
        start = timed([PROGRAM], where, 20)
        print(f"seed {seed}; the program's start is {milliseconds(start.clock)} ms and is taken off below")
        print_whole([measured(name, parts, protocol, where, start, alone) for name, parts in sets for protocol in PROTOCOLS])
        if alone:
            alone.end()


main()
