#!/usr/bin/env python3
"""Shows how often `settle` answers where `analyse` and `refute` don't, and what it costs in time and memory.

    python3 bench/settle.py [--parts time,wide,answers] [--seed N] [--sets N] [--tasks N] [--words WORD,..] [--limit SECONDS] [--program FILE]

Sets are drawn as the literature has them: a processor for each four tasks, periods of 10 to 100 ms of which the logarithms are uniform, loads
dealt to the tasks of a processor by UUniFast. A tick is a microsecond or a nanosecond, and no number is round. There are three parts:

    time     `settle` beside `analyse`, on sets with ticks of a microsecond of which `analyse` says schedulable. Aim: at most 1.1 times its time.
             Sets that aren't shown stand in a line of their own, beside `analyse` and `refute` together: `settle` writes the refusal
    wide     `settle` on sets of 64 tasks with 256 entries of requests and ticks of a nanosecond, on which `analyse` is wide: seconds on one
             processor (aim: under 20) and memory (aim: under 256 MiB). Beside it the rounds of the same set by GLPK in floats, whose
             solving alone counts (package libglpk-dev, and `cc`), and by QSopt_ex in exact fractions, a process for each program
             (package qsopt-ex). Each is left out with a line where it isn't installed, and given up after --limit seconds
    answers  how often `analyse`, `refute` and `settle` say what is so, under each word, for ticks of a microsecond and of a nanosecond. In light
             sets each cost holds all requests of its task. In heavy ones a task requests four resources, and many costs don't

Times are of the processor, not of the clock, and each process stays on one processor. A certificate that `settle` writes is judged by `check`,
and a refusal by `confirm`: the script ends with status 70 where one isn't accepted, or where `settle` writes other bytes than `analyse`. It
is no other test: no gate runs it, and it bounds nothing.
"""
import argparse
import collections
import itertools
import json
import os
import subprocess
import time
from dataclasses import dataclass
from pathlib import Path

from commands import BUILT, built
from cizborg.blocking_programs import TaskSet
from cizborg.entry import end_with
from cizborg.generating import Parameters, log_uniform, set_of, uunifast
from cizborg.program import folder_of_calls
from cizborg.protocols import PROTOCOLS
from cizborg.statuses import Status, Stop
from generated_sets import assembled, seeded
from other_solvers import Distinct, alone_in, bounds_by, exact_in

TASKS_EACH = 4
MICROSECOND, NANOSECOND = 1, 1000
TICKS = {"1 us": MICROSECOND, "1 ns": NANOSECOND}
CALLS = 5
LOADS = (0.1, 0.4)
MOST_TASKS = 64
# so many sets are drawn at most to find a wide one
MOST_DRAWN = 50
MOST_BYTES = 67_108_864
ENDS = {Status.DONE: "schedulable", Status.NO: "not shown", Status.WIDE: "wide", Status.ALLOWANCE: "allowance"}
WORDS = tuple(word for word in PROTOCOLS if not word.endswith("-c"))


@dataclass(frozen=True)
class Ran:
    """How a call ended: its status, its text, the seconds of processor time, and the most memory in MiB."""

    status: int
    text: str
    seconds: float
    memory: float

    def is_answer(self):
        return self.status in (Status.DONE, Status.NO)


class Gone(Exception):
    """The other solver took longer than it may."""


class Program:
    """The program in a folder that has one set."""

    def __init__(self, program, folder):
        self.program, self.folder = program, Path(folder)

    def put(self, parts):
        (self.folder / "set").write_text(json.dumps(parts))

    def run(self, command, word, *more):
        """A call on the set, on one processor."""
        words = [self.program, command, word, "set", *more]
        with (self.folder / "answer").open("w+") as out:
            with subprocess.Popen(words, cwd=self.folder, stdin=subprocess.DEVNULL, stdout=out, preexec_fn=stay_here) as process:
                memory = most_memory(process.pid)
                _, status, used = os.wait4(process.pid, 0)
                process.returncode = os.waitstatus_to_exitcode(status)
            out.seek(0)
            return Ran(process.returncode, out.read(), used.ru_utime + used.ru_stime, memory)

    def least(self, command, word):
        """The call with the least time of a few."""
        return min((self.run(command, word) for _ in range(CALLS)), key=lambda ran: ran.seconds)

    def settled(self, word):
        """What `settle` says, which `check` or `confirm` has to accept."""
        ran = self.run("settle", word)
        if ran.is_answer() and len(ran.text) <= MOST_BYTES:
            command, says = ("check", "valid\n") if ran.status == Status.DONE else ("confirm", "confirmed\n")
            (self.folder / "cert").write_text(ran.text)
            judged = self.run(command, word, "cert")
            if judged.text != says:
                raise Stop(f"{command} {word} answers {judged.text.strip()} to what settle wrote", Status.LACKING)
        return ran


def most_memory(process):
    """The most memory in MiB that a process was seen to have until it ended. What the system tells of an ended process counts this script too."""
    most = 0
    while os.waitid(os.P_PID, process, os.WEXITED | os.WNOWAIT | os.WNOHANG) is None:
        lines = Path(f"/proc/{process}/status").read_text().splitlines()
        most = max([most, *(int(line.split()[1]) for line in lines if line.startswith("VmHWM"))])
        time.sleep(0.005)
    return most / 1024


def stay_here():
    """Keeps a process on one of the processors that it may have."""
    os.sched_setaffinity(0, {min(os.sched_getaffinity(0))})


def light(tasks, tick, draw):
    """A set of so many tasks, with so many ticks in a microsecond. Each cost holds all requests."""
    processors = max(2, tasks // TASKS_EACH)
    resources = min(2 * processors, 32)
    parameters = Parameters(
        load=draw.uniform(*LOADS), tasks=tasks, processors=processors, resources=resources, access=2.5 / resources, requests=3, shortest_length=1 * tick,
        longest_length=100 * tick, shortest_period=10_000 * tick, longest_period=100_000 * tick, periods="log-uniform",
    )
    return set_of(parameters, draw)


def heavy(tasks, tick, draw):
    """A set of so many tasks, with so many ticks in a microsecond. Each task requests four resources, and many costs don't hold all requests at once,
    as where a job takes one of several paths."""
    processors = max(2, tasks // TASKS_EACH)
    resources = min(2 * processors, 32)
    homes, load, made = [draw.randint(1, processors) for _ in range(resources)], draw.uniform(*LOADS), []
    for processor in range(1, processors + 1):
        for share_of_task in uunifast(tasks // processors, load, draw):
            period = log_uniform(10_000 * tick, 100_000 * tick, draw)
            requests = [(q, draw.randint(1, 3), draw.randint(tick, 100 * tick)) for q in draw.sample(range(resources), 4)]
            longest = max(length for _, _, length in requests)
            made.append((processor, period, max(round(share_of_task * period), longest + 1), requests))
    return assembled(processors, homes, made)


KINDS = {"light": light, "heavy": heavy}


def share(part, whole):
    return f"{part / whole:.2f}" if whole else "-"


def time_lines(program, given, draw):
    """The first part: what `settle` costs where `analyse` has an answer."""
    found = {Status.DONE: [], Status.NO: []}
    sets = [drawn(given.tasks, MICROSECOND, draw) for drawn in KINDS.values() for _ in range(given.sets)]
    for parts, word in itertools.product(sets, given.words):
        program.put(parts)
        analysed, settled = program.least("analyse", word), program.least("settle", word)
        if analysed.status == Status.DONE and settled.text != analysed.text:
            raise Stop(f"settle {word} writes other bytes than analyse", Status.LACKING)
        if analysed.is_answer():
            refuting = program.least("refute", word).seconds if analysed.status == Status.NO else 0.0
            found[analysed.status].append((settled.seconds, analysed.seconds, refuting))
    for status, named in ((Status.DONE, "schedulable"), (Status.NO, "not shown")):
        own, other, refuting = (sum(one[k] for one in found[status]) for k in range(3))
        beside = f"analyse {other:.2f} s, {share(own, other)} times" if status == Status.DONE else f"analyse and refute {other + refuting:.2f} s, {share(own, other + refuting)} times"
        yield f"time: {len(found[status])} analyses {named}: settle {own:.2f} s, {beside}"


class Limited:
    """Another solver, which is given up after so many seconds by the clock."""

    def __init__(self, solver, seconds):
        self.solver, self.end = solver, time.monotonic() + seconds

    def solved(self, costs, rows):
        if time.monotonic() > self.end:
            raise Gone
        return self.solver.solved(costs, rows)


def beside(name, solver, parts, word, settled, limit):
    """What is said of another solver's rounds of the same set."""
    s = TaskSet(parts)
    distinct = Distinct(Limited(solver, limit), s, word)
    try:
        bounds = bounds_by(distinct.blocking, s, word)
    except Gone:
        return f"{name} more than {limit} s ({len(distinct.answers)} programs in {distinct.seconds():.2f} s)"
    least = json.loads(settled.text)["bounds"] if settled.status == Status.DONE else None
    same = "nothing to compare" if not settled.is_answer() else "the same answer" if bounds == least else "ANOTHER ANSWER"
    return f"{name} {distinct.seconds():.2f} s for {len(distinct.answers)} programs, {same}"


def wide_set(program, word, draw):
    """A set at the limits on which `analyse` is wide, or None, and how many were drawn."""
    for number in range(1, MOST_DRAWN + 1):
        parts = heavy(MOST_TASKS, NANOSECOND, draw)
        program.put(parts)
        if program.run("analyse", word).status == Status.WIDE:
            return parts, number
    return None, MOST_DRAWN


def wide_lines_of(program, given, word, solvers, draw):
    """The lines of wide sets under a word."""
    for _ in range(given.sets):
        parts, count = wide_set(program, word, draw)
        if parts is None:
            yield f"wide: {word}: none of {count} sets"
            return
        ran = program.settled(word)
        others = [beside(name, solver, parts, word, ran, given.limit) for name, solver in solvers.items() if solver]
        yield "; ".join([f"wide: {word}, set {count} of those drawn: {ENDS.get(ran.status, ran.status)}, {ran.seconds:.2f} s, {ran.memory:.0f} MiB", *others])


def wide_lines(program, given, draw):
    """The second part: wide sets at the limits."""
    solvers = {"GLPK in floats": alone_in(program.folder), "QSopt_ex": exact_in(program.folder)}
    for word in given.words:
        yield from wide_lines_of(program, given, word, solvers, draw)
    if solvers["GLPK in floats"]:
        solvers["GLPK in floats"].end()


def answers_of(program, sets, word):
    """How many of these sets each command answers under a word, and what `settle` says of them."""
    counts = collections.Counter()
    for parts in sets:
        program.put(parts)
        settled = program.settled(word)
        counts["analyse"] += program.run("analyse", word).is_answer()
        counts["refute"] += program.run("refute", word).is_answer()
        counts["settle"] += settled.is_answer()
        counts["schedulable"] += settled.status == Status.DONE
        counts["not shown"] += settled.status == Status.NO
    return counts


def answer_lines(program, given, draw):
    """The third part: how often each command says what is so."""
    for (kind, drawn), (name, tick) in itertools.product(KINDS.items(), TICKS.items()):
        sets = [drawn(given.tasks, tick, draw) for _ in range(given.sets)]
        for word in given.words:
            counts = answers_of(program, sets, word)
            said = ", ".join(f"{command} {counts[command]}" for command in ("analyse", "refute", "settle"))
            yield f"answers: {kind} sets, tick {name}, {word}: of {len(sets)} {said}; {counts['schedulable']} schedulable, {counts['not shown']} not shown"


PARTS = {"time": time_lines, "wide": wide_lines, "answers": answer_lines}


def listed(text, known, what):
    """The words of a list with commas."""
    words = text.split(",") if text else list(known)
    if not set(words) <= set(known):
        raise Stop(f"{what} are {', '.join(known)}", Status.WORDS)
    return words


def main():
    words = argparse.ArgumentParser(description=__doc__, formatter_class=argparse.RawDescriptionHelpFormatter)
    words.add_argument("--parts", default="")
    words.add_argument("--seed", type=int, default=1)
    words.add_argument("--sets", type=int, default=2, help="how many sets of each kind")
    words.add_argument("--tasks", type=int, default=32, help="how many tasks the sets of time and answers have")
    words.add_argument("--words", default="", help="the words for protocols; the plain analyses where none are given")
    words.add_argument("--limit", type=float, default=60, help="after so many seconds another solver is given up")
    words.add_argument("--program", metavar="FILE", default=BUILT)
    given = words.parse_args()
    given.words = listed(given.words, tuple(PROTOCOLS), "words") if given.words else list(WORDS)
    parts = listed(given.parts, PARTS, "parts")
    with folder_of_calls() as folder:
        program = Program(built(given.program), folder)
        for part in parts:
            for line in PARTS[part](program, given, seeded(f"{given.seed} {part}")):
                print(line, flush=True)
    return Status.DONE


end_with("settle.py", main)
