#!/usr/bin/env python3
"""Shows by how much closer analyses lower the bounds of drawn sets, how many more sets they show, and what they cost in time.

    python3 bench/closer.py [--seed N] [--sets N] [--jobs N] [--load LEAST MOST] [--words WORD,..] [--bounds-alone] [--program FILE] [PROCESSORS..]

Sets are drawn as the literature has them: 4, 8 and 16 processors, or as many as PROCESSORS says, with four tasks each; periods of 10 to 100
ms in microseconds, with equal weight of their logarithms; the load of each processor between 0.2 and 0.7, dealt to its tasks by UUniFast;
twice as many resources as processors, of which a task requests two or three. Lengths are of 1 to 15, 1 to 100 or 5 to 1280 us. In a fourth
family, of 1 to 100 us, half of the resources are used on one processor alone. --sets says how many sets of each family each number of
processors gets.

Each set is analysed under each word that is a closer analysis, and under the plain word of the same rules. A line of the table is about a
closer word and a family:

    plain, closer   how many sets are shown by the plain word and by the closer one; what follows is about the sets that both show
    lower           how many bounds are lower, in percent
    middle, most    by how much of the bound, in the middle of those that are lower and at most
    blocking        by how much all blocking together falls at the plain word's bounds. The closer word's is what the multipliers of its
                    certificate are worth there, so it falls by no less than that. With --bounds-alone it is left out: that takes most
                    of the script's time
    time            processor time of the closer analyses over that of the plain ones, of the sets with the most tasks

The script ends with status 70 where a bound is greater under a closer word, or a set is shown by the plain word alone, which is proved never
to be. It is no other test: no gate runs it, and it bounds nothing.
"""
import argparse
import concurrent.futures
import json
import os
import statistics
import subprocess
from dataclasses import dataclass
from pathlib import Path

from commands import BUILT, built
from cizborg.blocking_programs import Shape, TaskSet
from cizborg.entry import end_with
from cizborg.generating import Parameters, set_of
from cizborg.program import folder_of_calls
from cizborg.protocols import PROTOCOLS
from cizborg.statuses import Status, Stop
from generated_sets import seeded

PROCESSORS = (4, 8, 16)
TASKS_EACH = 4
# how many resources a task requests, on average
RESOURCES_OF_TASK = 2.5
# of each family its shortest and its longest request in microseconds, and whether half of the resources are used on one processor alone
FAMILIES = {"1-15": (1, 15, False), "1-100": (1, 100, False), "5-1280": (5, 1280, False), "1-100, half local": (1, 100, True)}
HEADER = f"{'word':8} {'lengths':18} {'sets':>5} {'plain':>6} {'closer':>6} {'lower':>7} {'middle':>7} {'most':>7} {'blocking':>8} {'time':>5}"


@dataclass(frozen=True)
class Analysed:
    """The status of an analysis, its certificate or None, and the seconds of processor time that it took."""

    status: int
    certificate: object
    seconds: float


@dataclass(frozen=True)
class Compared:
    """A set under a plain word and a closer one: the bounds and all blocking under each where both show it."""

    tasks: int
    plain: Analysed
    closer: Analysed
    blocking: tuple

    def is_shown_twice(self):
        return self.plain.status == self.closer.status == Status.DONE


def made_local(parts):
    """The set with each request of a resource of even number sent to the one of its task's processor. A task that has two of these keeps the
    first."""
    for task in parts["tasks"]:
        kept = {}
        for request in task.get("requests", []):
            is_local = int(request["resource"][1:]) % 2 == 0
            name = f"q{2 * task['processor']}" if is_local else request["resource"]
            kept.setdefault(name, {**request, "resource": name})
        if kept:
            task["requests"] = list(kept.values())
    return parts


def drawn(processors, family, loads, draw):
    """A set of the family."""
    shortest, longest, is_local = FAMILIES[family]
    resources = min(2 * processors, 32)
    parameters = Parameters(
        load=draw.uniform(*loads),
        tasks=TASKS_EACH * processors,
        processors=processors,
        resources=resources,
        access=RESOURCES_OF_TASK / resources,
        requests=3,
        shortest_length=shortest,
        longest_length=longest,
        shortest_period=10_000,
        longest_period=100_000,
        periods="log-uniform",
    )
    parts = set_of(parameters, draw)
    return made_local(parts) if is_local else parts


def analysed(program, word, path):
    """The set's analysis. Processor time counts, which other work on the machine changes least."""
    with subprocess.Popen([program, "analyse", word, path], stdin=subprocess.DEVNULL, stdout=subprocess.PIPE, text=True) as process:
        text = process.stdout.read()
        _, status, used = os.wait4(process.pid, 0)
        process.returncode = os.waitstatus_to_exitcode(status)
    if process.returncode not in (Status.DONE, Status.NO):
        raise Stop(f"analyse {word} ended with status {process.returncode}: {text.strip()}", Status.LACKING)
    certificate = json.loads(text) if process.returncode == Status.DONE else None
    return Analysed(process.returncode, certificate, used.ru_utime + used.ru_stime)


def own_blocking(s, word, bounds):
    """All blocking together at the bounds that the word's analysis ends with: what cost and interference leave of them."""
    return sum(bounds) - sum(s.cost) - sum(s.interference(word, bounds, i) for i in range(s.n))


def blocking_at(s, word, certificate, bounds):
    """What the certificate's multipliers say that all blocking together is at other bounds."""
    if certificate["bounds"] == bounds:
        return own_blocking(s, word, bounds)
    whole = 0
    for i, dual in enumerate(certificate["duals"]):
        limits = Shape(s, word, i).limits(bounds)
        whole += sum(number * limit for number, limit in zip(dual["num"], limits)) // dual["den"]
    return whole


def compared(parts, word, plain, closer, is_with_blocking):
    """The set under the word and under the plain word of its rules. The script stops where the plain one says more."""
    if plain.status == Status.DONE != closer.status:
        raise Stop(f"{word} doesn't show a set that the plain word shows", Status.LACKING)
    if not plain.certificate:
        return Compared(len(parts["tasks"]), plain, closer, (0, 0))
    bounds = plain.certificate["bounds"]
    if any(less > bound for less, bound in zip(closer.certificate["bounds"], bounds)):
        raise Stop(f"a bound is greater under {word}", Status.LACKING)
    s = TaskSet(parts)
    if not is_with_blocking:
        return Compared(s.n, plain, closer, (0, 0))
    return Compared(s.n, plain, closer, (own_blocking(s, PROTOCOLS[word].rules, bounds), blocking_at(s, word, closer.certificate, bounds)))


def compared_words(program, path, parts, words, is_with_blocking):
    """The set under each of these closer words."""
    path.write_text(json.dumps(parts))
    asked = dict.fromkeys(w for word in words for w in (PROTOCOLS[word].rules, word))
    answers = {word: analysed(program, word, path) for word in asked}
    return {word: compared(parts, word, answers[PROTOCOLS[word].rules], answers[word], is_with_blocking) for word in words}


def percent(part, whole):
    return f"{100 * part / whole:.1f} %" if whole else "-"


def line_of(word, family, sets):
    """The line of a word and a family."""
    twice = [one for one in sets if one.is_shown_twice()]
    pairs = [pair for one in twice for pair in zip(one.plain.certificate["bounds"], one.closer.certificate["bounds"])]
    falls = [(bound - less) / bound for bound, less in pairs if less < bound]
    before, after = (sum(one.blocking[k] for one in twice) for k in (0, 1))
    most = max(one.tasks for one in sets)
    spent, other = (sum(getattr(one, name).seconds for one in twice if one.tasks == most) for name in ("closer", "plain"))
    shown = [sum(getattr(one, name).status == Status.DONE for one in sets) for name in ("plain", "closer")]
    middle, most_fallen = (percent(number(falls), 1) if falls else "-" for number in (statistics.median, max))
    time = f"{spent / other:.2f}" if other else "-"
    return (
        f"{word:8} {family:18} {len(sets):5} {shown[0]:6} {shown[1]:6} {percent(len(falls), len(pairs)):>7} {middle:>7} {most_fallen:>7} "
        f"{percent(before - after, before):>8} {time:>5}"
    )


def closer_words(text):
    """The words that are given, or all that are closer analyses."""
    every = [word for word, protocol in PROTOCOLS.items() if protocol.is_closer()]
    words = text.split(",") if text else every
    if not set(words) <= set(every):
        raise Stop(f"the closer words are {', '.join(every)}", Status.WORDS)
    return words


def main():
    words = argparse.ArgumentParser(description=__doc__, formatter_class=argparse.RawDescriptionHelpFormatter)
    words.add_argument("processors", metavar="PROCESSORS", type=int, nargs="*", default=PROCESSORS)
    words.add_argument("--seed", type=int, default=1)
    words.add_argument("--sets", type=int, default=20, help="how many sets of each family and number of processors")
    words.add_argument("--jobs", type=int, default=1, help="how many sets are analysed at a time")
    words.add_argument("--load", metavar=("LEAST", "MOST"), type=float, nargs=2, default=(0.2, 0.7))
    words.add_argument("--words", default="")
    words.add_argument("--bounds-alone", action="store_true")
    words.add_argument("--program", metavar="FILE", default=BUILT)
    given = words.parse_args()
    program, draw, asked = built(given.program), seeded(given.seed), closer_words(given.words)
    print(HEADER, flush=True)
    with folder_of_calls() as folder, concurrent.futures.ThreadPoolExecutor(given.jobs) as pool:
        for family in FAMILIES:
            sets = [drawn(processors, family, given.load, draw) for processors in given.processors for _ in range(given.sets)]
            paths = [Path(folder) / f"{number}.json" for number in range(len(sets))]
            found = list(pool.map(lambda path, parts: compared_words(program, path, parts, asked, not given.bounds_alone), paths, sets))
            for word in asked:
                print(line_of(word, family, [one[word] for one in found]), flush=True)
    return Status.DONE


end_with("closer.py", main)
