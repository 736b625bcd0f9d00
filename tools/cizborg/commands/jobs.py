"""Makes lists of jobs."""
from __future__ import annotations

import random
import sys
from typing import Mapping

from .. import files, jobs
from ..program import Block, Parts, asked, folder_of_calls, set_of
from ..progress import Progress
from ..statuses import Status, Stop
from ..table import OUTPUT, PROTOCOL, SET, Command, Given, Kind, Option, Word

ABOUT = """
Makes a list of the jobs that arrive in so many ticks, for `simulate` and `conform`. --kind says which:

  periodic  each task releases a job at tick 0 and at each period after that. A job executes one tick before each of its requests, takes
            each request that the task may make at its full length as far as the cost holds them, and executes what is left of the cost,
            or of the local limit, at its end
  offset    the same, but each task begins at a tick of its first period that is drawn
  random    jobs arrive a period or more apart, are released within the jitter, make some of their requests in some order, some shorter,
            and execute up to the cost
  worst     of --tries lists like those of `offset`, the first of which is synchronous, the one in which a task came nearest to its deadline
            in the schedule that --protocol chooses, or the task that --task names. The first job of each task is released as late as its
            jitter lets it be. What was seen is told on standard error. It is no bound: other lists may come nearer

The same --seed gives the same list. It proves nothing: that the jobs are lawful the program says when it reads them. What is seen in a
schedule are answers of `block simulate` and `block conform`.
"""
KINDS = ("periodic", "offset", "random", "worst")
# what a list that is searched for may have at most: it is simulated again and again
MOST_TICKS = 1_000_000_000


def measured(block: Block, path: str, ticks: int, text: str) -> Mapping[str, int]:
    """The greatest responses in the schedule of a list of jobs, by task."""
    listed = block.folder / "jobs"
    listed.write_text(text, encoding="utf-8")
    made = block.answer("simulate", path, listed, str(ticks))
    if made.status != Status.DONE:
        raise Stop(f"block simulate answers {made.line()}", made.status)
    rows = block.folder / "rows"
    rows.write_text(made.text, encoding="utf-8")
    judged = block.answer("conform", path, listed, rows)
    if judged.status != Status.DONE:
        raise Stop(f"block conform answers {judged.line()} to what block simulate wrote", judged.status)
    figures = [line.split() for line in judged.text.splitlines()[1:]]
    return {name: int(response) for name, _, response, _ in figures if response != "-"}


def searched(given: Given, parts: Parts) -> list[jobs.Released]:
    """The worst list that was seen."""
    names = [task["name"] for task in parts["tasks"]]
    if given.task is not None and given.task not in names:
        raise Stop(f"the set has no task {given.task!r}; its tasks are {', '.join(names)}", Status.WORDS)
    progress = Progress(given.tries, "lists")
    with folder_of_calls() as folder:
        block = Block(given.program, given.protocol, folder)
        wanted = names if given.task is None else [given.task]
        best = jobs.worst(parts, given.ticks, random.Random(given.seed), given.tries, lambda text: measured(block, given.set, given.ticks, text), wanted, progress.step)
    progress.end()
    print(f"block jobs: in {given.tries} lists {best.task} came nearest: {best.response} ticks from release to end under {given.protocol}", file=sys.stderr)
    return best.jobs


def listed(given: Given, parts: Parts) -> list[jobs.Released]:
    """The jobs that are asked for."""
    jobs.need_few(parts, given.ticks)
    draw = random.Random(given.seed)
    if given.kind == "worst":
        return searched(given, parts)
    if given.kind == "random":
        return jobs.random_jobs(parts, given.ticks, draw)
    return jobs.periodic(parts, given.ticks, jobs.drawn_offsets(parts, draw) if given.kind == "offset" else {})


def run(given: Given) -> int:
    """Makes a list of jobs."""
    if (given.kind == "worst") != (given.protocol is not None):
        raise Stop("--kind worst needs --protocol, and no other kind takes it", Status.WORDS)
    if given.kind != "worst" and given.task is not None:
        raise Stop("--task is for --kind worst", Status.WORDS)
    with folder_of_calls() as folder:
        report = asked(Block(given.program, "mpcp", folder).program, "report", "mpcp", given.set)
    if report.status != Status.DONE:
        raise Stop(report.line(), report.status)
    files.write_out(jobs.text_of(listed(given, set_of(given.set))), given.output)
    return Status.DONE


TICKS = Word("TICKS", Kind.NUMBER, "how many ticks, from 1 to 1,000,000,000", least=1, most=MOST_TICKS)
OPTIONS = (
    Option("--kind", "periodic, offset, random or worst; periodic where none is given", Word("KIND", Kind.CHOICE, "", choices=KINDS), "periodic"),
    Option("--seed", "the number from which draws are made; 1 where none is given", Word("N", Kind.NUMBER, ""), 1),
    Option("--protocol", "for worst: the protocol that chooses the schedule", PROTOCOL),
    Option("--task", "for worst: the task that is looked at; all where none is named", Word("NAME", Kind.TEXT, "")),
    Option("--tries", "for worst: how many lists are tried; 100 where nothing is said", Word("N", Kind.NUMBER, "", least=1), 100),
    OUTPUT,
)
COMMANDS = (Command("jobs", (SET, TICKS), "a list of the jobs that arrive in so many ticks, for simulate and conform", ABOUT, run, OPTIONS),)
