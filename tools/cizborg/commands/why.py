"""Says what bounds consist of, and which tasks block."""
from __future__ import annotations

import json
from typing import Any, Iterator, Optional, Sequence

from ..program import Block, asked, folder_of_calls, set_of
from ..reasons import Asking, Reason, all_shown, bounds_of, number
from ..statuses import Status, Stop
from ..table import ALLOWANCE, JSON, PROTOCOL, SET, Command, Given, Kind, Word

ABOUT = """
Says what a bound consists of, and which tasks block: for one task, or for each task, the cost, the blocking and the interference.

Blocking is told by the columns of the task's blocking program (docs/ANALYSIS.md): who requests what, in which way it blocks, how many
requests and for how many ticks each. The ways are direct: the task waits for the request; indirect: it waits for something else whose
holder can't run while the request does, or a task of its processor spins for it; preemption: the request runs in its place. A program
can have several best points. This is the one that the program found; each comes to the same ticks. Counts may be fractions, and then the
blocking is what they come to in whole ticks. Interference is told by task, with how many of its jobs run and for how many ticks each.

Where the set isn't shown the same is told of the task that passes its deadline, at the refusal. Of another TASK it is told what that one
had come to there.

It proves nothing itself. Bounds are those of `block analyse`. The points are those of `block refute`, of the set itself or of the set with
the task's deadline one tick below its bound, and `block confirm` has confirmed each. Where the one or the other is wide `block settle` is
asked in its place. Its points may be rounded down. Columns and interference are formed by this tool, and
it ends with status 70 where all together doesn't come to the bound.

The status is that of `analyse` on the set, or of `settle` where that is wide.
"""


def opening(reason: Reason, is_shown: bool) -> str:
    """The first line of a task."""
    within = f"deadline {reason.deadline}" + (f", jitter {reason.jitter}" if reason.jitter else "")
    if is_shown:
        return f"{reason.task}: bound {reason.value}, {within}, slack {reason.left()}"
    if reason.left() < 0:
        return f"{reason.task} is not shown: at least {reason.value}, {within}, lacks {-reason.left()}"
    return f"{reason.task}: at least {reason.value} where the refusal of another task ends, {within}"


def lines_of(reason: Reason) -> Iterator[tuple[str, str]]:
    """The parts of a task's value, with what each comes to."""
    yield "cost", str(reason.cost)
    worth = reason.worth()
    yield "blocking" + (f" (whole ticks of {number(worth)})" if worth.denominator != 1 else ""), str(reason.blocking())
    for blocked in reason.blocked:
        yield f"  {blocked.task} {blocked.resource} {blocked.way} {number(blocked.requests)} x {blocked.length} = {number(blocked.ticks())}", ""
    yield "interference", str(reason.interference())
    for delayed in reason.delayed:
        yield f"  {delayed.task} {delayed.jobs} {'job' if delayed.jobs == 1 else 'jobs'} x {delayed.each} = {delayed.ticks()}", ""


def as_text(reasons: Sequence[Reason], is_shown: bool, backed_by: str) -> Iterator[str]:
    """The whole answer as lines."""
    for reason in reasons:
        yield opening(reason, is_shown)
        for what, ticks in lines_of(reason):
            yield f"  {what:<34}{ticks:>12}".rstrip()
        yield ""
    yield backed_by


def as_parts(reason: Reason) -> dict[str, Any]:
    """A reason as JSON has it."""
    blocked = [{
        "task": one.task, "resource": one.resource, "way": one.way, "requests": {"num": one.requests.numerator, "den": one.requests.denominator},
        "length": one.length, "ticks": {"num": one.ticks().numerator, "den": one.ticks().denominator},
    } for one in reason.blocked]
    delayed = [{"task": one.task, "jobs": one.jobs, "each": one.each, "ticks": one.ticks()} for one in reason.delayed]
    return {
        "task": reason.task, "value": reason.value, "deadline": reason.deadline, "jitter": reason.jitter, "left": reason.left(), "cost": reason.cost,
        "blocking": {"ticks": reason.blocking(), "parts": blocked}, "interference": {"ticks": reason.interference(), "parts": delayed},
        "backed_by": reason.backed_by,
    }


def place_of(asking: Asking, name: Optional[str]) -> Optional[int]:
    """The place of a task of this name."""
    if name is None:
        return None
    names = [task["name"] for task in asking.s.tasks]
    if name not in names:
        raise Stop(f"the set has no task {name!r}; its tasks are {', '.join(names)}", Status.WORDS)
    return names.index(name)


def rests_on(asking: Asking, is_shown: bool) -> str:
    """What the answer rests on."""
    refused = " and ".join(f"block {word}" for word in sorted(asking.refused_by or {"refute"}))
    if not is_shown:
        return f"This rests on {refused} {asking.words}, which block confirm confirms."
    return (
        f"This rests on block {asking.shown_by} {asking.words}, and for each task on {refused} of the same set with its deadline one tick below its bound; "
        "block confirm confirms these."
    )


def run(given: Given) -> int:
    """Says what bounds are made of."""
    allowance = [] if given.allowance is None else [str(given.allowance)]
    with folder_of_calls() as folder:
        block = Block(given.program, given.protocol, folder)
        report = asked(block.program, "report", given.protocol, given.set)
        if report.status != Status.DONE:
            raise Stop(report.line(), report.status)
        asking = Asking(block, set_of(given.set), given.set, allowance)
        wanted = place_of(asking, given.task)
        bounds = bounds_of(asking)
        places = range(asking.s.n) if wanted is None else [wanted]
        reasons = all_shown(asking, places, bounds) if bounds else [asking.not_shown(wanted)]
    if given.json:
        print(json.dumps({"protocol": given.protocol, "set": given.set, "is_shown": bounds is not None, "tasks": [as_parts(reason) for reason in reasons]}, indent=1))
    else:
        print("\n".join(as_text(reasons, bounds is not None, rests_on(asking, bounds is not None))))
    return Status.DONE if bounds else Status.NO


TASK = Word("TASK", Kind.TEXT, "the name of a task; without it each one is told of", is_needed=False)
COMMANDS = (Command("why", (PROTOCOL, SET, TASK), "what bounds consist of, and which tasks block", ABOUT, run, (ALLOWANCE, JSON)),)
