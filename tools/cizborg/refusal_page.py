"""The page of a refusal: what a reviewer needs of it."""
from __future__ import annotations

from typing import Optional

from .blocking_programs import TaskSet
from .changes import deadline_of
from .dossier_page import TO_CHECK, again, assembled, header, per_cent, unit, words_from
from .evidence import Refused
from .pages import Cell, element, listed, paragraph, section, table
from .protocols import PROTOCOLS
from .reasons import Step, number

# of a longer refusal the last steps are shown
MOST_STEPS = 200


def opening(refused: Refused, title: str) -> str:
    """The head of the page."""
    protocol, reason, clock = PROTOCOLS[refused.protocol].title, refused.reason, refused.clock
    said = (
        f"**No bounds within all deadlines satisfy the response-time recurrence under {protocol}.** The program answers `confirmed` to `{refused.confirm.command}`. That this answer "
        "means so is proved, under the premises below. It doesn't follow that a deadline is missed."
    )
    latest = reason.deadline - reason.jitter
    more = f"The refusal ends at `{reason.task}`: it comes to at least {clock.said(reason.value)} ticks, and {clock.said(latest)} are left to it.{unit(refused)}"
    return header(f"A refusal under {protocol}", title, said, more)


def made_of(refused: Refused) -> str:
    """What the value at which the refusal ends is made of."""
    reason, cell = refused.reason, refused.clock.cell
    rows: list[list[Cell]] = [["cost", "", "", "", "", cell(reason.cost)]]
    rows += [["blocking", part.task, f"{part.resource}, {part.way}", number(part.requests), cell(part.length), number(part.ticks())] for part in reason.blocked]
    rows += [["interference", delayed.task, "", f"{delayed.jobs}", cell(delayed.each), cell(delayed.ticks())] for delayed in reason.delayed]
    words = (
        f"What `{reason.task}` comes to in the last step of the refusal: the columns of its point (`docs/ANALYSIS.md`), and the interference at the bounds of the steps before. "
        f"Together these are {reason.cost + reason.blocking() + reason.interference()} whole ticks. Formed by this tool from the refusal that `confirm` found confirmed."
    )
    return table(["Part", "By", "Request", "How many", "Ticks of each", "Ticks"], rows, words)


def step_of(s: TaskSet, place: int, step: Step) -> list[Cell]:
    """The cells of a step."""
    return [f"{place}", s.tasks[step.place]["name"], step.value, s.latest[step.place]]


def steps(refused: Refused) -> str:
    """The steps of the refusal."""
    shown = list(enumerate(refused.steps, 1))[-MOST_STEPS:]
    left_out = f" The first {len(refused.steps) - len(shown)} steps are left out." if len(shown) < len(refused.steps) else ""
    words = (
        "It begins with each task's cost as its bound. Each step raises the bound of a task to a value that no smaller bound of it can have, at the bounds so far. The last value passes "
        "what the deadline leaves." + left_out
    )
    return table(["Step", "Task", "At least", "Left by the deadline and the jitter"], [step_of(refused.s, place, step) for place, step in shown], words)


def model(refused: Refused) -> str:
    """The set as it was modelled."""
    cell = refused.clock.cell
    rows: list[list[Cell]] = []
    for task in refused.set["tasks"]:
        ticks = (task["period"], deadline_of(task), task.get("jitter", 0), task["cost"], task.get("local", task["cost"]))
        rows.append([task["name"], task["processor"], *map(cell, ticks), per_cent(task["cost"], task["period"])])
    tasks = table(["Task", "Processor", "Period", "Deadline", "Jitter", "Cost", "Local limit", "Load"], rows, "Tasks stand from the highest base priority to the lowest. From the set.")
    asked: list[list[Cell]] = [
        [task["name"], request["resource"], home_of(refused, request["resource"]) or "–", request["count"], cell(request["length"])]
        for task in refused.set["tasks"] for request in task.get("requests", [])
    ]
    if not asked:
        return section("The set as modelled", tasks, paragraph("No task requests a resource."))
    return section("The set as modelled", tasks, table(["Task", "Resource", "Home", "Requests of a job, at most", "Ticks of one, at most"], asked, "From the set."))


def home_of(refused: Refused, name: str) -> Optional[int]:
    """The home of a resource, or None."""
    home: Optional[int] = next(resource.get("home") for resource in refused.set["resources"] if resource["name"] == name)
    return home


def claim() -> str:
    """What is proved of a refusal, and what is not."""
    parts = [
        paragraph(
            "A bound counts the ticks from a job's release to its end. Within all deadlines it is where it and the task's jitter together are at most the deadline, for each task. The "
            "recurrence is that of `docs/ANALYSIS.md`: each task's cost, blocking and interference at the bounds are together at most its bound. That none exist is said of all bounds, "
            "whatever was searched. It is no statement on schedules: a deadline needn't be missed, and a closer analysis may find bounds."
        ),
        element("h3", "In the words of docs/PROOFS.md"),
        paragraph("The page rests on `confirm` alone. It doesn't ask how the refusal was made."),
        words_from("docs/PROOFS.md", "A refusal that holds"),
        element("h4", "Premises"),
        words_from("README.md", "The premises"),
        element("h3", "What is trusted"),
        words_from("README.md", "What is trusted"),
        element("h3", "What is left to you"),
        paragraph("No answer of the program says these:"),
        listed(TO_CHECK),
    ]
    return section("What is proved, and what is not", *parts)


def page_of(refused: Refused, title: str) -> str:
    """The whole page."""
    why = section("Where the refusal ends, and why", made_of(refused), element("h3", "The steps"), steps(refused))
    return assembled(title, refused.protocol, opening(refused, title), [why, model(refused), claim(), again(refused, refused.answers())])
