"""The page of a certificate: what a reviewer needs of it."""
from __future__ import annotations

import base64
import re
import shlex
from pathlib import Path
from typing import Sequence

from . import bars, lanes, origin, second
from .bars import Bar, Part
from .evidence import Asked, Evidence, Figures, Input, Inputs, Task
from .pages import Cell, contents, element, escaped, figure, listed, page, paragraph, section, section_of, table
from .program import TOP, Parts
from .protocols import AT_HOMES, PROTOCOLS
from .reasons import number
from .schedule import Box, Job, Picture
from .statuses import Status, Stop
from .times import Clock

LOOKS = (("jitter", "jitter"), ("cost", "cost"), ("blocking", "blocking"), ("interference", "interference"), ("room", "raised"), ("track", "slack"))
# A recording with more boxes than this is drawn in part, and the part has no more than that.
WHOLE_BOXES = 150
MOST_BOXES = 600
# of a recording that is drawn in part so many windows are drawn
MOST_WINDOWS = 5
# Files of more bytes than this are not carried in the page.
MOST_BYTES = 4_000_000
KINDS = {"set": "task set", "cert": "certificate", "jobs": "jobs", "rows": "rows", "program": "program that answered"}

TO_CHECK = [
    "that each cost, local limit, count, length and jitter of the set is an upper bound, and each period a lower one, of what the system does, with what it costs "
    "to switch, to lock and to interrupt added to the costs;",
    "that each task stays on its processor, that it waits for nothing but the resources of the set, and that it has one request open at a time;",
    "that each job runs outside of its requests before each of them: for one tick, or for one cycle where each cost has a tick more than was measured (`docs/GUIDE-MODEL.md`);",
    "that the machine keeps the rules of the protocol (`docs/MODEL.md`), and that the files are of the system that is built.",
]


def per_cent(part: int, whole: int) -> str:
    """A share, with one place behind the point."""
    return f"{100 * part / whole:.1f} %"


def named(request: Parts, clock: Clock) -> tuple[Cell, ...]:
    """The cells of a request."""
    return request["resource"], request["count"], clock.cell(request["length"])


def header(kind: str, title: str, *said: str) -> str:
    """The head of a page: what it is, when and by what it was written, and what came out."""
    written = f"Written on {origin.day()} by cizborg {origin.version()}."
    return element("header", element("p", escaped(kind), class_="kind") + element("h1", escaped(title)) + "".join(map(paragraph, said)) + paragraph(written, class_="source"))


def unit(evidence: Inputs) -> str:
    """What a tick is."""
    known = f", and a tick is {evidence.clock.time(1)}" if evidence.clock.tick is not None else ""
    return f" Times are in ticks, the set's unit of time{known}."


def opening(evidence: Evidence, title: str) -> str:
    """The head of the page: what was judged, and what came out."""
    protocol = PROTOCOLS[evidence.protocol].title
    least = min(evidence.tasks, key=lambda task: task.slack / task.deadline)
    said = (
        f"**In every schedule of lawful jobs of the set that keeps the rules of {protocol}, each job whose window lies within the schedule ends within its bound.** "
        "Lawful jobs stay within what the set says of them, and run at least one tick outside of requests before each request. A job's window is the ticks from its "
        f"release to its release plus its bound. The program answers `valid` to `{evidence.check.command}`. That this answer means so is proved, under the premises below."
    )
    left = f"{evidence.clock.said(least.slack)} of its {evidence.clock.said(least.deadline)} ticks are left, {per_cent(least.slack, least.deadline)}."
    more = f"Nearest to its deadline comes `{least.name}`: {left}{unit(evidence)}"
    if evidence.audit:
        more += f" A recording of {evidence.ticks()} ticks keeps the rules, and lies within the bounds."
    return header(f"Response times under {protocol}", title, said, more)


def words_from(document: str, title: str) -> str:
    """The section of a document of the repository with this title."""
    text = section_of((TOP / document).read_text(encoding="utf-8"), title)
    if text is None:
        raise Stop(f"{document} has no section {title!r}, of which the page gives the words", Status.LACKING)
    return element("div", text, class_="words")


def claim() -> str:
    """What is proved, in the words of the proofs, and what is not."""
    parts = [
        paragraph(
            "A bound counts the ticks from a job's release to its end. A job is released no later than its task's jitter after it arrives, and its "
            "deadline counts from its arrival: so bound and jitter together are at most the deadline. Blocking is the most ticks at which one job is "
            "blocked: active, not running, and not delayed by a higher task of its processor."
        ),
        element("h3", "In the words of docs/PROOFS.md"),
        paragraph("The page rests on `check` alone. It doesn't ask how the certificate was made."),
        words_from("docs/PROOFS.md", "A valid certificate"),
        element("h4", "Premises"),
        words_from("README.md", "The premises"),
        element("h4", "What a digest doesn't promise"),
        words_from("docs/PROOFS.md", "What a digest doesn't promise"),
        element("h3", "What is trusted"),
        words_from("README.md", "What is trusted"),
        element("h3", "What is left to you"),
        paragraph("No answer of the program says these. They are what a reviewer looks at:"),
        listed(TO_CHECK),
    ]
    return section("What is proved, and what is not", *parts)


def tasks_table(evidence: Evidence) -> str:
    """The tasks as the set has them."""
    heads = ["Task", "Processor", "Period", "Deadline", "Jitter", "Cost", "Local limit", "Load"]
    rows: list[list[Cell]] = [
        [task.name, task.processor, *map(evidence.clock.cell, (task.period, task.deadline, task.jitter, task.cost, task.local)), per_cent(task.cost, task.period)]
        for task in evidence.tasks
    ]
    words = "Tasks stand from the highest base priority to the lowest, times are in ticks. From the set; all but the jitter also from the report."
    return table(heads, rows, words)


def requests_tables(evidence: Evidence) -> str:
    """The requests of the tasks, and the resources with their homes and users."""
    rows: list[list[Cell]] = [[task.name, *named(request, evidence.clock)] for task in evidence.tasks for request in task.requests]
    if not rows:
        return paragraph("No task requests a resource.")
    users: dict[str, list[str]] = {resource["name"]: [] for resource in evidence.set.get("resources", ())}
    for task in evidence.tasks:
        for request in task.requests:
            users[request["resource"]].append(task.name)
    homes: list[list[Cell]] = [[resource["name"], resource.get("home", "–"), ", ".join(users[resource["name"]])] for resource in evidence.set["resources"]]
    requests = table(["Task", "Resource", "Requests of a job, at most", "Ticks of one, at most"], rows, "From the set.")
    return requests + table(["Resource", "Home", "Users, the highest first"], homes, "From the set. Under DPCP and the distributed FIFO protocol a request runs on its resource's home.")


def model(evidence: Evidence) -> str:
    """The set as it was modelled."""
    loads = [Bar(f"P{k}", (Part("cost", load, f"{load} millionths"),), 1_000_000, per_cent(load, 1_000_000)) for k, load in enumerate(evidence.loads(), 1)]
    drawn = bars.picture(loads, (("cost", "load"),), "The load of each processor")
    shown = figure(drawn, "The load of each processor, from the report.")
    return section("The set as modelled", tasks_table(evidence), shown, requests_tables(evidence))


def bar_of(evidence: Evidence, task: Task) -> Bar:
    """What a task's deadline is made of."""
    parts = [Part("jitter", task.jitter, f"jitter {task.jitter}"), Part("cost", task.cost, f"cost {task.cost}")]
    parts.append(Part("blocking", task.blocking, f"blocking {task.blocking}"))
    for part in evidence.interference(task):
        parts.append(Part("interference", part.ticks(), f"interference by {part.task.name}: {part.jobs} jobs of {part.each} ticks"))
    room = evidence.room(task)
    parts.append(Part("room", room, f"raised by {room}"))
    return Bar(task.name, tuple(parts), task.deadline, f"slack {task.slack}, {per_cent(task.slack, task.deadline)}")


def parts_table(evidence: Evidence) -> str:
    """What each bound and each deadline is made of."""
    heads = ["Task", "Deadline", "Jitter", "Bound", "Slack", "Cost", "Blocking", "Interference", "Raised"]
    rows: list[list[Cell]] = []
    for task in evidence.tasks:
        added = sum(part.ticks() for part in evidence.interference(task))
        numbers = (task.deadline, task.jitter, task.bound, task.slack, task.cost, task.blocking, added, evidence.room(task))
        rows.append([task.name, *map(evidence.clock.cell, numbers)])
    words = (
        "Deadline, bound, slack, cost and blocking are from the report. The deadline is jitter, bound and slack together; the bound is cost, blocking, interference "
        "and what it was raised by above these. That the first three are at most the bound is what `check` found; this tool forms the interference anew by the "
        "recurrence of `docs/ANALYSIS.md`, and the rest from it."
    )
    return table(heads, rows, words)


def other_blocking(evidence: Evidence) -> str:
    """Where the certificate allows for more blocking than the least bounds have."""
    more = [f"`{task.name}` {task.blocking} in place of {reason.blocking()}" for task, reason in zip(evidence.tasks, evidence.reasons) if task.blocking != reason.blocking()]
    return paragraph(f"The certificate allows for more ticks of blocking than these come to: {', '.join(more)}.") if more else ""


def blocking_table(evidence: Evidence) -> str:
    """Who blocks each task at the least bounds, as the command why says it."""
    if not evidence.reasons:
        return paragraph("Who blocks is not told: the program finds no least bounds of this set, from whose answers this tool takes it.")
    rows: list[list[Cell]] = [
        [reason.task, part.task, part.resource, part.way, number(part.requests), part.length, number(part.ticks())] for reason in evidence.reasons for part in reason.blocked
    ]
    if not rows:
        return paragraph("No task is blocked.")
    words = (
        "The columns of a best point of each task's blocking program at the least bounds (`docs/ANALYSIS.md`). Direct: the task waits for the request. Indirect: it waits for "
        "something else, whose holder can't run while the request does, or for which a task of its processor spins. Preemption: the request runs in its place. From the program's "
        "answer to `refute`, or to `settle` where that is wide, of the set with the task's deadline one tick below its bound, which `confirm` confirms."
    )
    return table(["Task", "Blocked by", "Resource", "Way", "Requests", "Ticks of each", "Blocked ticks"], rows, words) + other_blocking(evidence)


def interference_table(evidence: Evidence) -> str:
    """What each higher task adds to a bound."""
    rows: list[list[Cell]] = [[task.name, part.task.name, part.jobs, evidence.clock.cell(part.each), evidence.clock.cell(part.ticks())] for task in evidence.tasks for part in evidence.interference(task)]
    if not rows:
        return paragraph("No processor has two tasks, so none is delayed by a higher one.")
    each = "its local limit" if evidence.protocol in AT_HOMES else "its cost"
    words = (
        f"At most so many jobs of the higher task run in the ticks from a job's release to its bound, each for {each}: the bounds of both tasks and the higher "
        "one's jitter, less these ticks, over its period, rounded up. Formed by this tool."
    )
    return table(["Task", "Delayed by", "Jobs, at most", "Ticks of each", "Ticks"], rows, words)


def bounds(evidence: Evidence) -> str:
    """The bounds and their parts, as a picture and in tables."""
    made = [bar_of(evidence, task) for task in evidence.tasks]
    seen = {part.look for bar in made for part in bar.parts if part.size} | {"track"}
    drawn = bars.picture(made, [look for look in LOOKS if look[0] in seen], "What the deadline of each task is made of")
    shown = figure(drawn, "The deadline of each task as a bar of one length, and what it is made of.")
    return section("The bounds, and what they are made of", shown, parts_table(evidence), element("h3", "Blocking"), blocking_table(evidence), element("h3", "Interference"), interference_table(evidence))


def audit_table(evidence: Evidence) -> str:
    """What the audit says of each task."""
    heads = ["Task", "Greatest response", "Bound", "Share", "Most blocked", "Blocking, at most", "Direct", "Indirect", "Preemption"]
    rows: list[list[Cell]] = []
    for task in evidence.figures():
        response: Cell = "–" if task.response is None else evidence.clock.cell(task.response)
        share = "–" if task.response is None else per_cent(task.response, task.bound)
        rows.append([task.name, response, evidence.clock.cell(task.bound), share, *map(evidence.clock.cell, (task.blocked, task.value, task.direct, task.indirect, task.preemption))])
    words = (
        "From the answer of `audit`: the greatest response of a job that finished, and its bound; the most ticks at which one job was blocked, and the most "
        "that it can be; and what the blocked ticks of all jobs of the task are charged to."
    )
    return table(heads, rows, words)


def window_of(picture: Picture, boxes: Sequence[Box], job: Job) -> lanes.Stretch:
    """The stretch in which a job was there, or the last of it where that has too many boxes."""
    end = max(box.end for box in picture.executed if box.job is job)
    inside = sorted(box.start for box in boxes if box.start < end and job.release < box.end)
    return lanes.Stretch(max(job.release, inside[-MOST_BOXES]) if len(inside) > MOST_BOXES else job.release, end)


def stretches(evidence: Evidence, picture: Picture) -> list[tuple[lanes.Stretch, str]]:
    """The windows of the recording that are drawn, each with its words: all of a short one, and of a longer one the tasks that came nearest."""
    boxes = [*picture.executed, *picture.blocked]
    if len(boxes) <= WHOLE_BOXES:
        return [(lanes.Stretch(0, picture.ticks), f"The whole recording, {picture.ticks} ticks.")]
    jobs = lanes.nearest(picture, [task.bound for task in evidence.tasks])[:MOST_WINDOWS]
    if not jobs:
        return [(lanes.Stretch(0, sorted(box.end for box in boxes)[WHOLE_BOXES]), "The first ticks of the recording, in which no job finished.")]
    found = []
    for job in jobs:
        stretch = window_of(picture, boxes, job)
        words = f"Ticks {stretch.start} to {stretch.end} of {picture.ticks}: up to the end of the job of `{job.task.name}` that came nearest to its bound, released at tick {job.release}."
        found.append((stretch, words))
    return found


def drawn_schedule(evidence: Evidence) -> str:
    """The pictures of the recording, or that there is none."""
    picture = evidence.picture
    if picture is None:
        return paragraph("The recording is not drawn: it has no tick.")
    spins = ", and a low dashed box that it spins, which keeps its processor busy" if picture.spinning else ""
    legend = (
        "A box is a job that executes, hatched where it is in a request. An arrow upwards is a release, a dotted one the arrival of a job that is released later, one downwards a "
        "deadline. A thin bar below a lane shows the ticks at which a job is blocked" + spins + ". Drawn by this tool from the jobs and rows that `audit` judged."
    )
    drawn = [figure(lanes.picture_of(picture, stretch, f"The schedule, a lane for each processor. {words}", number), words) for number, (stretch, words) in enumerate(stretches(evidence, picture))]
    return "".join(drawn) + paragraph(legend, class_="source")


def used(task: Figures) -> Bar:
    """The greatest response of a task beside its bound."""
    note = "none finished" if task.response is None else f"{task.response} of {task.bound}"
    return Bar(task.name, (Part("cost", task.response or 0, note),), task.bound, note)


def recording(evidence: Evidence) -> str:
    """A recording of the machine beside what is proved."""
    drawn = bars.picture([used(task) for task in evidence.figures()], (("cost", "greatest response"), ("track", "up to the bound")), "Responses and bounds")
    said = paragraph(
        f"Each of the {evidence.ticks()} rows keeps the rules of {PROTOCOLS[evidence.protocol].title}, and what happened lies within what is proved: that is proved of "
        "every such recording. It shows how near the bounds came, and nothing of other jobs."
    )
    shown = figure(drawn, "The greatest response of each task as a share of its bound.")
    return section("A recording beside the bounds", said, shown, audit_table(evidence), drawn_schedule(evidence))


def link_of(taken: Input) -> str:
    """The name of a file, which saves the file itself where the page carries it."""
    if taken.word == "program" or len(taken.data) > MOST_BYTES:
        return escaped(taken.name())
    kind = "application/json" if taken.word in ("set", "cert") else "text/csv"
    return element("a", escaped(taken.name()), href=f"data:{kind};base64,{base64.b64encode(taken.data).decode()}", download=taken.name(), **{second.MARK: taken.word})


def files_table(evidence: Inputs) -> str:
    """The files with their digests, which the page carries."""
    taken = [*evidence.inputs.values(), evidence.program]
    rows: list[list[Cell]] = [[evidence.kinds.get(one.word, KINDS[one.word]), [link_of(one)], len(one.data), [element("code", one.digest(), class_="digest")]] for one in taken]
    words = "A name that is a link saves the file from this page, byte for byte. The digest is what `sha256sum` prints."
    return table(["What", "File", "Bytes", "SHA-256"], rows, words)


def shown_answer(answer: Asked) -> str:
    """A command, what the program answered to it, and the status."""
    text = answer.text if len(answer.text) <= 20_000 else answer.text[:20_000] + "..\n"
    line = element("span", escaped(f"$ {answer.command}\n"), class_="asked")
    return element("pre", line + escaped(text) + element("span", f"status {int(Status.DONE)}", class_="status"))


def again(evidence: Inputs, answers: Sequence[Asked]) -> str:
    """How all of it is checked again."""
    command = shlex.join(["sha256sum", *(taken.path for taken in evidence.inputs.values())])
    said = paragraph(
        "Save the files, see that their digests are these, build the program from its sources, which proves it anew, and ask it again: `./block` at the top of "
        "the repository does both. It has to answer the same."
    )
    digests = element("pre", element("span", escaped(f"$ {command}\n"), class_="asked") + "".join(
        escaped(f"{taken.digest()}  {taken.path}\n") for taken in evidence.inputs.values()))
    return section("Check it again", files_table(evidence), said, digests, *map(shown_answer, answers))


def judged_again(evidence: Evidence) -> list[str]:
    """The second checker, where the page carries what it judges."""
    is_carried = all(len(evidence.inputs[word].data) <= MOST_BYTES for word in ("set", "cert"))
    return [second.judged_again(evidence.protocol)] if is_carried else []


def style() -> str:
    """How a page looks."""
    return re.sub(r"\s+", " ", Path(__file__).resolve().parent.joinpath("dossier.css").read_text(encoding="utf-8"))


def assembled(title: str, protocol: str, head: str, sections: Sequence[str]) -> str:
    """A whole page: its head, the contents, and the sections."""
    body = "\n".join(sections)
    return page(f"{title} under {PROTOCOLS[protocol].title}", style(), "\n".join([head, contents(body), body]))


def page_of(evidence: Evidence, title: str) -> str:
    """The whole page."""
    sections = [bounds(evidence), model(evidence)]
    sections += [recording(evidence)] if evidence.audit else []
    sections += [claim(), again(evidence, evidence.answers()), *judged_again(evidence)]
    return assembled(title, evidence.protocol, opening(evidence, title), sections)
