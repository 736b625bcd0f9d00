"""Lists of jobs for a set, which stay within what the set says of them."""
from __future__ import annotations

import random
from dataclasses import dataclass
from typing import Callable, Mapping, Sequence

from .changes import deadline_of
from .program import Parts
from .statuses import Status, Stop

# the most jobs, and the most parts of scripts, that the program reads
MOST_JOBS = 100_000
MOST_PARTS = 1_000_000
# a request: the name of the resource, and ticks
Request = tuple[str, int]


@dataclass(frozen=True)
class Released:
    """A job: the name of its task, its arrival, its release, and its script."""

    task: str
    arrival: int
    release: int
    script: str

    def line(self, has_arrivals: bool) -> str:
        """Its line in a file of jobs."""
        arrival = f"{self.arrival}," if has_arrivals else ""
        return f"{self.task},{arrival}{self.release},{self.script}\n"


def local_of(task: Parts) -> int:
    """The local limit, which is the cost where none is given."""
    local: int = task.get("local", task["cost"])
    return local


def requests_of(task: Parts) -> list[Request]:
    """All requests that a job may make, each at its full length."""
    return [(request["resource"], request["length"]) for request in task.get("requests", []) for _ in range(request["count"])]


def fitting(requests: Sequence[Request], cost: int, local: int) -> list[Request]:
    """Of these requests in turn those that fit into a cost and a local limit, with a local tick before each."""
    taken: list[Request] = []
    left = cost
    for resource, length in requests:
        if left > length and len(taken) < local:
            taken.append((resource, length))
            left -= 1 + length
    return taken


def joined(requests: Sequence[Request], local_ticks: Sequence[int]) -> str:
    """A script: before each request so many local ticks, and the last ones at the end, where there are any."""
    words = []
    for (resource, length), before in zip(requests, local_ticks):
        words += [str(before), f"{resource}:{length}"]
    return " ".join(words + ([str(local_ticks[-1])] if local_ticks[-1] or not words else []))


def full_script(task: Parts) -> str:
    """A script that takes each request at its full length, a tick after the one before, and what is left of the cost at its end."""
    cost, local = task["cost"], local_of(task)
    requests = fitting(requests_of(task), cost, local)
    rest = min(cost - sum(1 + length for _, length in requests), local - len(requests))
    return joined(requests, [*[1] * len(requests), rest])


def either(draw: random.Random, most: int, least: int) -> int:
    """The most as often as not, and else any number from the least on."""
    return most if draw.random() < 0.5 or most <= least else draw.randint(least, most)


def random_script(task: Parts, draw: random.Random) -> str:
    """A script within the limits: some of the requests in some order, some shorter, with local ticks anywhere."""
    cost, local = either(draw, task["cost"], 1), local_of(task)
    asked = [(resource, either(draw, length, 1)) for resource, length in requests_of(task) if draw.random() < 0.7]
    draw.shuffle(asked)
    requests = fitting(asked, cost, local)
    ticks = [1] * len(requests) + [0 if requests else 1]
    free = min(cost - sum(1 + length for _, length in requests), local - len(requests)) - ticks[-1]
    for place in draw.sample(range(len(ticks)), len(ticks)):
        more = draw.randint(0, free) if free > 0 else 0
        ticks[place] += more
        free -= more
    return joined(requests, ticks)


def within(jobs: list[Released]) -> list[Released]:
    """The jobs, where they are no more than a list may have."""
    parts = sum(1 + job.script.count(":") for job in jobs)
    if len(jobs) > MOST_JOBS or parts > MOST_PARTS:
        raise Stop(f"these are {len(jobs)} jobs with {parts} parts, and a list has at most {MOST_JOBS} with {MOST_PARTS}: take fewer ticks", Status.REFUSED)
    return jobs


def count_of(parts: Parts, ticks: int) -> int:
    """How many jobs the tasks release in so many ticks, at most."""
    return sum(-(-ticks // task["period"]) for task in parts["tasks"])


def need_few(parts: Parts, ticks: int) -> None:
    """Ends the tool before it makes more jobs than a list may have."""
    if count_of(parts, ticks) > MOST_JOBS:
        raise Stop(f"these would be up to {count_of(parts, ticks)} jobs, and a list has at most {MOST_JOBS}: take fewer ticks", Status.REFUSED)


def periodic(parts: Parts, ticks: int, offsets: Mapping[str, int], is_late: bool = False) -> list[Released]:
    """Each task releases a full job at its offset and at each period after that; where `is_late` is true the first one as late as the jitter lets it."""
    jobs = []
    for task in parts["tasks"]:
        script, first = full_script(task), offsets.get(task["name"], 0)
        for arrival in range(first, ticks, task["period"]):
            late = task.get("jitter", 0) if is_late and arrival == first else 0
            jobs.append(Released(task["name"], arrival, arrival + late, script))
    return within(jobs)


def drawn_offsets(parts: Parts, draw: random.Random) -> dict[str, int]:
    """An offset below its period for each task."""
    return {task["name"]: draw.randrange(task["period"]) for task in parts["tasks"]}


def random_jobs(parts: Parts, ticks: int, draw: random.Random) -> list[Released]:
    """Jobs that arrive a period or more apart, are released within the jitter, and do what the limits let them."""
    jobs = []
    for task in parts["tasks"]:
        arrival = draw.randrange(task["period"])
        while arrival < ticks:
            late = either(draw, task.get("jitter", 0), 0) if draw.random() < 0.5 else 0
            jobs.append(Released(task["name"], arrival, arrival + late, random_script(task, draw)))
            arrival += task["period"] + (0 if draw.random() < 0.5 else draw.randint(0, task["period"]))
    return within(jobs)


def text_of(jobs: Sequence[Released]) -> str:
    """The file of these jobs, with arrivals where some job is released later than it arrives."""
    has_arrivals = any(job.arrival != job.release for job in jobs)
    head = "task,arrival,release,script\n" if has_arrivals else "task,release,script\n"
    return head + "".join(job.line(has_arrivals) for job in jobs)


@dataclass(frozen=True)
class Seen:
    """What a list of jobs came to: the task, its greatest response, and what of the time that it has that is."""

    share: float
    task: str
    response: int
    jobs: list[Released]


# the greatest response of a finished job of each task that had one, in the schedule that the protocol chooses
Measure = Callable[[str], Mapping[str, int]]


def seen_of(parts: Parts, jobs: list[Released], measured: Mapping[str, int], wanted: Sequence[str]) -> Seen:
    """The wanted task that came nearest to its deadline."""
    latest = {task["name"]: deadline_of(task) - task.get("jitter", 0) for task in parts["tasks"]}
    name = max(wanted, key=lambda name: (measured.get(name, 0) / latest[name], name), default=wanted[0])
    return Seen(measured.get(name, 0) / latest[name], name, measured.get(name, 0), jobs)


def moved(parts: Parts, offsets: Mapping[str, int], draw: random.Random) -> dict[str, int]:
    """The offsets with that of one task drawn anew, or set beside that of another."""
    task, other = draw.choice(parts["tasks"]), draw.choice(parts["tasks"])
    beside = max(offsets[other["name"]] + draw.randint(-2, 2), 0) % task["period"]
    return {**offsets, task["name"]: draw.choice((draw.randrange(task["period"]), beside))}


def worst(parts: Parts, ticks: int, draw: random.Random, tries: int, measure: Measure, wanted: Sequence[str], told: Callable[[], None]) -> Seen:
    """The list in which a wanted task came nearest to its deadline, of so many lists of periodic jobs. The first one is synchronous; half of the
    others begin at offsets of their own, and half at those of the best list so far but for one task."""
    offsets = {task["name"]: 0 for task in parts["tasks"]}
    best, best_offsets = None, offsets
    for number in range(tries):
        if number:
            offsets = moved(parts, best_offsets, draw) if number % 2 else drawn_offsets(parts, draw)
        jobs = periodic(parts, ticks, offsets, is_late=True)
        seen = seen_of(parts, jobs, measure(text_of(jobs)), wanted)
        if best is None or seen.share > best.share:
            best, best_offsets = seen, offsets
        told()
    assert best is not None
    return best
