"""The numbers of a task set that one may change with all else as it is, and how far each can go as an input."""
from __future__ import annotations

from dataclasses import dataclass
from typing import Callable, Iterator, Optional, Union

from .program import Parts

# the set with another value of a number
Put = Callable[[Parts, int], Parts]

MOST_TICKS = 1_000_000_000
MOST_COUNT = 1000
PARTS = 1000
LONGER = 100


@dataclass(frozen=True)
class Number:
    """A number of a set: of which task, its name, what it is now, and the set with another value in its place.

    `harder` is the last value that an input can have where it gets harder to meet all deadlines, `easier` the last one the other way;
    None where the tool doesn't go that way. `step` is 1 where greater values are harder, else -1.
    """

    task: str
    name: str
    now: int
    put: Put
    harder: Optional[int]
    easier: Optional[int]
    step: int = 1

    def shown(self, value: int) -> str:
        """The value as it is printed: a factor has decimals."""
        return f"{value / PARTS:.3f}" if self.name == "factor" else str(value)

    def plain(self, value: int) -> Union[int, float]:
        """The value as a number of JSON."""
        return value / PARTS if self.name == "factor" else value


def deadline_of(task: Parts) -> int:
    """The deadline, which is the period where none is given."""
    deadline: int = task.get("deadline", task["period"])
    return deadline


def with_task(parts: Parts, k: int, task: Parts) -> Parts:
    """The set with another task in the place of its k-th."""
    return {**parts, "tasks": [*parts["tasks"][:k], task, *parts["tasks"][k + 1 :]]}


def with_request(parts: Parts, k: int, j: int, request: Optional[Parts]) -> Parts:
    """The set with another request in the place of the k-th task's j-th; None leaves it out."""
    task = parts["tasks"][k]
    requests = [*task["requests"][:j], *([] if request is None else [request]), *task["requests"][j + 1 :]]
    return with_task(parts, k, {**task, "requests": requests})


def with_member(k: int, member: str) -> Put:
    """Another value of a member of the k-th task."""
    return lambda parts, value: with_task(parts, k, {**parts["tasks"][k], member: value})


def with_period(k: int) -> Put:
    """Another period. A deadline that isn't given is the period; one that is given goes down with it where it would be longer."""

    def put(parts: Parts, value: int) -> Parts:
        task = {**parts["tasks"][k], "period": value}
        if "deadline" in task:
            task["deadline"] = min(task["deadline"], value)
        return with_task(parts, k, task)

    return put


def with_length(k: int, j: int) -> Put:
    """Another length of a request."""
    return lambda parts, value: with_request(parts, k, j, {**parts["tasks"][k]["requests"][j], "length": value})


def with_count(k: int, j: int) -> Put:
    """Another count, where 0 is no request at all."""
    return lambda parts, value: with_request(parts, k, j, {**parts["tasks"][k]["requests"][j], "count": value} if value else None)


def scaled(ticks: int, factor: int) -> int:
    """Ticks times a factor in thousandths, rounded up."""
    return -(-ticks * factor // PARTS)


def with_factor(parts: Parts, factor: int) -> Parts:
    """The set with all costs, local limits and lengths times a factor."""
    tasks = []
    for task in parts["tasks"]:
        task = {**task, "cost": scaled(task["cost"], factor)}
        if "local" in task:
            task["local"] = scaled(task["local"], factor)
        if "requests" in task:
            task["requests"] = [{**request, "length": scaled(request["length"], factor)} for request in task["requests"]]
        tasks.append(task)
    return {**parts, "tasks": tasks}


def factor_of(parts: Parts) -> Number:
    """The common factor."""
    most = min((deadline_of(task) - task.get("jitter", 0)) * PARTS // task["cost"] for task in parts["tasks"])
    return Number("*", "factor", PARTS, with_factor, most, 1)


def numbers_of_task(parts: Parts, k: int) -> Iterator[Number]:
    """The numbers of the k-th task, and of its requests."""
    task = parts["tasks"][k]
    name, cost, jitter, period, deadline = task["name"], task["cost"], task.get("jitter", 0), task["period"], deadline_of(task)
    requests = task.get("requests", [])
    least_cost = max([task.get("local", 1), *(request["length"] + 1 for request in requests)])
    yield Number(name, "cost", cost, with_member(k, "cost"), deadline - jitter, least_cost)
    yield Number(name, "jitter", jitter, with_member(k, "jitter"), deadline - cost, 0)
    yield Number(name, "period", period, with_period(k), cost + jitter, min(LONGER * period, MOST_TICKS), -1)
    yield Number(name, "deadline", deadline, with_member(k, "deadline"), None, period, -1)
    for j, request in enumerate(requests):
        resource = request["resource"]
        yield Number(name, f"{resource} count", request["count"], with_count(k, j), MOST_COUNT, 0)
        yield Number(name, f"{resource} length", request["length"], with_length(k, j), cost - 1, 1)


def numbers_of(parts: Parts) -> Iterator[Number]:
    """All numbers, the common factor first."""
    yield factor_of(parts)
    for k in range(len(parts["tasks"])):
        yield from numbers_of_task(parts, k)
