"""Parts of a set that share neither processor nor resource."""
from __future__ import annotations

from dataclasses import dataclass
from typing import Hashable, Iterable

from .program import Parts


@dataclass(frozen=True)
class Part:
    """A part of a set: the set that it is, and the processors that it has, by their numbers in the whole."""

    parts: Parts
    processors: list[int]

    def names(self) -> list[str]:
        """The names of its tasks."""
        return [task["name"] for task in self.parts["tasks"]]


class Groups:
    """Things that are joined: each knows one that stands for its group."""

    def __init__(self) -> None:
        self.above: dict[Hashable, Hashable] = {}

    def head(self, thing: Hashable) -> Hashable:
        """The one that stands for the group of a thing."""
        above = self.above.setdefault(thing, thing)
        while above != self.above[above]:
            above = self.above[above]
        self.above[thing] = above
        return above

    def join(self, one: Hashable, other: Hashable) -> None:
        """Makes one group of two."""
        self.above[self.head(one)] = self.head(other)


def touched(task: Parts, homes: dict[str, int]) -> Iterable[Hashable]:
    """What a task shares with others: its processor, its resources, and their homes."""
    yield ("processor", task["processor"])
    for request in task.get("requests", []):
        yield ("resource", request["resource"])
        if request["resource"] in homes:
            yield ("processor", homes[request["resource"]])


def renumbered(tasks: list[Parts], resources: list[Parts], with_homes: bool) -> Part:
    """The part with these tasks, which uses these resources; its processors are counted from 1 on."""
    old = sorted({task["processor"] for task in tasks} | {resource["home"] for resource in resources if with_homes and "home" in resource})
    new = {processor: number for number, processor in enumerate(old, 1)}
    listed = [{**resource, **({"home": new[resource["home"]]} if "home" in resource else {})} if with_homes else {"name": resource["name"]} for resource in resources]
    made = [{**task, "processor": new[task["processor"]]} for task in tasks]
    return Part({"processors": len(old), **({"resources": listed} if listed else {}), "tasks": made}, old)


def grouped(parts: Parts, homes: dict[str, int]) -> Groups:
    """What of a set belongs together."""
    groups = Groups()
    for resource, home in homes.items():
        groups.join(("resource", resource), ("processor", home))
    joined = [(("task", task["name"]), thing) for task in parts["tasks"] for thing in touched(task, homes)]
    for task, thing in joined:
        groups.join(task, thing)
    return groups


def used_by(tasks: list[Parts], resources: list[Parts]) -> list[Parts]:
    """Those of the resources that one of the tasks requests."""
    used = {request["resource"] for task in tasks for request in task.get("requests", [])}
    return [resource for resource in resources if resource["name"] in used]


def split(parts: Parts, with_homes: bool) -> list[Part]:
    """The parts of a set that share neither processor nor resource, and no home where these count; in the order of their highest tasks."""
    resources: list[Parts] = parts.get("resources", [])
    homes = {resource["name"]: resource["home"] for resource in resources if with_homes and "home" in resource}
    groups = grouped(parts, homes)
    members: dict[Hashable, list[Parts]] = {}
    for task in parts["tasks"]:
        members.setdefault(groups.head(("task", task["name"])), []).append(task)
    return [renumbered(tasks, used_by(tasks, resources), with_homes) for tasks in members.values()]
