"""Task sets for experiments, drawn from parameters as the literature has them."""
from __future__ import annotations

import math
import random
from dataclasses import dataclass
from typing import Callable, Mapping, Union

from .program import Parts

Value = Union[int, float]


@dataclass(frozen=True)
class Parameters:
    """What sets are drawn from. The load is that of each processor, and times are in ticks."""

    load: float
    tasks: int
    processors: int
    resources: int
    access: float
    requests: int
    shortest_length: int
    longest_length: int
    shortest_period: int
    longest_period: int
    periods: str

    def wrong(self) -> str:
        """What is wrong with them, or nothing."""
        checks = {
            "the load has to be above 0 and at most 1": 0 < self.load <= 1,
            "there are 1 to 64 tasks": 1 <= self.tasks <= 64,
            "there are 1 to 64 processors, and a task for each": 1 <= self.processors <= min(64, self.tasks),
            "there are at most 32 resources": 0 <= self.resources <= 32,
            "the access is a probability": 0 <= self.access <= 1,
            "a job requests a resource 1 to 1000 times": 1 <= self.requests <= 1000,
            "lengths are from 1 on, the shortest first": 1 <= self.shortest_length <= self.longest_length,
            "periods are from 2 to 1,000,000,000, the shortest first": 2 <= self.shortest_period <= self.longest_period <= 1_000_000_000,
        }
        return next((what for what, is_right in checks.items() if not is_right), "")


def uunifast(count: int, load: float, draw: random.Random) -> list[float]:
    """Loads that come to the given one, drawn with equal weight among all such (UUniFast)."""
    left, loads = load, []
    for others in range(count - 1, 0, -1):
        rest = left * draw.random() ** (1 / others)
        loads.append(left - rest)
        left = rest
    return [*loads, left]


def log_uniform(least: int, most: int, draw: random.Random) -> int:
    """A number whose logarithm is drawn with equal weight."""
    return min(max(round(math.exp(draw.uniform(math.log(least), math.log(most)))), least), most)


PERIODS: Mapping[str, Callable[[int, int, random.Random], int]] = {"log-uniform": log_uniform, "uniform": lambda least, most, draw: draw.randint(least, most)}


def requests_of(parameters: Parameters, cost: int, draw: random.Random) -> list[Parts]:
    """The requests of a task: each resource with the given probability, as long as all requests together are shorter than the cost."""
    left, asked = cost - 1, []
    for q in range(1, parameters.resources + 1):
        is_asked, count = draw.random() < parameters.access, draw.randint(1, parameters.requests)
        length = draw.randint(parameters.shortest_length, parameters.longest_length)
        if is_asked and count * length <= left:
            asked.append({"resource": f"q{q}", "count": count, "length": length})
            left -= count * length
    return asked


def task_of(parameters: Parameters, name: str, processor: int, load: float, draw: random.Random) -> Parts:
    """A task of this load. Its deadline is its period."""
    period = PERIODS[parameters.periods](parameters.shortest_period, parameters.longest_period, draw)
    cost = min(max(round(load * period), 1), period)
    asked = requests_of(parameters, cost, draw)
    return {"name": name, "processor": processor, "period": period, "cost": cost, **({"requests": asked} if asked else {})}


def set_of(parameters: Parameters, draw: random.Random) -> Parts:
    """A set: tasks are dealt to the processors in turn, and each processor has the load. Shorter periods are higher, and the resources have their
    homes on the processors in turn."""
    dealt = [range(k, parameters.tasks, parameters.processors) for k in range(parameters.processors)]
    tasks = []
    for processor, places in enumerate(dealt, 1):
        for place, load in zip(places, uunifast(len(places), parameters.load, draw)):
            tasks.append(task_of(parameters, f"t{place + 1}", processor, load, draw))
    tasks.sort(key=lambda task: (task["period"], task["name"]))
    resources = [{"name": f"q{q}", "home": (q - 1) % parameters.processors + 1} for q in range(1, parameters.resources + 1)]
    return {"processors": parameters.processors, **({"resources": resources} if resources else {}), "tasks": tasks}
