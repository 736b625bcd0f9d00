"""Blocking programs as docs/ANALYSIS.md and docs/ROWS.md word them, for the tools and for benchmarks.

It shares nothing with the program that it is compared with. A blocking program is its columns' costs and its rows, each row a list of
(column, coefficient) and a limit, in the order of that page.
"""
from __future__ import annotations

from typing import Callable, Iterator, NamedTuple, Optional, Sequence

from .program import Parts
from .protocols import AT_HOMES, PROTOCOLS

# one bound for each task
Bounds = Sequence[int]
# a row: the columns that it has, each with its coefficient
Row = list[tuple[int, int]]
# if lower tasks may spin for more resources, the closer analysis of spin locks has no row that leaves out just a lone one, and several lone ones have
# no row of closer spinning each; and if more of these are used above, it has no row that leaves out just one of those
MANY = 10


class Column(NamedTuple):
    """A column: the requests of a resource by a task that block in one way."""

    task: int
    resource: int
    way: str


class TaskSet:
    """A set as its JSON has it, with counts and lengths by task and resource."""

    def __init__(self, parts: Parts) -> None:
        self.parts = parts
        self.tasks: list[Parts] = parts["tasks"]
        self.n = len(self.tasks)
        self.resources: list[Parts] = parts.get("resources", [])
        number = {resource["name"]: q for q, resource in enumerate(self.resources)}
        self.home: list[Optional[int]] = [resource.get("home") for resource in self.resources]
        self.processor: list[int] = [task["processor"] for task in self.tasks]
        self.period: list[int] = [task["period"] for task in self.tasks]
        self.cost: list[int] = [task["cost"] for task in self.tasks]
        self.jitter: list[int] = [task.get("jitter", 0) for task in self.tasks]
        self.deadline: list[int] = [task.get("deadline", task["period"]) for task in self.tasks]
        self.latest = [deadline - jitter for deadline, jitter in zip(self.deadline, self.jitter)]
        self.local: list[int] = [task.get("local", task["cost"]) for task in self.tasks]
        self.count: list[dict[int, int]] = [{} for _ in self.tasks]
        self.length: list[dict[int, int]] = [{} for _ in self.tasks]
        for x, task in enumerate(self.tasks):
            for request in task.get("requests", []):
                self.count[x][number[request["resource"]]] = request["count"]
                self.length[x][number[request["resource"]]] = request["length"]

    def users(self, q: int) -> list[int]:
        """Who requests q, the highest first."""
        return [x for x in range(self.n) if q in self.count[x]]

    def is_shared_out(self, x: int, q: int) -> bool:
        """Does a task of another processor than x's request q?"""
        return any(self.processor[y] != self.processor[x] for y in self.users(q))

    def boost(self, q: int, k: int) -> int:
        """The highest user of q that isn't on processor k, and where there is none the highest."""
        return min([x for x in self.users(q) if self.processor[x] != k] or self.users(q))

    def jobs(self, bounds: Bounds, i: int, x: int) -> int:
        """How many jobs of x run while one of i does, at most."""
        return self.jobs_in(bounds[i], bounds, x)

    def jobs_in(self, ticks: int, bounds: Bounds, x: int) -> int:
        """How many jobs of x run in so many ticks, at most."""
        return -(-(ticks + bounds[x] + self.jitter[x]) // self.period[x])

    def time_at(self, x: int, k: Optional[int]) -> int:
        """For how many ticks the requests of a job of x run on processor k, at most."""
        return sum(n * self.length[x][q] for q, n in self.count[x].items() if self.home[q] == k)

    def window(self, bounds: Bounds, i: int, q: int) -> Optional[int]:
        """Within how many ticks of its issue a request of q by i ends under DPCP, or None where no such number is within the deadline."""
        k = self.home[q]
        lower = [self.length[x][r] for x in range(i + 1, self.n) for r in self.count[x] if self.home[r] == k and min(self.users(r)) <= i]
        ticks, least = 0, 1
        while ticks < least <= self.deadline[i]:
            ticks = least
            higher = sum(self.jobs_in(ticks, bounds, x) * self.time_at(x, k) for x in range(i))
            least = self.length[i][q] + max(lower, default=0) + higher
        return ticks if least <= ticks else None

    def goes_first(self, x: int, q: int, r: int) -> bool:
        """May x run its request of q under MPCP while another task of its processor holds r?"""
        k = self.processor[x]
        return q != r and self.boost(q, k) <= self.boost(r, k)

    def interfering(self, protocol: str, bounds: Bounds, i: int) -> Iterator[tuple[int, int, int]]:
        """Of each higher task on i's processor the task, how many of its jobs run in i's window, and the ticks that one of them takes there."""
        for h in range(i):
            if self.processor[h] == self.processor[i]:
                each = self.local[h] if protocol in AT_HOMES else self.cost[h]
                yield h, -(-(bounds[i] + bounds[h] + self.jitter[h] - each) // self.period[h]), each

    def interference(self, protocol: str, bounds: Bounds, i: int) -> int:
        """The ticks that jobs of higher tasks on i's processor take in its window."""
        return sum(jobs * each for _, jobs, each in self.interfering(protocol, bounds, i))


def has_path(s: TaskSet, protocol: str, i: int, x: int, q: int) -> bool:
    """May a holder on x's processor that i waits for be kept from running by x's request of q?"""
    k = s.processor[x]
    for y in range(s.n):
        if y in (x, i) or s.processor[y] != k:
            continue
        for r in s.count[y]:
            if r != q and r in s.count[i] and (protocol != "mpcp" or s.boost(q, k) <= s.boost(r, k)):
                return True
    return False


def ways_beside(s: TaskSet, protocol: str, i: int, x: int, q: int) -> Iterator[str]:
    """The ways in which x's requests of q may block i where each runs on its task's processor, and who waits is suspended."""
    here = s.processor[x] == s.processor[i]
    if here and x < i:
        return
    if q in s.count[i]:
        yield "direct"
    if has_path(s, protocol, i, x, q):
        yield "indirect"
    if here:
        yield "preemption"


def ways_at_home(s: TaskSet, protocol: str, i: int, x: int, q: int) -> Iterator[str]:
    """The ways in which x's requests of q may block i where they run on q's home. Only DPCP has ceilings, which keep lower ones away."""
    if q in s.count[i]:
        yield "direct"
    beside = any(r != q and s.home[r] == s.home[q] for r in s.count[i])
    if beside and (protocol == "dflp" or x < i or min(s.users(q)) <= i):
        yield "indirect"
    if s.home[q] == s.processor[i]:
        yield "preemption"


def ways_by_spinning(s: TaskSet, _: str, i: int, x: int, q: int) -> Iterator[str]:
    """The ways in which x's requests of q may block i where who waits spins, and no job in a request is preempted."""
    k = s.processor[i]
    if s.processor[x] == k:
        if x > i:
            yield "preemption"
        return
    if q in s.count[i]:
        yield "direct"
    if any(z != i and s.processor[z] == k for z in s.users(q)):
        yield "indirect"


def columns_of(s: TaskSet, protocol: str, i: int) -> list[Column]:
    """The columns of task i."""
    rules = PROTOCOLS[protocol].rules
    ways = ways_by_spinning if rules == "spin" else ways_at_home if rules in AT_HOMES else ways_beside
    others = [x for x in range(s.n) if x != i]
    return [Column(x, q, way) for x in others for q in sorted(s.count[x]) for way in ways(s, rules, i, x, q)]


def held_by(s: TaskSet, bounds: Bounds, i: int, r: int, higher: Sequence[int], lower: Sequence[int]) -> int:
    """How often these tasks can hold r while i waits for it: higher ones each as often as they request it, lower ones together once before each request of i."""
    held = sum(s.count[y][r] * s.jobs(bounds, i, y) for y in higher if y < i and r in s.count[y])
    return held + (s.count[i][r] if any(y > i and r in s.count[y] for y in lower) else 0)


def beside(s: TaskSet, i: int, x: int) -> list[int]:
    """The tasks of x's processor other than x and i."""
    return [y for y in range(s.n) if y not in (x, i) and s.processor[y] == s.processor[x]]


def holdings(s: TaskSet, bounds: Bounds, i: int, x: int) -> int:
    """How often another task of x's processor can hold what i waits for."""
    return sum(held_by(s, bounds, i, r, beside(s, i, x), beside(s, i, x)) for r in s.count[i])


class Instead(NamedTuple):
    """A task whose requests may run in place of holders: for how many ticks one of these may, and all that one of its jobs makes."""

    task: int
    holders: list[int]
    one: int
    every: int


class Waits:
    """How long task i waits at these bounds until its requests are granted, under MPCP."""

    def __init__(self, s: TaskSet, bounds: Bounds, i: int) -> None:
        self.s, self.bounds, self.i = s, bounds, i
        self.windows: dict[int, Optional[int]] = {}

    def window(self, q: int) -> Optional[int]:
        """Within how many ticks of its issue a request of q is granted, or None where no such number is within the deadline."""
        if q not in self.windows:
            self.windows[q] = self.least_window(q)
        return self.windows[q]

    def least_window(self, q: int) -> Optional[int]:
        """The same, found from below."""
        lower, higher, others = self.lower_holding(q), [y for y in self.s.users(q) if y < self.i], self.instead_of_higher(q)
        ticks, least = 0, 1
        while ticks < least <= self.s.deadline[self.i]:
            ticks = least
            requests = {y: self.s.count[y][q] * self.jobs(y, ticks) for y in higher}
            own = sum(requests[y] * self.s.length[y][q] for y in higher)
            instead = sum(min(sum(requests[y] for y in one.holders) * one.one, self.jobs(one.task, ticks) * one.every) for one in others)
            least = lower + own + instead
        return ticks if least <= ticks else None

    def jobs(self, x: int, ticks: int) -> int:
        """How many jobs of x run in so many ticks, at most."""
        return self.s.jobs_in(ticks, self.bounds, x)

    def going_first(self, x: int, q: int) -> list[int]:
        """Of which resources x may run a request while another task of its processor holds q."""
        return [r for r in self.s.count[x] if self.s.goes_first(x, r, q)]

    def longest_first(self, x: int, q: int) -> int:
        """For how many ticks one of these requests may run."""
        return max((self.s.length[x][r] for r in self.going_first(x, q)), default=0)

    def lower_holding(self, q: int) -> int:
        """For how many ticks a lower task of another processor may hold q: its own request runs, and one of each task beside it."""
        s, i = self.s, self.i
        lower = [y for y in s.users(q) if y > i and s.processor[y] != s.processor[i]]
        return max((s.length[y][q] + sum(self.longest_first(x, q) for x in beside(s, i, y)) for y in lower), default=0)

    def instead_of_higher(self, q: int) -> list[Instead]:
        """The tasks whose requests may run in place of higher holders of q."""
        s = self.s
        found: list[Instead] = []
        for x in range(s.n):
            holders = [y for y in s.users(q) if y < self.i and y != x and s.processor[y] == s.processor[x]]
            if x != self.i and holders:
                every = sum(s.count[x][r] * s.length[x][r] for r in self.going_first(x, q))
                found.append(Instead(x, holders, self.longest_first(x, q), every))
        return found

    def requests(self, x: int, q: int) -> int:
        """How many requests of q by x can run while a job of i waits for q: within its windows, and while it runs."""
        s, ticks = self.s, self.window(q)
        every = s.count[x][q] * s.jobs(self.bounds, self.i, x)
        return every if ticks is None else min(every, s.count[self.i][q] * s.count[x][q] * self.jobs(x, ticks))


def shared_holdings(s: TaskSet, waits: Waits, i: int, x: int, requests: Sequence[int]) -> int:
    """How often it can hold what is shared out while i waits for it, of what x may run one of these requests before. Of the lower tasks none of i's
    processor holds what i waits for, and the others hold it together once before each request of i."""
    others = beside(s, i, x)
    lower = [] if s.processor[x] == s.processor[i] else [y for y in others if y > i]
    held = 0
    for r in s.count[i]:
        if s.is_shared_out(i, r) and any(s.goes_first(x, q, r) for q in requests):
            held += sum(waits.requests(y, r) for y in others if y < i and r in s.count[y])
            held += s.count[i][r] if any(r in s.count[y] for y in lower) else 0
    return held


def run_beside_away_holdings(s: TaskSet, bounds: Bounds, i: int, x: int) -> int:
    """How many requests of x can run while i waits for what x's processor holds: one for each request of i, and one for each holding elsewhere."""
    here, k = s.processor[i], s.processor[x]
    there = [y for y in range(s.n) if y != i and s.processor[y] == k]
    higher = [y for y in range(i) if s.processor[y] != k]
    lower = [y for y in range(i + 1, s.n) if s.processor[y] not in (k, here)]
    may_wait = [r for r in s.count[i] if s.is_shared_out(i, r) and any(r in s.count[y] for y in there)]
    return sum(s.count[i][r] + held_by(s, bounds, i, r, higher, lower) for r in may_wait)


class Shape:
    """What bounds leave as it is in task i's program: its columns' costs, and its rows with limits as functions of the bounds."""

    def __init__(self, s: TaskSet, protocol: str, i: int) -> None:
        self.s, self.i = s, i
        self.columns = columns_of(s, protocol, i)
        self.costs = [s.length[x][q] for x, q, _ in self.columns]
        self.rows: list[tuple[Row, Callable[[Bounds], int]]] = []
        self.last_waits: Optional[Waits] = None
        self.others = [x for x in range(s.n) if x != i]
        self.processors = range(1, s.parts["processors"] + 1)
        self.every = list(enumerate(self.columns))
        self.of_task = {x: [(c, column) for c, column in enumerate(self.columns) if column[0] == x] for x in self.others}
        for kind in KINDS[protocol]:
            kind(self)

    def add(self, limit: Callable[[Bounds], int], columns: list[tuple[int, Column]], weight: Callable[[Column], int]) -> None:
        """Adds the row of these columns, each with its weight, where one has a weight above 0."""
        row = [(c, weight(column)) for c, column in columns if weight(column)]
        if row:
            self.rows.append((row, limit))

    def add_requests(self) -> None:
        """Of a task and a resource: no more requests than its jobs make."""
        for x in self.others:
            for q in sorted(self.s.count[x]):
                self.add_requests_of(x, q)

    def add_requests_of(self, x: int, q: int) -> None:
        """The row of x and q."""
        self.add(lambda r: self.s.count[x][q] * self.s.jobs(r, self.i, x), self.of_task[x], lambda c: int(c.resource == q))

    def add_time(self) -> None:
        """Of a task: no longer than its jobs execute."""
        for x in self.others:
            self.add_time_of(x)

    def add_time_of(self, x: int) -> None:
        """The row of x."""
        self.add(lambda r: self.s.cost[x] * self.s.jobs(r, self.i, x), self.of_task[x], lambda c: self.s.length[x][c.resource])

    def add_intervals(self) -> None:
        """Of a lower local task: one request after each time at which i becomes ready."""
        for x in self.others:
            if x > self.i and self.s.processor[x] == self.s.processor[self.i]:
                self.add(lambda r: 1 + self.requests(), self.of_task[x], lambda c: int(c.way == "preemption"))

    def add_turns(self) -> None:
        """Of a task and a resource: one request before each of i."""
        for x in self.others:
            for q in sorted(self.s.count[x]):
                self.add_own(self.of_task[x], q, lambda c: True)

    def add_own(self, columns: list[tuple[int, Column]], q: int, is_counted: Callable[[Column], bool]) -> None:
        """A row of those of these columns that block directly by q, no more of which than i has requests of q."""
        self.add(lambda r: self.s.count[self.i].get(q, 0), columns, lambda c: int(c[1:] == (q, "direct") and is_counted(c)))

    def add_queues(self) -> None:
        """Of a task: one request before each of i."""
        for x in self.others:
            self.add(lambda r: self.requests(), self.of_task[x], lambda c: int(c.way != "preemption"))

    def add_lower_holders(self) -> None:
        """Of a resource: one lower holder before each request of i."""
        for q in range(len(self.s.resources)):
            self.add_own(self.every, q, lambda c: c.task > self.i)

    def add_holdings(self) -> None:
        """Of a task: one request in each holding that i waits for."""
        for x in self.others:
            self.add_holdings_of(x)

    def add_holdings_of(self, x: int) -> None:
        """The row of x."""
        self.add(lambda r: holdings(self.s, r, self.i, x), self.of_task[x], lambda c: int(c.way == "indirect"))

    def add_homes(self) -> None:
        """Of a processor: one lower request before each of i there."""
        for k in self.processors:
            self.add_home(k, self.every, lambda c: c.task > self.i)

    def add_home_queues(self) -> None:
        """Of a task and a processor: one request before each of i there."""
        for x in self.others:
            for k in self.processors:
                self.add_home(k, self.of_task[x], lambda c: True)

    def add_home(self, k: int, columns: list[tuple[int, Column]], is_counted: Callable[[Column], bool]) -> None:
        """A row of those of these columns that are waited for at home k, no more of which than i has requests there."""
        here = [(c, column) for c, column in columns if is_counted(column) and self.s.home[column.resource] == k]
        self.add(lambda r: self.requests_at(k), here, lambda c: int(c.way != "preemption"))

    def add_windows(self) -> None:
        """Of a higher task and a resource: what runs in the windows of requests."""
        for x in range(self.i):
            for q in sorted(self.s.count[x]):
                self.add_window(x, q)

    def add_window(self, x: int, q: int) -> None:
        """The row of x and q."""
        self.add(lambda r: self.requests_met(r, x, q), self.of_task[x], lambda c: int(c.resource == q and c.way != "preemption"))

    def add_lower_requests(self) -> None:
        """One request of a lower local task."""
        self.add(lambda r: 1, self.every, lambda c: int(c.way == "preemption"))

    def add_spinning(self) -> None:
        """Of a processor and a resource: one request for each that spins."""
        for k in self.processors:
            for q in range(len(self.s.resources)):
                self.add_spinning_of(k, q)

    def add_spinning_of(self, k: int, q: int) -> None:
        """The row of k and q."""
        columns = [(c, column) for c, column in self.every if self.s.processor[column.task] == k]
        self.add(lambda r: self.spins(r, q), columns, lambda c: int(c.resource == q and c.way != "preemption"))

    def add_own_spinning(self) -> None:
        """Of a processor and a resource: one request for each of i that spins."""
        for k in self.processors:
            columns = [(c, column) for c, column in self.every if self.s.processor[column.task] == k]
            for q in range(len(self.s.resources)):
                self.add_own(columns, q, lambda c: True)

    def add_closer_spinning(self) -> None:
        """Of a processor and a resource: one request for each that spins, or in place of the lower one a request of another resource that runs."""
        for k in self.processors:
            spun, lone = self.spun_below(k), self.lone_below(k)
            left_out = lone if len(spun) > MANY and len(lone) > 1 else []
            for q in range(len(self.s.resources)):
                if q not in left_out:
                    self.add_closer_spinning_of(k, q, q in spun)

    def add_closer_spinning_of(self, k: int, q: int, is_spun_below: bool) -> None:
        """The row of k and q."""
        processor = self.s.processor
        self.add(lambda r: self.spins(r, q), self.every,
                 lambda c: int(is_spun_below and c.resource != q if c.way == "preemption" else processor[c.task] == k and c.resource == q))

    def add_lower_spinning(self) -> None:
        """Of a processor: of all that lower local tasks spin for there, one request for each that spins, or a lower one of others that runs."""
        for k in self.processors:
            if self.spun_above(k):
                self.add_together(k, self.spun_below(k))

    def add_other_lower_spinning(self) -> None:
        """Of a processor and a resource: the same of the others of these. If it is used above, two or more of these are, and not many. If it isn't,
        these aren't many."""
        for k in self.processors:
            spun = self.spun_below(k)
            for q in spun:
                if self.is_set_apart(k, q):
                    self.add_together(k, [r for r in spun if r != q])

    def is_set_apart(self, k: int, q: int) -> bool:
        """Has a row all that lower local tasks spin for on k but this one of them?"""
        above = self.spun_above(k)
        return 1 < len(above) <= MANY if q in above else len(self.spun_below(k)) <= MANY

    def add_lone_lower_spinning_with(self) -> None:
        """Of a processor and a resource that is used above: the same of it and of those that aren't, where three or more are used above."""
        for k in self.processors:
            above = self.spun_above(k)
            for q in above if len(above) > 2 else []:
                self.add_together(k, [q, *self.lone_below(k)])

    def add_lone_lower_spinning(self) -> None:
        """Of a processor: the same of those that aren't used above."""
        for k in self.processors:
            self.add_together(k, self.lone_below(k))

    def add_together(self, k: int, resources: list[int]) -> None:
        """The row of these resources, which is there if they are two or more."""
        if len(resources) > 1:
            processor = self.s.processor
            self.add(lambda r: 1 + sum(self.spins_above(r, q) for q in resources), self.every,
                     lambda c: int(c.resource not in resources if c.way == "preemption" else processor[c.task] == k and c.resource in resources))

    def spun_below(self, k: int) -> list[int]:
        """The resources which both a lower task of i's processor and a task of k, another processor, request."""
        s, here = self.s, self.s.processor[self.i]
        lower = [x for x in range(self.i + 1, s.n) if s.processor[x] == here]
        there = [x for x in range(s.n) if s.processor[x] == k != here]
        return [q for q in range(len(s.resources)) if any(q in s.count[x] for x in lower) and any(q in s.count[x] for x in there)]

    def spun_above(self, k: int) -> list[int]:
        """Those of them that i or a higher task of its processor requests."""
        s, here = self.s, self.s.processor[self.i]
        return [q for q in self.spun_below(k) if any(x <= self.i and s.processor[x] == here for x in s.users(q))]

    def lone_below(self, k: int) -> list[int]:
        """The others of them."""
        above = self.spun_above(k)
        return [q for q in self.spun_below(k) if q not in above]

    def add_holders(self) -> None:
        """Of a task: one request before each of i that its processor may hold up."""
        for x in self.others:
            self.add_holders_of(x)

    def add_holders_of(self, x: int) -> None:
        """The row of x."""
        self.add(lambda r: self.held_up(x, (self.i,)), self.of_task[x], lambda c: int(c.way != "preemption"))

    def add_other_holders(self) -> None:
        """Of a task and a resource: one request in each wait for another resource that another task of its processor may hold."""
        for x in self.others:
            for q in sorted(self.s.count[x]):
                self.add_other_holders_of(x, q)

    def add_other_holders_of(self, x: int, q: int) -> None:
        """The row of x and q."""
        self.add(lambda r: self.held_up(x, (self.i, x), q), self.of_task[x], lambda c: int(c[1:] == (q, "indirect")))

    def add_lower_tasks(self) -> None:
        """Of a lower local task: one request in each interval that a release or a request that is shared out begins."""
        for x in self.others:
            if x > self.i and self.s.processor[x] == self.s.processor[self.i]:
                self.add(lambda r: 1 + self.shared_requests(), self.of_task[x], lambda c: 1)

    def add_local_preemption(self) -> None:
        """One request in each of these intervals, of what only i's processor requests."""
        self.add(lambda r: 1 + self.shared_requests(), self.every, lambda c: int(c.way == "preemption" and not self.s.is_shared_out(self.i, c.resource)))

    def add_local_waits(self) -> None:
        """No request of what only i's processor requests is waited for."""
        self.add(lambda r: 0, self.every, lambda c: int(c.way == "direct" and not self.s.is_shared_out(self.i, c.resource)))

    def add_local_runners(self) -> None:
        """No request of what only its task's processor requests runs before what i waits for."""
        self.add(lambda r: 0, self.every, lambda c: int(c.way == "indirect" and not self.s.is_shared_out(c.task, c.resource)))

    def add_home_tasks(self) -> None:
        """Of a processor: one request of its own tasks before each of i there, and none where it is i's."""
        for k in self.processors:
            self.add_home_tasks_of(k)

    def add_home_tasks_of(self, k: int) -> None:
        """The row of k."""
        s = self.s
        here = [(c, column) for c, column in self.every if s.processor[column.task] == k == s.home[column.resource]]
        self.add(lambda r: 0 if k == s.processor[self.i] else self.requests_at(k), here, lambda c: int(c.way != "preemption"))

    def add_lower_home_tasks(self) -> None:
        """Of a lower local task: one request in each interval that a release or a request elsewhere begins."""
        for x in self.others:
            if x > self.i and self.s.processor[x] == self.s.processor[self.i]:
                self.add(lambda r: 1 + self.requests_away(), self.of_task[x], lambda c: 1)

    def add_lower_preemption(self) -> None:
        """One request of all lower local tasks in each of these intervals."""
        lower = [(c, column) for c, column in self.every if column.task > self.i and self.s.processor[column.task] == self.s.processor[self.i]]
        self.add(lambda r: 1 + self.requests_away(), lower, lambda c: int(c.way == "preemption"))

    def add_lower_home_waits(self) -> None:
        """No request of a lower task is waited for on i's processor."""
        here = [(c, column) for c, column in self.every if column.task > self.i and self.s.home[column.resource] == self.s.processor[self.i]]
        self.add(lambda r: 0, here, lambda c: int(c.way != "preemption"))

    def requests_away(self) -> int:
        """The requests of i that run on other processors."""
        return self.requests() - self.requests_at(self.s.processor[self.i])

    def add_shared_holdings(self) -> None:
        """Of a task: one request in each holding that is shared out, before which it may run one."""
        for x in self.others:
            self.add_shared_holdings_of(x)

    def add_shared_holdings_of(self, x: int) -> None:
        """The row of x."""
        self.add(lambda r: shared_holdings(self.s, self.waits(r), self.i, x, sorted(self.s.count[x])), self.of_task[x], lambda c: int(c.way == "indirect"))

    def add_holdings_by_resource(self) -> None:
        """Of a task and a resource: one of its requests of the resource in each such holding, before which it may run that."""
        for x in self.others:
            for q in sorted(self.s.count[x]):
                self.add_resource_holdings_of(x, q)

    def add_resource_holdings_of(self, x: int, q: int) -> None:
        """The row of x and q."""
        self.add(lambda r: shared_holdings(self.s, self.waits(r), self.i, x, [q]), self.of_task[x], lambda c: int(c[1:] == (q, "indirect")))

    def add_away_holdings(self) -> None:
        """Of a task: one request before each of i that its processor may hold up, and one more for each holding elsewhere."""
        for x in self.others:
            self.add_away_holdings_of(x)

    def add_away_holdings_of(self, x: int) -> None:
        """The row of x."""
        self.add(lambda r: run_beside_away_holdings(self.s, r, self.i, x), self.of_task[x], lambda c: int(c.way != "preemption"))

    def add_shared_intervals(self) -> None:
        """Of a lower local task: one request that preempts in each interval that a release or a request that is shared out begins."""
        for x in self.others:
            if x > self.i and self.s.processor[x] == self.s.processor[self.i]:
                self.add(lambda r: 1 + self.shared_requests(), self.of_task[x], lambda c: int(c.way == "preemption"))

    def add_lower_waits(self) -> None:
        """No request of a lower local task is waited for."""
        self.add(lambda r: 0, self.every, lambda c: int(c.way == "direct" and c.task > self.i and self.s.processor[c.task] == self.s.processor[self.i]))

    def add_direct_waits(self) -> None:
        """Of a higher task and a resource: what runs in the waits of requests."""
        for x in range(self.i):
            for q in sorted(self.s.count[x]):
                self.add_direct_waits_of(x, q)

    def add_direct_waits_of(self, x: int, q: int) -> None:
        """The row of x and q."""
        self.add(lambda r: self.waits(r).requests(x, q), self.of_task[x], lambda c: int(c[1:] == (q, "direct")))

    def waits(self, bounds: Bounds) -> Waits:
        """The waits of i at these bounds. The last ones are kept, since rows ask for them again."""
        if self.last_waits is None or self.last_waits.bounds != tuple(bounds):
            self.last_waits = Waits(self.s, tuple(bounds), self.i)
        return self.last_waits

    def shared_requests(self) -> int:
        """The requests of i of what tasks of other processors request too."""
        return sum(n for q, n in self.s.count[self.i].items() if self.s.is_shared_out(self.i, q))

    def held_up(self, x: int, but: tuple[int, ...], left_out: Optional[int] = None) -> int:
        """Those of them, of another resource than `left_out`, that tasks of x's processor may hold up, other than these."""
        s, i = self.s, self.i
        holders = [y for y in range(s.n) if y not in but and s.processor[y] == s.processor[x]]
        shared = [q for q in s.count[i] if q != left_out and s.is_shared_out(i, q)]
        return sum(s.count[i][q] for q in shared if any(q in s.count[y] for y in holders))

    def spins(self, bounds: Bounds, q: int) -> int:
        """How many requests of q from i's processor may spin while a job of i is there."""
        s, i = self.s, self.i
        return self.spins_above(bounds, q) + int(any(x > i and s.processor[x] == s.processor[i] for x in s.users(q)))

    def spins_above(self, bounds: Bounds, q: int) -> int:
        """Those of them by i and by higher tasks."""
        s, i = self.s, self.i
        higher = [h for h in s.users(q) if h < i and s.processor[h] == s.processor[i]]
        return s.count[i].get(q, 0) + sum(s.count[h][q] * s.jobs(bounds, i, h) for h in higher)

    def requests_met(self, bounds: Bounds, x: int, q: int) -> int:
        """The requests of q by x that i waits for at its home: no more than run within the windows of i's own requests there."""
        s, i = self.s, self.i
        every = s.count[x][q] * s.jobs(bounds, i, x)
        windows = {r: s.window(bounds, i, r) for r in s.count[i] if s.home[r] == s.home[q]}
        met = 0
        for r, ticks in windows.items():
            if ticks is None:
                return every
            met += s.count[i][r] * s.count[x][q] * s.jobs_in(ticks, bounds, x)
        return min(every, met)

    def requests(self) -> int:
        """All requests of i."""
        return sum(self.s.count[self.i].values())

    def requests_at(self, k: int) -> int:
        """The requests of i that run on processor k."""
        return sum(n for q, n in self.s.count[self.i].items() if self.s.home[q] == k)

    def limits(self, bounds: Bounds) -> list[int]:
        """The limits of the rows at these bounds."""
        return [limit(bounds) for _, limit in self.rows]


# the kinds of rows of each protocol, in the order in which they stand
COMMON = (Shape.add_requests, Shape.add_time, Shape.add_intervals)
KINDS: dict[str, tuple[Callable[[Shape], None], ...]] = {
    "mpcp": (*COMMON, Shape.add_lower_holders, Shape.add_holdings),
    "fmlp+": (*COMMON, Shape.add_turns, Shape.add_queues),
    "dpcp": (*COMMON, Shape.add_homes),
    "dflp": (*COMMON, Shape.add_turns, Shape.add_home_queues),
    "dpcp-w": (*COMMON, Shape.add_homes, Shape.add_windows),
    "spin": (Shape.add_requests, Shape.add_time, Shape.add_lower_requests, Shape.add_spinning, Shape.add_own_spinning),
}
KINDS["fmlp+-c"] = (
    *KINDS["fmlp+"],
    Shape.add_holders,
    Shape.add_other_holders,
    Shape.add_lower_tasks,
    Shape.add_local_preemption,
    Shape.add_local_waits,
    Shape.add_local_runners,
)
KINDS["spin-c"] = (
    Shape.add_requests,
    Shape.add_time,
    Shape.add_lower_requests,
    Shape.add_own_spinning,
    Shape.add_lower_spinning,
    Shape.add_other_lower_spinning,
    Shape.add_lone_lower_spinning_with,
    Shape.add_lone_lower_spinning,
    Shape.add_closer_spinning,
)
KINDS["mpcp-c"] = (
    Shape.add_requests,
    Shape.add_time,
    Shape.add_lower_holders,
    Shape.add_shared_holdings,
    Shape.add_holdings_by_resource,
    Shape.add_away_holdings,
    Shape.add_shared_intervals,
    Shape.add_local_preemption,
    Shape.add_lower_waits,
    Shape.add_direct_waits,
)


def program_of(s: TaskSet, protocol: str, i: int, bounds: Bounds) -> tuple[list[int], list[tuple[Row, int]]]:
    """The costs of task i's program, and its rows with their limits at these bounds."""
    shape = Shape(s, protocol, i)
    return shape.costs, [(row, limit) for (row, _), limit in zip(shape.rows, shape.limits(bounds))]


def as_lp(costs: Sequence[int], rows: Sequence[tuple[Row, int]]) -> str:
    """The program in the format of CPLEX, which glpsol and esolver read: columns y0, y1, .. and rows r0, r1, .."""
    lines = ["Maximize", " worth: " + (" + ".join(f"{cost} y{c}" for c, cost in enumerate(costs)) or "0 y0"), "Subject To"]
    lines += [f" r{k}: " + " + ".join(f"{weight} y{c}" for c, weight in row) + f" <= {limit}" for k, (row, limit) in enumerate(rows)]
    return "\n".join(lines + ["End", ""])
KINDS["dpcp-c"] = (*KINDS["dpcp-w"], Shape.add_home_tasks, Shape.add_lower_home_tasks, Shape.add_lower_preemption, Shape.add_lower_home_waits)
KINDS["dflp-c"] = (*KINDS["dflp"], Shape.add_home_tasks, Shape.add_lower_home_tasks, Shape.add_lower_preemption)
