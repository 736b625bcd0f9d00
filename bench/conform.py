#!/usr/bin/env python3
"""Times the judging of schedules (`trace_conform::conform_with`) beside a plain reading of the same rules in C, and prints the ratios.

    python3 bench/conform.py [SEED]

It wants `rt` and `cc` on the path. Sets of 20 tasks on 4 processors with 6 resources, up to 250 jobs of them and the schedules of these
jobs over 10,000 to 100,000,000 ticks are made here, by a generator and a simulator of the script's own; each schedule is judged as runs
of equal rows and, up to 100,000 ticks, with a row for each tick. The plain reading judges each tick on its own. Both answers must be the
same, verdict, measures and all, and lawful. Reading the files is left out of both times, and the least of three tries counts, but past
a million ticks, where one try of the plain reading takes half a minute. The program that judges is built in a temporary directory; building proves it and the
crates below it, which takes some minutes. It is no test: no gate runs it, and it bounds nothing.
"""
import json
import random
import shutil
import sys
import tempfile
from dataclasses import dataclass, field
from pathlib import Path

from commands import TOP, run
from generated_sets import assembled

PROTOCOLS = ["mpcp", "fmlp+", "dpcp"]
PROCESSORS = 4
RESOURCES = 6
TASKS = 20
TRIES = 3

RATTLE = Path(__file__).with_suffix(".rattle").read_text(encoding="utf-8")


@dataclass
class Task:
    processor: int
    period: int
    cost: int
    lengths: dict


@dataclass
class Job:
    task: int
    release: int
    segments: list  # (local ticks, resource or None, length)
    at: int = 0
    into: int = 0
    issued: int = 0

    def over(self):
        return self.at == len(self.segments)

    def asked(self):
        """The resource that it requests now, or None where it is Local."""
        local, resource, _ = self.segments[self.at]
        return resource if self.into >= local else None

    def left(self):
        """The ticks until its phase ends."""
        local, _, length = self.segments[self.at]
        return local - self.into if self.into < local else local + length - self.into


@dataclass
class State:
    tick: int = 0
    holders: list = field(default_factory=lambda: [None] * RESOURCES)


def make_tasks(draw, ticks):
    tasks = []
    for x in range(TASKS):
        period = ticks // draw.randint(8, 15)
        cost = max(period * draw.randint(60, 130) // 1000, 8)
        lengths = {q: draw.randint(1, max(cost // 6, 1)) for q in draw.sample(range(RESOURCES), draw.randint(1, 3))}
        tasks.append(Task(x % PROCESSORS, period, cost, lengths))
    return sorted(tasks, key=lambda task: task.period)


def make_jobs(draw, tasks, ticks):
    jobs = []
    for x, task in enumerate(tasks):
        for release in range(draw.randrange(task.period), ticks, task.period):
            left = task.cost - sum(task.lengths.values())
            segments = []
            for q, length in task.lengths.items():
                local = draw.randint(1, max(left // 3, 1))
                left -= local
                segments.append((local, q, length))
            segments.append((max(left, 1), None, 0))
            jobs.append(Job(x, release, segments))
    return jobs[:250]


def homes():
    return [q % PROCESSORS for q in range(RESOURCES)]


class Simulator:
    """Chooses rows by the rules, a stretch of equal ones at a time."""

    def __init__(self, protocol, tasks, jobs):
        self.protocol, self.tasks, self.jobs = protocol, tasks, jobs
        self.state = State()
        self.queues = [[job for job in jobs if job.task == x] for x in range(len(tasks))]
        self.users = [[x for x, task in enumerate(tasks) if q in task.lengths] for q in range(RESOURCES)]

    def active(self):
        """The active job of each task that has one, from the highest."""
        firsts = [next((job for job in queue if not job.over()), None) for queue in self.queues]
        return [job for job in firsts if job is not None and job.release <= self.state.tick]

    def boost(self, q, k):
        others = [x for x in self.users[q] if self.tasks[x].processor != k]
        return min(others or self.users[q])

    def grant(self, active):
        kept = [h if h in active and h.asked() == q else None for q, h in enumerate(self.state.holders)]
        waiting = [job for job in active if job.asked() is not None and kept[job.asked()] is not job]
        if self.protocol == "dpcp":
            return self.grant_at_homes(kept, waiting)
        holders = list(kept)
        for q in range(RESOURCES):
            asking = [job for job in waiting if job.asked() == q]
            if holders[q] is None and asking:
                holders[q] = min(asking, key=lambda job: (job.issued if self.protocol == "fmlp+" else 0, job.task))
        return holders

    def grant_at_homes(self, kept, waiting):
        holders = list(kept)
        for k in range(PROCESSORS):
            asking = [job for job in waiting if homes()[job.asked()] == k]
            ceiling = min([min(self.users[q]) for q, h in enumerate(kept) if h is not None and homes()[q] == k], default=TASKS)
            if asking and asking[0].task < ceiling:
                holders[asking[0].asked()] = asking[0]
        return holders

    def run_on(self, k, active, holders):
        if self.protocol == "dpcp":
            held = [job for job in active if job.asked() is not None and homes()[job.asked()] == k and holders[job.asked()] is job]
            local = [job for job in active if job.asked() is None and self.tasks[job.task].processor == k]
            return next(iter(held + local), None)
        own = [job for job in active if self.tasks[job.task].processor == k]
        held = [job for job in own if job.asked() is not None and holders[job.asked()] is job]
        rank = (lambda job: job.issued) if self.protocol == "fmlp+" else (lambda job: self.boost(job.asked(), k))
        if held:
            return min(held, key=lambda job: (rank(job), job.task))
        return next((job for job in own if job.asked() is None), None)

    def step(self, ticks):
        """The next stretch of equal rows: its ticks, what runs and who holds."""
        active = self.active()
        holders = self.grant(active)
        running = [self.run_on(k, active, holders) for k in range(PROCESSORS)]
        releases = [job.release for job in self.jobs if job.release > self.state.tick]
        ends = [job.left() for job in running if job is not None]
        stretch = min(ends + [release - self.state.tick for release in releases] + [ticks - self.state.tick])
        self.state = State(self.state.tick + stretch, holders)
        for job in running:
            if job is not None:
                self.advance(job, stretch)
        return stretch, running, holders

    def advance(self, job, stretch):
        local, resource, length = job.segments[job.at]
        job.into += stretch
        if job.into == local and resource is not None:
            job.issued = self.state.tick
        if job.into == local + length:
            job.at, job.into = job.at + 1, 0

    def schedule(self, ticks):
        runs = []
        while self.state.tick < ticks:
            runs.append(self.step(ticks))
        return runs


def set_text(tasks):
    listed = [(task.processor + 1, task.period, task.cost, [(q, 1, length) for q, length in task.lengths.items()]) for task in tasks]
    return json.dumps(assembled(PROCESSORS, [home + 1 for home in homes()], listed))


def jobs_text(jobs):
    lines = ["task,release,script"]
    for job in jobs:
        script = " ".join(f"{local} q{q + 1}:{length}" if q is not None else f"{local}" for local, q, length in job.segments)
        lines.append(f"t{job.task + 1},{job.release},{script}")
    return "\n".join(lines) + "\n"


def rows_text(runs):
    lines = [",".join(["ticks"] + [f"P{k + 1}" for k in range(PROCESSORS)] + [f"q{q + 1}" for q in range(RESOURCES)])]
    lines += [",".join([str(ticks)] + [str(cell or "") for cell in running + holders]) for ticks, running, holders in runs]
    return "\n".join(lines) + "\n"


def numbers_text(protocol, tasks, jobs, runs):
    """The same as the numbers that the plain program reads."""
    words = [PROTOCOLS.index(protocol), PROCESSORS, RESOURCES, len(tasks), len(jobs), len(runs)]
    words += [home + 1 for home in homes()]
    for task in tasks:
        words += [task.processor + 1] + [int(q in task.lengths) for q in range(RESOURCES)]
    for job in jobs:
        words += [job.task + 1, job.release, len(job.segments)]
        for local, q, length in job.segments:
            words += [local, 0 if q is None else q + 1, length]
    for ticks, running, holders in runs:
        words += [ticks] + running + holders
    return " ".join(map(str, words))


def closure(names):
    """The repository's crates that these stand on, with them, and the lines of crates.txt."""
    lines = dict(line.split(":", 1) for line in (TOP / "crates.txt").read_text().splitlines() if line and not line.startswith("#"))
    needed = []
    while names:
        name = names.pop()
        if name in lines and name not in needed:
            needed.append(name)
            names += lines[name].split()
    return [(name, lines[name]) for name in needed]


def build(folder):
    uses = "trace_conform trace_csv taskset_json mpcp_rules fmlp_rules dpcp_rules schedule_model sporadic_model"
    crates = closure(uses.split())
    for name, _ in crates:
        shutil.copytree(TOP / "crates" / name, folder / "crates" / name, ignore=shutil.ignore_patterns("out", "must-fail"))
    crate = folder / "crates" / "conform_bench"
    (crate / "src").mkdir(parents=True)
    (crate / "src" / "main.rt").write_text(RATTLE)
    lines = [f"{name}:{needs}" for name, needs in crates] + [f"conform_bench: {uses}"]
    (folder / "crates.txt").write_text("\n".join(lines) + "\n")
    # the run that builds it is refused its empty files
    for name in ("protocol.txt", "set.json", "jobs.csv", "rows.csv"):
        (crate / name).write_text("")
    run(["rt", "run"], crate)
    return crate / "out" / "conform_bench"


def best(command, folder, tries):
    """The answer, and the least time of so many tries in nanoseconds."""
    answers = [run(command, folder).splitlines() for _ in range(tries)]
    return answers[0][0], min(int(answer[1]) for answer in answers)


def numbered(jobs, runs):
    """The runs with the jobs' numbers, from 1; 0 for none."""
    number = {id(job): j + 1 for j, job in enumerate(jobs)}
    cells = lambda row: [number[id(job)] if job is not None else 0 for job in row]
    return [(ticks, cells(running), cells(holders)) for ticks, running, holders in runs]


def joined(runs):
    """The runs with equal neighbours made one."""
    whole = []
    for ticks, running, holders in runs:
        if whole and whole[-1][1:] == (running, holders):
            ticks += whole.pop()[0]
        whole.append((ticks, running, holders))
    return whole


def measure(folder, ours, plain, protocol, tasks, jobs, runs):
    (folder / "protocol.txt").write_text(protocol)
    (folder / "set.json").write_text(set_text(tasks))
    (folder / "jobs.csv").write_text(jobs_text(jobs))
    (folder / "rows.csv").write_text(rows_text(runs))
    (folder / "numbers.txt").write_text(numbers_text(protocol, tasks, jobs, runs))
    ticks = sum(run[0] for run in runs)
    tries = TRIES if ticks <= 1_000_000 else 1
    answer, took = best([ours], folder, tries)
    other, spent = best([plain, "numbers.txt"], folder, tries)
    if answer != other or not answer.startswith("lawful"):
        sys.exit(f"{protocol}: {answer[:300]}, and the plain reading says {other[:300]}")
    print(f"{protocol:6} {ticks:10} ticks {len(runs):7} runs {len(jobs):4} jobs: {took / ticks:8.3g} ns a tick, {took / len(runs):8.3g} ns a run;"
          f" plain C {spent / ticks:6.3g} ns a tick; conform / plain C = {took / spent:.3g}", flush=True)


def main():
    seed = int(sys.argv[1]) if len(sys.argv) > 1 else 1
    with tempfile.TemporaryDirectory() as name:
        folder = Path(name)
        run(["cc", "-O2", TOP / "bench" / "plain_conform.c", "-o", "plain_conform"], folder)
        ours = build(folder)
        for ticks in (10_000, 100_000, 1_000_000, 100_000_000):
            for protocol in PROTOCOLS:
                draw = random.Random(seed)
                tasks = make_tasks(draw, ticks)
                jobs = make_jobs(draw, tasks, ticks)
                runs = joined(numbered(jobs, Simulator(protocol, tasks, jobs).schedule(ticks)))
                measure(folder, ours, folder / "plain_conform", protocol, tasks, jobs, runs)
                if ticks <= 100_000:
                    single = [(1, *run[1:]) for run in runs for _ in range(run[0])]
                    measure(folder, ours, folder / "plain_conform", protocol, tasks, jobs, single)


main()
