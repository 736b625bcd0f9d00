"""What a dossier rests on: the inputs as they were judged, and what the program answered to them."""
from __future__ import annotations

import hashlib
import json
import shlex
from dataclasses import dataclass
from pathlib import Path
from typing import Mapping, Optional

from . import files, schedule
from .blocking_programs import KINDS, TaskSet
from .program import Block, Parts, folder_of_calls
from .protocols import AT_HOMES
from .reasons import Asking, Reason, all_shown, at_refusal, bounds_of, need_programs, steps_of
from .statuses import UNKNOWN, Status, Stop
from .times import Clock


@dataclass(frozen=True)
class Input:
    """An input: its word, the path that was given, and its bytes."""

    word: str
    path: str
    data: bytes

    def name(self) -> str:
        """The name of the file, without its folders."""
        return Path(self.path).name

    def digest(self) -> str:
        """The SHA-256 of the bytes, as sha256sum prints it."""
        return hashlib.sha256(self.data).hexdigest()


@dataclass(frozen=True)
class Asked:
    """A command as a user gives it, and the text that the program answered with status 0."""

    command: str
    text: str


@dataclass(frozen=True)
class Task:
    """A task as the set has it, with what the report says of it: bound, blocking and slack."""

    place: int
    name: str
    processor: int
    period: int
    deadline: int
    jitter: int
    cost: int
    local: int
    requests: tuple[Parts, ...]
    bound: int
    blocking: int
    slack: int

    def interfering(self, protocol: str) -> int:
        """The ticks for which one job of this task delays a lower one of its processor, at most."""
        return self.local if protocol in AT_HOMES else self.cost


@dataclass(frozen=True)
class Interference:
    """What a higher task adds to a bound: at most so many of its jobs, each for so many ticks."""

    task: Task
    jobs: int
    each: int

    def ticks(self) -> int:
        """All its ticks."""
        return self.jobs * self.each


@dataclass(frozen=True)
class Figures:
    """What an audit says of a task. The response is None where no job of it finished."""

    name: str
    response: Optional[int]
    bound: int
    blocked: int
    value: int
    direct: int
    indirect: int
    preemption: int


def read_input(word: str, path: str) -> Input:
    """An input, or the end of the tool."""
    return Input(word, path, files.read_bytes(path))


class Inputs:
    """Inputs as bytes, and what the program answers to them. Some have names of their own."""

    kinds: Mapping[str, str] = {}

    def __init__(self, program: Path, protocol: str, paths: Mapping[str, str], clock: Clock) -> None:
        self.protocol, self.clock = protocol, clock
        self.inputs = {word: read_input(word, path) for word, path in paths.items()}
        self.program = read_input("program", str(program))

    def copied(self, folder: str) -> None:
        """Copies the inputs, so that what is judged is what the digests and numbers of the page are of."""
        for word, taken in self.inputs.items():
            (Path(folder) / word).write_bytes(taken.data)

    def asked(self, block: Block, command: str, *inputs: str) -> Asked:
        """What the program answers to a command over these inputs, which has to have status 0."""
        shown = shlex.join(["block", command, self.protocol, *(self.inputs[word].path for word in inputs)])
        answer = block.answer(command, *(block.folder / word for word in inputs))
        if answer.status != Status.DONE:
            raise Stop(f"{shown} answers {answer.line()}, so nothing is written", answer.status)
        return Asked(shown, answer.text)


class Refused(Inputs):
    """A set with a refusal that the program confirms."""

    kinds = {"cert": "certificate of refusal"}

    def __init__(self, program: Path, protocol: str, paths: Mapping[str, str], clock: Clock) -> None:
        super().__init__(program, protocol, paths, clock)
        with folder_of_calls() as folder:
            self.copied(folder)
            block = Block(program, protocol, folder)
            self.confirm = self.asked(block, "confirm", "set", "cert")
            self.report = self.asked(block, "report", "set")
        need_programs(protocol)
        self.set: Parts = json.loads(self.inputs["set"].data)
        self.s = TaskSet(self.set)
        self.steps = steps_of(self.inputs["cert"].data.decode("utf-8"))
        self.reason = at_refusal(self.s, protocol, self.steps, None, [self.confirm.command])

    def answers(self) -> list[Asked]:
        """What the program was asked, in that order."""
        return [self.confirm, self.report]


def is_refusal(path: str) -> bool:
    """Whether a file is a refusal and not a certificate, as far as its verdict says."""
    try:
        value = json.loads(files.read_bytes(path))
    except ValueError:
        return False
    return isinstance(value, dict) and value.get("verdict") == "notshown"


class Evidence(Inputs):
    """A set with a certificate that is valid, and the answers. Making it ends the tool where the program doesn't accept them."""

    def __init__(self, program: Path, protocol: str, paths: Mapping[str, str], clock: Clock = Clock(None)) -> None:
        super().__init__(program, protocol, paths, clock)
        with folder_of_calls() as folder:
            self.copied(folder)
            block = Block(program, protocol, folder)
            self.check = self.asked(block, "check", "set", "cert")
            self.report = self.asked(block, "report", "set", "cert")
            self.audit = self.asked(block, "audit", *paths) if "rows" in paths else None
            self.picture = self.drawn_from(folder) if self.audit else None
            self.set: Parts = json.loads(self.inputs["set"].data)
            self.reasons = self.reasons_of(block)
        self.tasks = self.tasks_of()

    def reasons_of(self, block: Block) -> list[Reason]:
        """What the least bounds consist of, and which tasks block; nothing where the program doesn't find them, or this tool knows no columns."""
        if self.protocol not in KINDS:
            return []
        asking = Asking(block, self.set, self.inputs["set"].path, [])
        try:
            return all_shown(asking, range(asking.s.n), bounds_of(asking) or [])
        except Stop as stop:
            if stop.status in UNKNOWN:
                return []
            raise

    def drawn_from(self, folder: str) -> Optional[schedule.Picture]:
        """The boxes of the recording, or None where it has no tick."""
        if not self.ticks():
            return None
        place = Path(folder)
        return schedule.picture_of(str(place / "set"), str(place / "jobs"), str(place / "rows"), spins=self.protocol == "spin")

    def answers(self) -> list[Asked]:
        """What the program was asked, in that order."""
        return [answer for answer in (self.check, self.report, self.audit) if answer]

    def tasks_of(self) -> list[Task]:
        """The tasks of the set with the numbers of the report, which have to be of each other."""
        made = []
        for place, (part, line) in enumerate(zip(self.set["tasks"], self.report.text.splitlines()[1:])):
            name, *numbers = line.split()
            processor, period, deadline, cost, local, bound, blocking, slack = map(int, numbers)
            requests = tuple(part.get("requests", ()))
            task = Task(place, name, processor, period, deadline, part.get("jitter", 0), cost, local, requests, bound, blocking, slack)
            if slack != deadline - task.jitter - bound:
                raise Stop(f"the slack of {name} is {slack} in the report, which is not its deadline less its jitter less its bound", Status.LACKING)
            made.append(task)
        return made

    def interference(self, task: Task) -> list[Interference]:
        """What each higher task of the processor adds to the task's bound, by the recurrence of docs/ANALYSIS.md."""
        added = []
        for higher in self.tasks[: task.place]:
            if higher.processor == task.processor:
                each = higher.interfering(self.protocol)
                added.append(Interference(higher, -(-(task.bound + higher.bound + higher.jitter - each) // higher.period), each))
        return added

    def room(self, task: Task) -> int:
        """The ticks by which the bound is above its parts, which `check` has found to be at most the bound."""
        room = task.bound - task.cost - task.blocking - sum(part.ticks() for part in self.interference(task))
        if room < 0:
            raise Stop(f"the parts of {task.name} come to more than its bound, which `check` doesn't find", Status.LACKING)
        return room

    def loads(self) -> list[int]:
        """The load of each processor in millionths."""
        return [int(line.split()[2]) for line in self.report.text.splitlines()[1 + len(self.tasks) :]]

    def ticks(self) -> int:
        """How many ticks the recording lasts."""
        assert self.audit is not None
        return int(self.audit.text.split(None, 2)[1])

    def figures(self) -> list[Figures]:
        """The figures of the audit, for each task."""
        assert self.audit is not None
        lines = [line.split() for line in self.audit.text.splitlines()[1:]]
        return [Figures(name, None if response == "-" else int(response), *map(int, rest)) for name, response, *rest in lines]
