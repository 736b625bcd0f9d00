"""Makes task sets: of tables, and of parts of a set that share nothing."""
from __future__ import annotations

import json
import re
import sys
from fractions import Fraction
from pathlib import Path
from typing import Optional, Sequence

from .. import files
from ..program import TOP, Block, Parts, folder_of_calls
from ..schedule import read_set
from ..splitting import Part, split
from ..statuses import Status, Stop
from ..table import JSON, OUTPUT, SET, Command, Given, Kind, Option, Word
from ..tables import REQUESTS, TASKS, Faults, Line, Measure, table_of, tick_of, whole

ABOUT = """
Makes one task set of two tables in CSV.

TASKS has a line for each task, from the highest base priority to the lowest, and these columns in any order: task, processor, period,
cost, and where they are wanted deadline, local and jitter. REQUESTS has a line for each resource that a task requests: task, resource,
count, length, and where it is wanted home, the resource's. An empty cell of a column that may be left out says nothing. Fields stand
between commas, semicolons or tabs, as the header has them, and the names in the header may be of either case. Between semicolons a comma
is the decimal point.

Times are whole ticks, unless an option says what they are: --ticks-per-unit for times in one unit, with a decimal point; --cycles-per-tick
for times in cycles of a clock; or --tick, as in --tick 1us, where the header names the unit of each time in brackets, as in cost [ms].
Then periods and deadlines are rounded down to whole ticks, and all other times up, so that the set asks for no less than the tables do.
--spare-tick adds a tick to each cost after that, which a set needs that was measured on a clock finer than the tick. What was done is told
on standard error.
That lawful jobs of what was measured are then lawful jobs of the set is the law rounded_jobs_are_lawful_in_cycles of the crate clock_laws.

What is wrong is said by the line of its file. Which numbers a set may have the program alone knows: the set is written where it answers
the command `report mpcp` with the table, and else its refusal is told with the line that it is of.
"""


SPLIT = """
Finds the parts of a task set that share neither processor nor resource. Each can be analysed alone, whatever the others do: so a system
with more tasks than a set may have (64 tasks, 64 processors, 32 resources, 256 requests) is analysed in parts, where it has such parts.

Two tasks are in one part where they share a processor or a resource, or where one requests a resource whose home is the other's processor.
--without-homes leaves homes out, of what is looked at and of what is written: mpcp, fmlp+ and spin don't look at them.

Tasks keep their order. Processors are counted from 1 in each part, and a line for each part says which they were. With OUT the parts are
written, OUT with a number before its ending, and only where the program takes each of them. The set itself may be larger than what the
program takes. What the tool rests on is an argument in words (docs/GUIDE-MODEL.md), and no clause of a proof.
"""


def numbers_of(line: Line, names: Sequence[str], measure: Measure, faults: Faults) -> Parts:
    """The numbers of those of these cells that say something, by column."""
    return {name: whole(line, name, measure, faults) for name in names if name in line.cells}


def in_order(lines: list[Line], order: str, measure: Measure) -> list[Line]:
    """The lines of tasks from the highest base priority to the lowest."""
    if order == "lines":
        return lines
    quiet = Faults()
    return sorted(lines, key=lambda line: whole(line, order if order in line.cells else "period", measure, quiet) or 0)


def measure_of(given: Given) -> Measure:
    """How times become ticks, by the options."""
    scales = [word for word in ("ticks_per_unit", "cycles_per_tick", "tick") if getattr(given, word) is not None]
    if len(scales) > 1:
        raise Stop(f"--{scales[0].replace('_', '-')} and --{scales[1].replace('_', '-')} are not given together", Status.WORDS)
    spare = 1 if given.spare_tick else 0
    if given.tick is not None:
        return Measure(None, tick_of(given.tick), spare)
    if given.cycles_per_tick is not None:
        return Measure(Fraction(1, given.cycles_per_tick), None, spare)
    return Measure(None if given.ticks_per_unit is None else Fraction(given.ticks_per_unit), None, spare)


class Tables:
    """The two tables, and the set that they make."""

    def __init__(self, given: Given) -> None:
        self.faults = Faults()
        self.measure = measure_of(given)
        self.path: str = given.tasks
        self.tasks = in_order(table_of(given.tasks, TASKS, self.measure, self.faults), given.order, self.measure)
        self.requests = table_of(given.requests, REQUESTS, self.measure, self.faults) if given.requests else []
        names = {line.cells["task"] for line in self.tasks}
        for line in self.requests:
            if line.cells["task"] not in names:
                self.faults.add(line.place(), f"{given.tasks} has no task {line.cells['task']!r}")
        tasks = [self.task(line) for line in self.tasks]
        resources = self.resources()
        self.faults.end()
        processors = given.processors or max((task["processor"] for task in tasks), default=1)
        self.set: Parts = {"processors": processors, **({"resources": resources} if resources else {}), "tasks": tasks}

    def of_task(self, name: str) -> list[Line]:
        """The lines of requests of a task."""
        return [line for line in self.requests if line.cells["task"] == name]

    def task(self, line: Line) -> Parts:
        """A task as the set has it."""
        made: Parts = {"name": line.cells["task"], **numbers_of(line, ("processor", "period", "deadline", "cost", "local", "jitter"), self.measure, self.faults)}
        asked = [
            {"resource": request.cells["resource"], **numbers_of(request, ("count", "length"), self.measure, self.faults)}
            for request in self.of_task(line.cells["task"])
        ]
        return {**made, **({"requests": asked} if asked else {})}

    def named(self) -> dict[str, list[Line]]:
        """The lines of each resource, in the order in which they come up."""
        lines: dict[str, list[Line]] = {}
        for line in self.requests:
            lines.setdefault(line.cells["resource"], []).append(line)
        return lines

    def resources(self) -> list[Parts]:
        """The resources as the set has them."""
        made: list[Parts] = []
        for name, lines in self.named().items():
            told = [line for line in lines if "home" in line.cells]
            homes = [whole(line, "home", self.measure, self.faults) for line in told]
            for line, home in zip(told, homes):
                if home != homes[0]:
                    self.faults.add(line.place(), f"the home of {name} is {home} here, and {homes[0]} on line {told[0].number}")
            made.append({"name": name, **({"home": homes[0]} if homes else {})})
        return made

    def line_at(self, kind: str, numbers: Sequence[int]) -> Optional[Line]:
        """The line of which a refusal speaks, or None."""
        places = [number - 1 for number in numbers]
        if kind == "task":
            return self.tasks[places[0]]
        if kind == "request":
            return self.of_task(self.tasks[places[0]].cells["task"])[places[1]]
        if kind == "resource":
            return list(self.named().values())[places[0]][0]
        return None


def as_text(made: Parts) -> str:
    """The set as JSON, with a line for each task."""
    lines = [f'  "processors": {made["processors"]},']
    if "resources" in made:
        lines.append(f'  "resources": {json.dumps(made["resources"])},')
    tasks = ",\n".join(f"    {json.dumps(task)}" for task in made["tasks"])
    return "\n".join(["{", *lines, f'  "tasks": [\n{tasks}\n  ]', "}", ""])


def meaning(reason: str) -> str:
    """What the guide's table of refusals says of a reason, in brackets, or nothing."""
    guide = "".join(path.read_text(encoding="utf-8") for path in sorted((TOP / "docs").glob("GUIDE*.md")))
    refusals = guide.partition("\n## Refusals\n")[2]
    found = re.search(rf"^\| `{re.escape(reason)}[ `].*?\| (.*?) \|", refusals, re.M)
    return f" ({found[1]})" if found else ""


def judged(program: Path, text: str, tables: Tables) -> None:
    """Ends the tool with the place in the tables, where the program doesn't take the set."""
    with folder_of_calls() as folder:
        block = Block(program, "mpcp", folder)
        answer = block.answer("report", block.file(text))
    if answer.status == Status.DONE:
        return
    _, _, reason, *place = answer.line().split()
    line = tables.line_at(place[0], [int(word) for word in place[1:]]) if len(place) > 1 else None
    raise Stop(f"{line.place() if line else tables.path}: block report answers '{answer.line()}'{meaning(reason)}", answer.status)


def run_tables(given: Given) -> int:
    """Makes the set of the tables, and writes it where the program takes it."""
    tables = Tables(given)
    text = as_text(tables.set)
    if not given.unjudged:
        judged(given.program, text, tables)
    files.write_out(text, given.output)
    if tables.measure.rule():
        print(f"block set: {tables.measure.rule()}", file=sys.stderr)
    return Status.DONE


PLACES = (Word("TASKS", Kind.CSV, "the table of tasks"), Word("REQUESTS", Kind.CSV, "the table of requests; without it no task requests anything", is_needed=False))
ORDER = Option("--order", "lines, period or deadline: from the highest base priority to the lowest as the lines stand, or by rising periods or deadlines; equal ones stay in the "
               "order of their lines", Word("ORDER", Kind.CHOICE, "", choices=("lines", "period", "deadline")), "lines")
PROCESSORS = Option("--processors", "how many there are; without it as many as the greatest number in TASKS", Word("N", Kind.NUMBER, "", least=1))
def well_formed(path: str) -> Parts:
    """The set of a file, as far as the split looks at it. What else is wrong the program says of a part."""
    parts, _ = read_set(path)
    names = [task["name"] for task in parts["tasks"]]
    resources = {resource["name"] for resource in parts.get("resources", [])}
    asked = [request.get("resource") for task in parts["tasks"] for request in task.get("requests", [])]
    homes = [resource["home"] for resource in parts.get("resources", []) if "home" in resource]
    if len(set(names)) < len(names) or not set(asked) <= resources or not all(isinstance(home, int) for home in homes):
        raise Stop(f"{path} is no task set: two tasks have one name, a request names no resource, or a home is no number", Status.REFUSED)
    return parts


def named_parts(output: str, found: Sequence[Part]) -> list[str]:
    """The names of the files of the parts."""
    place = Path(output)
    return [str(place.with_name(f"{place.stem}-{number:0{len(str(len(found)))}}{place.suffix}")) for number in range(1, len(found) + 1)]


def write_parts(given: Given, found: Sequence[Part]) -> None:
    """Writes the parts, where the program takes all of them."""
    names = named_parts(given.out, found)
    if Path(given.set).resolve() in [Path(name).resolve() for name in names]:
        raise Stop(f"a part would be written over {given.set}", Status.WORDS)
    with folder_of_calls() as folder:
        block = Block(given.program, "mpcp", folder)
        for name, part in zip(names, found):
            answer = block.answer("report", block.file(as_text(part.parts)))
            if answer.status != Status.DONE:
                raise Stop(f"{name}: block report answers '{answer.line()}'{meaning(answer.line().split()[2])}, so nothing is written", answer.status)
    for name, part in zip(names, found):
        files.write_out(as_text(part.parts), name)


def run_split(given: Given) -> int:
    """Splits a set."""
    found = split(well_formed(given.set), not given.without_homes)
    if given.out:
        write_parts(given, found)
    if given.json:
        print(json.dumps([{"tasks": part.names(), "processors": part.processors, "set": part.parts} for part in found], indent=1))
        return Status.DONE
    for number, part in enumerate(found, 1):
        count = len(part.names())
        print(f"part {number}: {count} {'task' if count == 1 else 'tasks'} on processors {', '.join(map(str, part.processors))}: {', '.join(part.names())}")
    return Status.DONE


COUNT = Word("N", Kind.NUMBER, "", least=1)
UNIT = Option("--ticks-per-unit", "one unit of the tables' times is N ticks", COUNT)
CYCLES = Option("--cycles-per-tick", "the tables' times are cycles, N of which are a tick", COUNT)
TICK = Option("--tick", "how long a tick is, where the header names units", Word("TIME", Kind.TEXT, ""))
SPARE = Option("--spare-tick", "adds a tick to each cost")
UNJUDGED = Option("--unjudged", "writes the set without asking the program, as for a set that is split then")
HOMES = Option("--without-homes", "leaves out the homes of resources")
OUT = Word("OUT", Kind.OUTPUT, "the name of the parts, to which numbers are added; without it nothing is written", is_needed=False)
COMMANDS = (
    Command("set tables", PLACES, "makes a task set of two tables in CSV", ABOUT, run_tables, (ORDER, PROCESSORS, UNIT, CYCLES, TICK, SPARE, UNJUDGED, OUTPUT)),
    Command("set split", (SET, OUT), "finds the parts of a set that share neither processor nor resource", SPLIT, run_split, (HOMES, JSON)),
)
