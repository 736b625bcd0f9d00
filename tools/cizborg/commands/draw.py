"""Draws schedules and studies."""
from __future__ import annotations

import sys
from pathlib import Path
from typing import Iterator, Optional, Sequence

from .. import draw_schedule, draw_study, drawing, files, perfetto
from ..program import Block, folder_of_calls
from ..progress import Progress
from ..protocols import PROTOCOLS
from ..schedule import Picture, Task, picture_of
from ..statuses import Status, Stop
from ..table import JOBS, PROTOCOL, ROWS, SET, Command, Given, Kind, Option, Word
from ..windows import Window

SCHEDULE = """
Draws a schedule.

SET, JOBS and ROWS are files as the program reads them; OUT ends in .svg, .png or .pdf. There is a lane for each processor, and a colour
for each task. A box is a job that executes; in a request it is hatched by the resource. An arrow upwards is a release, one downwards a
deadline, and a dotted one upwards the arrival of a job that is released later. The thin bars below a lane are ticks at which a job of
that processor is blocked: active, not running, and not delayed by a higher task there. Where a job runs on another processor than its
task's, requests run at homes, and only a higher job that is outside its requests delays.

With --protocol the program is asked for `conform` first, and where it answers `broken` that tick is marked. Under `spin` a low box with a
dashed edge is a job that spins: it keeps its processor busy and doesn't execute, so it is blocked as well. --spin draws these without
asking.

Boxes that are narrower than the picture can show are left out, with a word. --from, --to, --tasks and --processors show less of the
schedule, and so more of what is left; --window draws a picture of each so many ticks, with its number in the name.

With --perfetto FILE the whole schedule is written as a Chrome trace too, which trace viewers open. A tick is shown there as a microsecond.

Status 1 says that the schedule is drawn, and that it breaks a rule.
"""
STUDY = """
Draws a study: how many of the sets of each step are schedulable under each protocol.

STUDY is what the program writes for `study`; OUT ends in .svg, .png or .pdf. Where SETS, the number of sets of a step that the study was
given, is said, shares are drawn, else numbers of sets. In step k the loads of a processor are 10 k % on average.
"""
# more pictures than this are refused
MOST_WINDOWS = 1000


def broken_at(given: Given) -> Optional[tuple[int, str]]:
    """The first tick at which a rule is broken, and the rule, as the program answers; None where it isn't asked, or the schedule is lawful."""
    if given.protocol is None:
        return None
    with folder_of_calls() as folder:
        answer = Block(given.program, given.protocol, folder).answer("conform", given.set, given.jobs, given.rows)
    if answer.status == Status.NO:
        _, tick, rule = answer.line().split()
        return int(tick), rule
    if answer.status != Status.DONE:
        raise Stop(f"block conform {given.protocol} answers {answer.line()}", answer.status)
    return None


def tasks_of(picture: Picture, names: Optional[str]) -> list[Task]:
    """The tasks of these names, with commas between them; all where none are given."""
    if names is None:
        return picture.tasks
    wanted = names.split(",")
    unknown = [name for name in wanted if name not in [task.name for task in picture.tasks]]
    if unknown:
        raise Stop(f"the set has no task {unknown[0]!r}", Status.WORDS)
    return [task for task in picture.tasks if task.name in wanted]


def processors_of(picture: Picture, numbers: Optional[str]) -> list[int]:
    """The processors of these numbers, with commas between them; all where none are given."""
    every = range(1, picture.set["processors"] + 1)
    if numbers is None:
        return list(every)
    unknown = [text for text in numbers.split(",") if text not in map(str, every)]
    if unknown:
        raise Stop(f"the set has no processor {unknown[0]!r}", Status.WORDS)
    return sorted({int(text) for text in numbers.split(",")})


def windows_of(picture: Picture, given: Given) -> list[Window]:
    """The windows that are drawn."""
    tasks, processors = tasks_of(picture, given.tasks), processors_of(picture, given.processors)
    start, end = given.start or 0, picture.ticks if given.end is None else min(given.end, picture.ticks)
    if start >= end:
        raise Stop(f"there is nothing to draw from tick {start} to {end}: the rows last {picture.ticks} ticks", Status.WORDS)
    step = given.window or end - start
    if (end - start - 1) // step >= MOST_WINDOWS:
        raise Stop(f"that would be more than {MOST_WINDOWS} pictures", Status.WORDS)
    return [Window(tick, min(tick + step, end), tasks, processors) for tick in range(start, end, step)]


def names_of(output: str, count: int) -> Iterator[str]:
    """The names of the pictures: OUT, or OUT with a number before its ending where there are several."""
    place = Path(output)
    for number in range(1, count + 1):
        yield output if count == 1 else str(place.with_name(f"{place.stem}-{number:0{len(str(count))}}{place.suffix}"))


def draw_all(picture: Picture, windows: Sequence[Window], output: str, broken: Optional[tuple[int, str]]) -> int:
    """Draws all windows; says how much is left out."""
    progress = Progress(len(windows), "pictures")
    left_out = 0
    for window, name in zip(windows, names_of(output, len(windows))):
        left_out += draw_schedule.draw(picture, window, name, broken)
        progress.step()
    progress.end()
    return left_out


def run_schedule(given: Given) -> int:
    """Draws a schedule."""
    drawing.want(given.out)
    if given.end is not None and given.end <= (given.start or 0):
        raise Stop("--to has to be above --from", Status.WORDS)
    broken = broken_at(given)
    spins = given.spin or given.protocol is not None and PROTOCOLS[given.protocol].rules == "spin"
    picture = picture_of(given.set, given.jobs, given.rows, spins)
    left_out = draw_all(picture, windows_of(picture, given), given.out, broken)
    if left_out:
        print(f"block draw: {left_out} boxes and arrows are too narrow or too many to be seen, and left out; --from, --to or --window show them", file=sys.stderr)
    if given.perfetto:
        files.write_out(perfetto.text_of(picture), given.perfetto)
    if broken:
        print(f"block draw: block conform {given.protocol} answers broken {broken[0]} {broken[1]}", file=sys.stderr)
    return Status.NO if broken else Status.DONE


def run_study(given: Given) -> int:
    """Draws a study."""
    drawing.want(given.out)
    draw_study.draw(given.study, given.out, given.sets)
    return Status.DONE


OUT = Word("OUT", Kind.OUTPUT, "the picture that is written, as .svg, .png or .pdf")
NUMBER = Word("TICK", Kind.NUMBER, "")
OPTIONS = (
    Option("--protocol", "the protocol by whose rules the schedule is judged", PROTOCOL),
    Option("--spin", "draws jobs that spin, without asking the program"),
    Option("--from", "the first tick that is drawn", NUMBER),
    Option("--to", "the tick at which the picture ends", NUMBER),
    Option("--window", "a picture for each so many ticks", Word("TICKS", Kind.NUMBER, "", least=1)),
    Option("--tasks", "the tasks that are drawn, with commas between their names", Word("NAMES", Kind.TEXT, "")),
    Option("--processors", "the processors that are drawn, with commas between their numbers", Word("NUMBERS", Kind.TEXT, "")),
    Option("--perfetto", "writes the whole schedule as a Chrome trace too", Word("FILE", Kind.OUTPUT, "")),
)
SETS = Word("SETS", Kind.NUMBER, "the number of sets of a step", is_needed=False, least=1)
COMMANDS = (
    Command("draw schedule", (SET, JOBS, ROWS, OUT), "draws a schedule", SCHEDULE, run_schedule, OPTIONS),
    Command("draw study", (Word("STUDY", Kind.FILE, "what the program wrote for `study`"), OUT, SETS), "draws what the program writes for study", STUDY, run_study, asks=False),
)
