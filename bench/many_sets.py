#!/usr/bin/env python3
"""Times the analysis of many sets at once, in the ways that the guide shows, and prints how many sets a second they take.

    python3 bench/many_sets.py [--sets N] [--tasks N] [--seed N] [--program FILE]

The sets are generated: 1000 of 16 tasks where nothing else is said, each analysed under fmlp+. `xargs` runs one process at a time, then
two, and so on up to as many as there are processors; GNU parallel, where it is installed, as many as there are processors. Each way is
tried three times, and the best time counts. The processor time of a set, which other work on the machine changes least, is told too, of
the program alone and with what starts it. The program is the one that ./block builds. It is no test: no gate runs it, and it bounds
nothing.
"""
import argparse
import json
import os
import resource
import shutil
import subprocess
import sys
import tempfile
import time
from pathlib import Path

from commands import BUILT
from generated_sets import generated, seeded

TRIES = 3
ALONE = 'for set in sets/*.json; do "$0" analyse fmlp+ "$set" >"$set.answer"; done'
XARGS = """ls sets/*.json | xargs -P "$1" -I SET sh -c '"$0" analyse fmlp+ "$1" >"$1.answer"; echo "$? $1"' "$0" SET >statuses"""
PARALLEL = """parallel --jobs "$1" --joblog statuses "$0 analyse fmlp+ {} >{}.answer" ::: sets/*.json"""


def timed(script, words, folder):
    """The least seconds of the tries, and the least seconds of processor time."""
    walls, processor = [], []
    for _ in range(TRIES):
        before = resource.getrusage(resource.RUSAGE_CHILDREN)
        begun = time.perf_counter()
        subprocess.run(["sh", "-c", script, *map(str, words)], cwd=folder, stderr=subprocess.DEVNULL)
        walls.append(time.perf_counter() - begun)
        after = resource.getrusage(resource.RUSAGE_CHILDREN)
        processor.append(after.ru_utime + after.ru_stime - before.ru_utime - before.ru_stime)
    return min(walls), min(processor)


def main():
    words = argparse.ArgumentParser(description=__doc__, formatter_class=argparse.RawDescriptionHelpFormatter)
    for name, least in (("--sets", 1000), ("--tasks", 16), ("--seed", 1)):
        words.add_argument(name, metavar="N", type=int, default=least)
    words.add_argument("--program", metavar="FILE", type=Path, default=BUILT)
    given = words.parse_args()
    if not given.program.is_file():
        sys.exit("build the program first: ./block analyse fmlp+ examples/plant.json")
    processors = os.cpu_count() or 1
    ways = [("one after the other", ALONE, 1), *((f"xargs -P {k}", XARGS, k) for k in range(1, processors + 1))]
    if shutil.which("parallel"):
        ways.append((f"parallel --jobs {processors}", PARALLEL, processors))
    print(f"{given.sets} sets of {given.tasks} tasks, {processors} processors, load {os.getloadavg()[0]:.1f} at the start")
    with tempfile.TemporaryDirectory(prefix="block-") as folder:
        draw = seeded(given.seed)
        (Path(folder) / "sets").mkdir()
        for k in range(given.sets):
            (Path(folder) / "sets" / f"{k}.json").write_text(json.dumps(generated(given.tasks, draw)))
        for name, script, jobs in ways:
            wall, processor = timed(script, [given.program.resolve(), jobs], folder)
            shown = sum(path.read_text().startswith("{") for path in Path(folder).glob("sets/*.answer"))
            print(f"{name:20} {given.sets / wall:7.1f} sets a second, {1000 * processor / given.sets:6.2f} ms of processor time each, {shown} schedulable", flush=True)


main()
