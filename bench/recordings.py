#!/usr/bin/env python3
"""Records the tasks of examples/recorded-tasks.txt on this machine again and again, and says how the program judges each recording.

    python3 bench/recordings.py [PROGRAM] [--word fmlp+|spin|plain] [--recordings N] [--seconds N] [--more MILLISECONDS] [--keep FOLDER]

Each recording is judged at several ticks and latencies, under FMLP+, or under spin locks where the recorder spins. The set is
examples/recorded.json, in the ticks that are tried, with so many milliseconds more in each cost and length. It needs `cc`, three processors and the right to use SCHED_FIFO. It is no test: what
comes out depends on the machine and on what else runs there. PROGRAM is what `rt ci` or `./block` built, where none is given.
"""
import argparse
import json
import subprocess
import sys
import tempfile
from pathlib import Path

from commands import BUILT, TOP, built, run

sys.path.append(str(TOP / "tools"))
from cizborg import recording  # noqa: E402

EXAMPLE = TOP / "examples" / "recorded.json"
TASKS = TOP / "examples" / "recorded-tasks.txt"
# nanoseconds
WRITTEN_FOR = 10_000
TICKS = (200_000, 100_000, 10_000, 1_000)
LATENCIES = (100_000, 5_000, 0)


def in_ticks(value: dict, tick: int, more: int) -> dict:
    """The set in other ticks: periods are rounded down, and all else up, with so many nanoseconds more."""
    def up(number: int) -> int:
        return -(-(number * WRITTEN_FOR + more) // tick)

    tasks = [
        {**task, "period": task["period"] * WRITTEN_FOR // tick, "cost": up(task["cost"]), "requests": [{**one, "length": up(one["length"])} for one in task["requests"]]}
        for task in value["tasks"]
    ]
    return {**value, "tasks": tasks}


def judged(program: str, folder: Path, protocol: str, text: str, tick: int, latency: int, more: int) -> tuple[str, recording.Counts]:
    """The first line of the answer of `conform`, or why there are no rows, and what the rules had to do."""
    value = in_ticks(json.loads(EXAMPLE.read_text()), tick, more)
    try:
        made = recording.recorded(value, text, tick, latency)
    except recording.Refused as why:
        return f"no rows: {why}", recording.Counts()
    for name, content in (("set", json.dumps(value)), ("jobs", made.jobs), ("rows", made.rows)):
        (folder / name).write_text(content)
    ran = subprocess.run([program, "conform", protocol, "set", "jobs", "rows"], cwd=folder, capture_output=True, text=True)
    return ran.stdout.partition("\n")[0], made.counts


def arguments() -> argparse.Namespace:
    given = argparse.ArgumentParser()
    given.add_argument("program", nargs="?", default=str(BUILT))
    given.add_argument("--word", choices=("fmlp+", "spin", "plain"), default="fmlp+")
    given.add_argument("--recordings", type=int, default=3)
    given.add_argument("--seconds", type=int, default=10)
    given.add_argument("--more", type=int, default=0)
    given.add_argument("--keep", type=Path)
    return given.parse_args()


def main() -> None:
    given = arguments()
    program, protocol = built(given.program), "spin" if given.word == "spin" else "fmlp+"
    with tempfile.TemporaryDirectory(prefix="recordings-") as name:
        folder = Path(name)
        run(["cc", "-O2", "-pthread", "-o", "recorder", str(TOP / "tools" / "recorder" / "recorder.c")], folder)
        for number in range(1, given.recordings + 1):
            text = run([str(folder / "recorder"), given.word, str(TASKS), str(1000 * given.seconds)], folder)
            if given.keep:
                given.keep.mkdir(parents=True, exist_ok=True)
                (given.keep / f"{given.word}-{number}.csv").write_text(text)
            print(f"recording {number} of {given.seconds} s: {text.count(chr(10)) - 1} events")
            for tick in TICKS:
                for latency in LATENCIES:
                    answer, counts = judged(program, folder, protocol, text, tick, latency, 1_000_000 * given.more)
                    print(f"  tick {tick} ns, latency {latency} ns: {answer}", flush=True)
            print(*(f"  {line}" for line in counts.lines()), sep="\n", flush=True)


main()
