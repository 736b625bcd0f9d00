#!/usr/bin/env python3
"""Times `simulate` and `conform` on the plant of `examples/` over a million ticks and over a hundred million, beside a plain simulator
in C that goes tick by tick.

    python3 bench/ticks.py

It wants `rt` and `cc` on the path, and builds the program where it is out of date. Under each protocol both make the schedule of the
same 251 jobs, which must be the same text, and `conform` must find it lawful. For a hundred million ticks each time of the set and of
the jobs is a hundred times as long. Times are those of whole runs, the reading of the files and the start of the process with them. It
is no test: no gate runs it, and it bounds nothing.
"""
import csv
import json
import subprocess
import sys
import tempfile
from pathlib import Path

from commands import BUILT, TOP, run
from stretched import TICKS, stretch, timed

PROTOCOLS = ["mpcp", "fmlp+", "dpcp"]


def numbers(folder, protocol):
    """The set and the jobs as the numbers that the plain program reads."""
    plant = json.loads((folder / "set.json").read_text())
    resources = [resource["name"] for resource in plant["resources"]]
    names = [task["name"] for task in plant["tasks"]]
    with open(folder / "jobs.csv", newline="") as file:
        jobs = list(csv.DictReader(file))
    words = [PROTOCOLS.index(protocol), plant["processors"], len(resources), len(names), len(jobs)]
    words += [resource["home"] for resource in plant["resources"]]
    for task in plant["tasks"]:
        used = [request["resource"] for request in task["requests"]]
        words += [task["processor"]] + [int(name in used) for name in resources]
    for job in jobs:
        segments = segments_of(job["script"].split(), resources)
        words += [names.index(job["task"]) + 1, int(job["release"]), len(segments)]
        words += [number for segment in segments for number in segment]
    return " ".join(map(str, words))


def segments_of(tokens, resources):
    """Local ticks, the number of the resource and the length of its request, for each segment."""
    segments = []
    for token in tokens:
        if ":" in token:
            name, length = token.split(":")
            segments[-1][1:] = [resources.index(name) + 1, int(length)]
        else:
            segments.append([int(token), 0, 0])
    return segments


def measure(folder, protocol, ticks):
    block = [BUILT]
    (folder / "numbers.txt").write_text(numbers(folder, protocol))
    rows, simulating = timed(block + ["simulate", protocol, "set.json", "jobs.csv", str(ticks)], folder)
    (folder / "rows.csv").write_text(rows)
    plain, spent = timed(["./plain_simulate", "numbers.txt", str(ticks)], folder)
    if rows.split("\n", 1)[1] != plain:
        sys.exit(f"{protocol}: the plain program makes other rows")
    verdict, judging = timed(block + ["conform", protocol, "set.json", "jobs.csv", "rows.csv"], folder)
    if not verdict.startswith(f"lawful {ticks}\n"):
        sys.exit(f"{protocol}: {verdict}")
    print(f"{protocol:6} {ticks:9} ticks {rows.count(chr(10)) - 1:5} runs: simulate {simulating * 1000:7.1f} ms, plain C {spent * 1000:8.1f} ms,"
          f" simulate / plain C = {simulating / spent:.4f}; conform {judging * 1000:7.1f} ms, conform / plain C = {judging / spent:.4f}", flush=True)


def main():
    with tempfile.TemporaryDirectory() as name:
        folder = Path(name)
        run(["cc", "-O2", TOP / "bench" / "plain_simulate.c", "-o", "plain_simulate"], folder)
        # Builds the program; no words are refused with status 2.
        if subprocess.run([TOP / "block"], capture_output=True).returncode != 2:
            sys.exit("the program was not built")
        for factor in (1, 100):
            stretch(folder, factor)
            for protocol in PROTOCOLS:
                measure(folder, protocol, TICKS * factor)


main()
