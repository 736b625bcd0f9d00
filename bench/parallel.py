#!/usr/bin/env python3
"""Times analyses and a study with a round's programs solved side by side, and without, and prints the ratios.

    python3 bench/parallel.py [SEED [SIZE ..]]

Measured are `examples/plant.json`, the study 5 20, and generated sets of 16 to 64 tasks (or of SIZE tasks) on four processors, each under
each protocol; and the largest of these sets with requests twice as long, which has late tasks. Where its first task is late in the first
round, one program decides, and threads can gain nothing. It is the program that ./block builds, run in turn as it is and with a limit on
stacks that lets the system start no thread, where a round's programs are solved on one: so both are the same program, and must give the
same answer. Times are those of processes, the least of their tries; that of a call that answers `refused words` is taken off. A ratio
above 1 is how often faster the rounds side by side are; on four processors it can be at most 4. It is no test: no gate runs it, and it
bounds nothing.
"""
import json
import resource
import subprocess
import sys
import tempfile
import time
from pathlib import Path

from generated_sets import generated_crowded, seeded

TOP = Path(__file__).resolve().parent.parent
PROGRAM = TOP / "crates" / "block_cli" / "out" / "block_cli"
PROTOCOLS = ["mpcp", "fmlp+", "dpcp"]
# The longest request of a task, in ticks, with which all tasks of these sets pass, and one with which some of 64 tasks are late.
SHORT, LONG = 20, 40


# A stack for which no address space has room, so that no thread can be started.
NO_ROOM = 1 << 46


def without_threads():
    resource.setrlimit(resource.RLIMIT_STACK, (NO_ROOM, NO_ROOM))


def once(words, folder, threads):
    """The time of a call, its status and what it writes."""
    begun = time.perf_counter()
    done = subprocess.run([PROGRAM, *words], cwd=folder, capture_output=True, preexec_fn=None if threads else without_threads)
    return time.perf_counter() - begun, done.returncode, done.stdout


def measure(name, words, folder, tries):
    """Prints the times of both ways on this work, and their ratio."""
    answers, least = set(), {}
    for _ in range(tries):
        for way, (asked, threads) in {"beside": (words, True), "alone": (words, False), "start": ([], True), "bare": ([], False)}.items():
            took, status, text = once(asked, folder, threads)
            least[way] = min(took, least.get(way, took))
            if asked:
                answers.add((status, text))
    if len(answers) != 1:
        sys.exit(f"{name}: the answers differ")
    beside = max(least["beside"] - least["start"], 1e-6)
    alone = max(least["alone"] - least["bare"], 1e-6)
    times = f"side by side {beside * 1e3:10.2f} ms, alone {alone * 1e3:10.2f} ms"
    print(f"{name:24} status {answers.pop()[0]}  {times}, alone / side by side = {alone / beside:.2f}", flush=True)


def main():
    seed, *sizes = [int(word) for word in sys.argv[1:]] or [1]
    if subprocess.run([TOP / "block"], capture_output=True).returncode != 2:
        sys.exit("the program isn't built")
    with tempfile.TemporaryDirectory() as place:
        folder = Path(place)
        (folder / "set").write_bytes((TOP / "examples" / "plant.json").read_bytes())
        for protocol in PROTOCOLS:
            measure(f"plant {protocol}", ["analyse", protocol, "set"], folder, 15)
        measure("study 5 20", ["study", "5", "20"], folder, 3)
        sizes = sizes or [16, 32, 64]
        for tasks, longest, name in [*((tasks, SHORT, "tasks") for tasks in sizes), (sizes[-1], LONG, "with late ones")]:
            (folder / "set").write_text(json.dumps(generated_crowded(tasks, seeded(seed), longest)))
            for protocol in PROTOCOLS:
                measure(f"{tasks} {name} {protocol}", ["analyse", protocol, "set"], folder, 5)


main()
