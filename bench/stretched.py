"""The plant of `examples/` over longer times, for the benchmarks that read its files."""
import csv
import json
import time

from commands import TOP, run

SET = TOP / "examples" / "plant.json"
JOBS = TOP / "examples" / "plant-jobs.csv"
TICKS = 1_000_000
TRIES = 3


def stretch(folder, factor):
    """Writes the set and the jobs with each time so many times as long."""
    plant = json.loads(SET.read_text())
    for task in plant["tasks"]:
        for name in ("period", "cost"):
            task[name] *= factor
        for request in task["requests"]:
            request["length"] *= factor
    (folder / "set.json").write_text(json.dumps(plant))
    with open(JOBS, newline="") as file:
        jobs = list(csv.DictReader(file))
    lines = ["task,release,script"]
    for job in jobs:
        words = [stretched(word, factor) for word in job["script"].split()]
        lines.append(f"{job['task']},{int(job['release']) * factor},{' '.join(words)}")
    (folder / "jobs.csv").write_text("\n".join(lines) + "\n")


def stretched(word, factor):
    name, colon, length = word.rpartition(":")
    return f"{name}{colon}{int(length) * factor}"


def timed(command, folder):
    """What the command writes, and the least seconds of some tries."""
    least = float("inf")
    for _ in range(TRIES):
        start = time.perf_counter()
        text = run(command, folder)
        least = min(least, time.perf_counter() - start)
    return text, least
