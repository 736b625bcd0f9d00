#!/usr/bin/env python3
"""Times `protocol_programs::program` beside the forming of the same programs in Python (tools/cizborg/blocking_programs.py), and prints
programs per second.

    python3 bench/programs.py

It wants `rt` on the path. It forms each task's program under each protocol, with the deadlines as bounds, of the plant and of sets at
the limits: 64 tasks, 32 resources and 256 request entries, on 4, 16 and 64 processors. The program that forms them is built in a
temporary directory; building proves it and the crates below it, which takes some minutes. Both must come to the same sums over all
numbers of a program. A line for each set and protocol: programs, columns and rows, programs per second with each, and their ratio.
It is no test: no gate runs it, and it bounds nothing.
"""
import json
import shutil
import tempfile
import time
from pathlib import Path

from commands import TOP, run
from cizborg.blocking_programs import TaskSet, program_of
from generated_sets import generated_at_limits, seeded

WANTED = ["protocol_programs", "program_sources", "program_form", "taskset_json", "sporadic_model"]
PROTOCOLS = ["mpcp", "fmlp+", "dpcp"]

RATTLE = Path(__file__).with_suffix(".rattle").read_text(encoding="utf-8")


INVARIANT = """use Rattle.std.proofs.Common.{ℕ, ◌<◌, ◌≤◌}
use Rattle.std.specs.Prelude.{slice_index}
use Rattle.sporadic_model.specs.SetDef.{task_at, latest_bound}
use Rattle.programs_bench.proofs.are_within.Given as goal

abbrev pub invariant-loop-i : goal.invariant-loop-i
invariant-loop-i l = (k : ℕ) → k < l.i → slice_index l.bounds k ≤ latest_bound (task_at l.set k)
"""


def sum_of(costs, rows):
    """A sum over all numbers of a program, zeros too."""
    total = 0
    for cost in costs:
        total = (total * 31 + cost) % 2**64
    for row, limit in rows:
        entries = dict(row)
        for number in [limit, *(entries.get(column, 0) for column in range(len(costs)))]:
            total = (total * 31 + number) % 2**64
    return total


def formed_plainly(data, protocol):
    """What our program writes of the set, formed in Python."""
    s = TaskSet(data)
    programs = columns = rows = total = took = 0
    for i in range(s.n):
        start = time.perf_counter_ns()
        program = program_of(s, protocol, i, s.deadline)
        took += time.perf_counter_ns() - start
        programs, columns, rows = programs + 1, columns + len(program[0]), rows + len(program[1])
        total = (total * 31 + sum_of(*program)) % 2**64
    return [programs, columns, rows, total, took]


def crates_below(names):
    """The lines of crates.txt for these crates and those below them."""
    lines = [line for line in (TOP / "crates.txt").read_text().splitlines() if ":" in line and not line.startswith("#")]
    of = {line.split(":")[0].split()[0]: line for line in lines}
    found, open_names = {}, list(names)
    while open_names:
        name = open_names.pop()
        if name in of and name not in found:
            found[name] = of[name]
            open_names += of[name].split(":")[1].split()
    return found


def build(folder):
    below = crates_below(WANTED)
    for name in below:
        shutil.copytree(TOP / "crates" / name, folder / "crates" / name, ignore=shutil.ignore_patterns("out", "must-fail"))
    crate = folder / "crates" / "programs_bench"
    (crate / "src").mkdir(parents=True)
    (crate / "src" / "main.rt").write_text(RATTLE)
    (crate / "proofs" / "are_within").mkdir(parents=True)
    (crate / "proofs" / "Lib.antt").write_text("")
    (crate / "proofs" / "are_within" / "Invariants.antt").write_text(INVARIANT)
    (folder / "crates.txt").write_text("\n".join(below.values()) + f"\nprograms_bench: {' '.join(WANTED)}\n")
    # the run that builds it finds no set
    (crate / "sets.txt").write_text("")
    run(["rt", "run"], crate)
    return crate / "out" / "programs_bench"


def main():
    sets = {"plant": json.loads((TOP / "examples" / "plant.json").read_text())}
    for processors in (4, 16, 64):
        sets[f"limits-{processors}"] = generated_at_limits(processors, seeded(processors))
    with tempfile.TemporaryDirectory() as name:
        folder = Path(name)
        program = build(folder)
        for label, data in sets.items():
            (folder / label).write_text(json.dumps(data))
        (folder / "sets.txt").write_text(" ".join(sets))
        lines = iter(run([program], folder).splitlines())
        print("set           protocol programs columns    rows   ours per second   Python per second   ours / Python")
        for label, data in sets.items():
            for protocol in PROTOCOLS:
                ours = list(map(int, next(lines).split()))
                theirs = formed_plainly(data, protocol)
                if ours[:4] != theirs[:4]:
                    raise SystemExit(f"{label} {protocol}: ours {ours[:4]}, and Python's {theirs[:4]}")
                count = ours[0]
                mine, plain_speed = count / max(ours[4], 1) * 1e9, count / max(theirs[4], 1) * 1e9
                print(f"{label:13} {protocol:8} {count:8} {ours[1]:7} {ours[2]:7} {mine:17.1f} {plain_speed:19.1f} {mine / max(plain_speed, 1e-9):15.1f}")


main()
