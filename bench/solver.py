#!/usr/bin/env python3
"""Times `simplex::solve_sparse` on the programs of a file beside other solvers, compares the optima, and prints the ratios of the times.

    python3 bench/solver.py [FILE]

It wants `rt` on the path. The others are measured where they are installed, and a word is printed where they are not:
    plain   the same run in plain Rust over rows of nonzero cells (bench/plain_run.rs), by `rustc`; timed around its run alone
    glpk    GLPK in floating point, in one process (bench/glpk_time.c, which `cc` compiles with the package libglpk-dev), timed around its
            solving alone; and `glpsol` of the package glpk-utils with --exact
    qsopt   `esolver` of the package qsopt-ex, which is exact
`glpsol` and `esolver` are timed as processes, less the time of a process that solves one column: such a difference is as uneven as the
starts of processes are, some ten milliseconds for all programs of the file. Of each program the least of three times counts, for us and
for GLPK in floating point of three solutions in one process, for the others of three processes.
Where `cc` is installed the memory that the exchanges take is counted too: the allocations of a run that stops before its last exchange,
less those of one that stops before its first, and beside it the same for the whole run with its answer.
The program that solves is built in a temporary directory; building proves it and the crates below it, which takes some minutes.
FILE is bench/programs.txt where none is given; bench/program_lines.py says what its lines are. A program of 768 columns and 701 rows,
the most that a set gives, is measured beside them.
It is no test: no gate runs it, and it bounds nothing.
"""
import os
import shutil
import subprocess
import sys
import tempfile
import time
from fractions import Fraction
from pathlib import Path

from commands import TOP, run
from program_lines import as_line, read

CRATES = ["number_laws", "fraction128", "program_form", "exchange_runs", "whole_rows", "whole_runs", "simplex"]
UNITS = 1_000_000
TRIES = 3

RATTLE = Path(__file__).with_suffix(".rattle").read_text(encoding="utf-8")

# Counts what takes memory, and writes the count to the file that COUNTED names.
COUNTER = r"""
#define _GNU_SOURCE
#include <dlfcn.h>
#include <stdio.h>
#include <stdlib.h>
static unsigned long taken;
void *malloc(size_t n) {
    static void *(*next)(size_t);
    if (!next) next = dlsym(RTLD_NEXT, "malloc");
    taken++;
    return next(n);
}
void *realloc(void *p, size_t n) {
    static void *(*next)(void *, size_t);
    if (!next) next = dlsym(RTLD_NEXT, "realloc");
    taken++;
    return next(p, n);
}
__attribute__((destructor)) static void tell(void) {
    unsigned long count = taken;
    FILE *f = fopen(getenv("COUNTED"), "w");
    if (f) { fprintf(f, "%lu", count); fclose(f); }
}
"""


def largest():
    """A program of 768 columns, 12 for each of 64 tasks, and 701 rows: one for each resource, each task and each of 625 columns."""
    seed = 1
    def number(most):
        nonlocal seed
        seed = (seed * 6364136223846793005 + 1442695040888963407) % 2**64
        return 1 + (seed >> 33) % most
    columns = range(768)
    costs = [number(50) for _ in columns]
    rows = [(number(40), {c: 1 for c in columns if c % 12 == resource}) for resource in range(12)]
    rows += [(number(60), {c: number(2) for c in columns if c // 12 == task}) for task in range(64)]
    rows += [(number(8), {c: 1}) for c in range(625)]
    return costs, rows


def numbers(programs, units, tries):
    """The units, how often each program is solved, and the programs, as the numbers that our program reads."""
    words = [units, tries, len(programs)]
    for costs, rows in programs:
        words += [len(costs), len(rows), *costs]
        for _, entries in rows:
            words += [entries.get(column, 0) for column in range(len(costs))]
        words += [limit for limit, _ in rows]
    return " ".join(map(str, words))


def as_lp(costs, rows):
    """A program in the format that glpsol reads with --lp."""
    lines = ["Maximize", " value: " + " + ".join(f"{cost} x{column}" for column, cost in enumerate(costs)), "Subject To"]
    for limit, entries in rows:
        lines.append(" " + " + ".join(f"{number} x{column}" for column, number in entries.items()) + f" <= {limit}")
    return "\n".join(lines + ["End", ""])


def build(folder):
    for name in CRATES:
        shutil.copytree(TOP / "crates" / name, folder / "crates" / name, ignore=shutil.ignore_patterns("out", "must-fail"))
    crate = folder / "crates" / "solver_bench"
    (crate / "src").mkdir(parents=True)
    (crate / "src" / "main.rt").write_text(RATTLE)
    lines = [line for line in (TOP / "crates.txt").read_text().splitlines() if line.split(":")[0] in CRATES]
    (folder / "crates.txt").write_text("\n".join(lines) + "\nsolver_bench: simplex program_form fraction128\n")
    # the run that builds it finds no program
    (crate / "numbers.txt").write_text("0 0 0")
    run(["rt", "run"], crate)
    return crate / "out" / "solver_bench"


def solve_ours(program, folder):
    """For each program its optimum, or None where its run is wide, its exchanges and its nanoseconds."""
    answers = []
    for line in run([program], folder).splitlines():
        words = line.split()
        stopped = words[0] in ("stop", "refused")
        answers.append((None, 0, int(words[1])) if stopped else (Fraction(words[0]), int(words[1]), int(words[2])))
    return answers


def solve_plain(folder, programs):
    """The same by the run in plain Rust."""
    run(["rustc", "-O", TOP / "bench" / "plain_run.rs", "-o", "plain_run"], folder)
    (folder / "programs.txt").write_text(as_lines(programs))
    answers = []
    for line in run([folder / "plain_run", "programs.txt"], folder).splitlines():
        value, exchanges, took = line.split()
        answers.append((None if value == "wide" else Fraction(value), int(exchanges), int(took)))
    return answers


def as_lines(programs):
    return "\n".join(as_line(costs, [(limit, row.items()) for limit, row in rows]) for costs, rows in programs) + "\n"


def solve_glpk_alone(folder, programs):
    """GLPK's optima in floating point, and the nanoseconds of its solving, all in one process."""
    run(["cc", "-O2", TOP / "bench" / "glpk_time.c", "-o", "glpk_time", "-lglpk"], folder)
    (folder / "programs.txt").write_text(as_lines(programs))
    with open(folder / "programs.txt", encoding="ascii") as lines:
        told = subprocess.run([folder / "glpk_time"], stdin=lines, capture_output=True, text=True, check=True).stdout
    return [(Fraction(value), int(took)) for value, took, _ in map(str.split, told.splitlines())]


def solve_glpk(folder, costs, rows, words):
    """glpsol's optimum and the nanoseconds of its process."""
    (folder / "program.lp").write_text(as_lp(costs, rows))
    start = time.perf_counter_ns()
    run(["glpsol", "--lp", "program.lp", *words, "-w", "solution.txt"], folder)
    took = time.perf_counter_ns() - start
    for line in (folder / "solution.txt").read_text().splitlines():
        words = line.split()
        if words[:2] == ["s", "bas"]:
            return Fraction(words[-1]), took
    sys.exit("glpsol wrote no optimum")


def solve_qsopt(folder, costs, rows):
    """esolver's optimum and the nanoseconds of its process."""
    (folder / "program.lp").write_text(as_lp(costs, rows))
    start = time.perf_counter_ns()
    run(["esolver", "-O", "solution", "-L", "program.lp"], folder)
    took = time.perf_counter_ns() - start
    for line in (folder / "solution").read_text().splitlines():
        if line.strip().startswith("Value"):
            return Fraction(line.split("=")[1].strip()), took
    sys.exit("esolver wrote no optimum")


def least(solver):
    """The answers of some tries, each with the least of its nanoseconds."""
    tries = [solver() for _ in range(TRIES)]
    return [(*answers[0][:-1], min(answer[-1] for answer in answers)) for answers in zip(*tries)]


def allocations(program, folder, programs, units):
    """How many times a run of the programs with so many units takes memory."""
    (folder / "numbers.txt").write_text(numbers(programs, units, 1))
    environment = {**os.environ, "LD_PRELOAD": str(folder / "counter.so"), "COUNTED": str(folder / "counted.txt")}
    subprocess.run([program], cwd=folder, env=environment, capture_output=True, check=True)
    return int((folder / "counted.txt").read_text())


def count_memory(program, folder, programs, ours):
    if shutil.which("cc") is None:
        print("cc is missing: the memory that exchanges take isn't counted")
        return
    (folder / "counter.c").write_text(COUNTER)
    run(["cc", "-O1", "-shared", "-fPIC", "counter.c", "-o", "counter.so", "-ldl"], folder)
    # with as many units as exchanges a run stops before its last exchange, with none before its first
    runs = [(one, exchanges) for one, (_, exchanges, _) in zip(programs, ours) if exchanges > 1]
    taken = sum(allocations(program, folder, [one], exchanges) - allocations(program, folder, [one], 0) for one, exchanges in runs)
    tables = allocations(program, folder, programs, 0)
    whole = allocations(program, folder, programs, UNITS) - tables
    print(f"memory        {taken / max(sum(exchanges - 1 for _, exchanges in runs), 1):10.2f} times taken per exchange,"
          f" {whole / max(sum(answer[1] for answer in ours), 1):.2f} with what the answer takes; {tables} times before the first")


def compare(name, ours, theirs, exact):
    """Prints a line for another solver, over the programs that ours solves."""
    solved = [i for i, answer in enumerate(ours) if answer[0] is not None]
    for i in solved:
        apart = abs(ours[i][0] - theirs[i][0])
        if apart > (0 if exact else Fraction(1, 10**9) * max(1, abs(ours[i][0]))):
            sys.exit(f"program {i}: {ours[i][0]}, and {name} says {theirs[i][0]}")
    spent = sum(ours[i][2] for i in solved)
    other = sum(theirs[i][-1] for i in solved)
    print(f"{name:13} {other / 1e6:10.2f} ms, all optima agree; simplex / {name} = {spent / max(other, 1):.2f}")


def measure(program, folder, programs):
    (folder / "numbers.txt").write_text(numbers(programs, UNITS, TRIES))
    ours = solve_ours(program, folder)
    solved = [i for i, answer in enumerate(ours) if answer[0] is not None]
    exchanges = sum(ours[i][1] for i in solved)
    print(f"{len(programs)} programs, {len(solved)} solved by {exchanges} exchanges, {len(programs) - len(solved)} wide")
    print(f"simplex       {sum(ours[i][2] for i in solved) / 1e6:10.2f} ms")
    count_memory(program, folder, programs, ours)
    if shutil.which("rustc") is None:
        print("rustc is missing: no run in plain Rust to compare with")
    else:
        compare("plain", ours, least(lambda: solve_plain(folder, programs)), True)
    try:
        compare("glpk", ours, solve_glpk_alone(folder, programs), False)
    except (OSError, subprocess.CalledProcessError):
        print("bench/glpk_time.c can't be compiled (cc and the package libglpk-dev): GLPK in floating point is left out")
    one = ([1], [(1, {0: 1})])
    for name, tool, package, exact, solver in (
        ("glpk --exact", "glpsol", "glpk-utils", False, lambda p: solve_glpk(folder, *p, ["--exact"])),
        ("qsopt", "esolver", "qsopt-ex", True, lambda p: solve_qsopt(folder, *p)),
    ):
        if shutil.which(tool) is None:
            print(f"{tool} is missing (package {package}): nothing to compare with")
            continue
        start = min(solver(one)[1] for _ in range(5))
        theirs = least(lambda: [solver(p) if ours[i][0] is not None else (None, 0) for i, p in enumerate(programs)])
        compare(name, ours, [(value, max(took - start, 0)) for value, took in theirs], exact)


def main():
    programs = read(Path(sys.argv[1]) if len(sys.argv) > 1 else TOP / "bench" / "programs.txt")
    with tempfile.TemporaryDirectory() as name:
        folder = Path(name)
        program = build(folder)
        measure(program, folder, programs)
        print("the largest program:")
        measure(program, folder, [largest()])


main()
