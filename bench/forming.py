#!/usr/bin/env python3
"""Counts the instructions of `analyse` on sets at the limits, and prints how many of a hundred form programs and renew limits.

    python3 bench/forming.py [PROGRAM [SEED..]]

It wants valgrind, whose callgrind counts. Each set has 64 tasks, 32 resources and 256 request entries on 8 processors, made from a seed
(1 and 2 where none is given). A line for each set and protocol: the instructions of the whole run in millions, which reads the set and
writes the certificate too; those of forming each program once (`sparse_program_with`), of renewing limits (`next_plan`) and of solving
(`solve_program`), of a hundred. A call that the compiler took into its caller isn't told apart, and its place shows a dash. PROGRAM is
the executable, which ./block builds. It is no test: no gate runs it, and it bounds nothing.
"""
import json
import re
import subprocess
import sys
import tempfile
from pathlib import Path

from commands import BUILT, built
from generated_sets import generated_at_limits, seeded

PROTOCOLS = ("mpcp", "fmlp+", "dpcp")
PROCESSORS = 8
CALLS = ("sparse_program_with", "next_plan", "solve_program")


def counted(program, protocol, path, folder):
    """The instructions of the run, and of each of the calls with what it calls, or None where none of that name is told apart."""
    profile = folder / "profile"
    command = ["valgrind", "--tool=callgrind", f"--callgrind-out-file={profile}", program, "analyse", protocol, str(path)]
    done = subprocess.run(command, capture_output=True, text=True)
    if done.returncode not in (0, 1) or not profile.is_file():
        sys.exit(f"{' '.join(command)} ended with {done.returncode}:\n{done.stderr[-2000:]}")
    told = subprocess.run(["callgrind_annotate", "--inclusive=yes", "--threshold=100", profile], capture_output=True, text=True).stdout
    found = {call: None for call in CALLS}
    whole = 0
    for line in told.splitlines():
        number = re.match(r"\s*([\d,]+) \(", line)
        if not number:
            continue
        count = int(number.group(1).replace(",", ""))
        if "PROGRAM TOTALS" in line:
            whole = count
        for call in CALLS:
            if f"::{call}" in line:
                found[call] = (found[call] or 0) + count
    return whole, found


def main():
    program = built(sys.argv[1] if len(sys.argv) > 1 else BUILT)
    seeds = [int(seed) for seed in sys.argv[2:]] or [1, 2]
    print("set  protocol   millions   forming %   limits %   solving %")
    with tempfile.TemporaryDirectory() as name:
        folder = Path(name)
        for seed in seeds:
            path = folder / "set.json"
            path.write_text(json.dumps(generated_at_limits(PROCESSORS, seeded(seed))))
            for protocol in PROTOCOLS:
                whole, found = counted(program, protocol, path, folder)
                shares = ["-" if found[call] is None else f"{100 * found[call] / whole:.1f}" for call in CALLS]
                print(f"{seed:3}  {protocol:8} {whole / 1e6:10.1f} {shares[0]:>11} {shares[1]:>10} {shares[2]:>11}")


main()
