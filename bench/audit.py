#!/usr/bin/env python3
"""Times `audit` beside `conform` on the plant of `examples/` over a million ticks and over a hundred million, and prints the ratios.

    python3 bench/audit.py

It wants `rt` on the path, and builds the program where it is out of date. Under each protocol `simulate` makes the schedule of the
plant's 251 jobs and `analyse` a certificate of the set; `conform` must find the schedule lawful, and `audit` that certificate and
schedule hold up. For a hundred million ticks each time of the set and of the jobs is a hundred times as long, so there are as many runs
of equal rows. Times are those of whole runs, the reading of the files, the judging of the certificate and the start of the process with
them; `check`, which judges the certificate alone, stands beside them. It is no test: no gate runs it, and it bounds nothing.
"""
import subprocess
import sys
import tempfile
from pathlib import Path

from commands import BUILT, TOP, run
from cizborg.protocols import WORDS
from stretched import TICKS, stretch, timed


def measure(folder, protocol, ticks):
    """Prints what the commands took, and gives the seconds of `audit`; none where the analysis gives no certificate."""
    analysed = subprocess.run([BUILT, "analyse", protocol, "set.json"], cwd=folder, capture_output=True, text=True)
    if analysed.returncode != 0:
        print(f"{protocol:6} {ticks:9} ticks: analyse ends with status {analysed.returncode}")
        return None
    (folder / "certificate.json").write_text(analysed.stdout)
    rows = run([BUILT, "simulate", protocol, "set.json", "jobs.csv", str(ticks)], folder)
    (folder / "rows.csv").write_text(rows)
    verdict, judging = timed([BUILT, "conform", protocol, "set.json", "jobs.csv", "rows.csv"], folder)
    if not verdict.startswith(f"lawful {ticks}\n"):
        sys.exit(f"{protocol}: {verdict}")
    _, checking = timed([BUILT, "check", protocol, "set.json", "certificate.json"], folder)
    kept, auditing = timed([BUILT, "audit", protocol, "set.json", "certificate.json", "jobs.csv", "rows.csv"], folder)
    if not kept.startswith(f"kept {ticks}\n"):
        sys.exit(f"{protocol}: {kept}")
    print(f"{protocol:6} {ticks:9} ticks {rows.count(chr(10)) - 1:5} runs: conform {judging * 1000:7.1f} ms,"
          f" check {checking * 1000:7.1f} ms, audit {auditing * 1000:7.1f} ms, audit / conform = {auditing / judging:.2f}", flush=True)
    return auditing


def main():
    # Builds the program; no words are refused with status 2.
    if subprocess.run([TOP / "block"], capture_output=True).returncode != 2:
        sys.exit("the program was not built")
    with tempfile.TemporaryDirectory() as name:
        folder = Path(name)
        taken = {}
        for factor in (1, 100):
            stretch(folder, factor)
            for protocol in WORDS:
                taken[protocol, factor] = measure(folder, protocol, TICKS * factor)
        for protocol in [protocol for protocol in WORDS if taken[protocol, 1] and taken[protocol, 100]]:
            print(f"{protocol:6} audit of 100 million ticks / of one million = {taken[protocol, 100] / taken[protocol, 1]:.2f}")


main()
