#!/usr/bin/env python3
"""Bends the inputs of every command at random, as often or for as long as it is told, and shows each run of the program that ends as none may.

    python3 bench/fuzz.py [PROGRAM] [--seconds N | --runs N] [--seed SEED] [--only COMMAND] [--limit SECONDS] [--jobs N] [--keep FOLDER]

A find is a run that a signal ends, that takes longer than the limit, that ends with a status which no run over plain files has, that
writes something to standard error, or whose text isn't of a form of its status; and a certificate that `analyse` or `settle` writes
and `check` doesn't call valid, a refusal that `refute` or `settle` writes and `confirm` doesn't confirm, or a schedule that `simulate` writes
and `conform` doesn't call lawful. Its inputs are kept in FOLDER (finds/ where
none is given), and the script ends with status 1. PROGRAM is what `rt ci` or `./block` built, where none is given. A command that the program doesn't
have is left out with a word. Commands and protocols come up in turn, and run number N of a seed always bends the same inputs in the
same way.

It needs Python's standard library alone. The gate makes some runs of it, whose seed is the commit (.ci/run).
"""
import argparse
import concurrent.futures
import itertools
import json
import random
import re
import subprocess
import sys
import tempfile
import time
from pathlib import Path
from typing import NamedTuple

from bends import MILD, NUMBERS, ROUGH
from commands import BUILT, TOP, built
from cizborg.protocols import AT_HOMES, WORDS

EXAMPLES = TOP / "examples"
# a longer text isn't read
MOST_BYTES = 67_108_864
# of a set: its jobs, how many ticks are simulated, and its rows, where they aren't those that the program makes
SCHEDULES = {"pair.json": ("pair-jobs.csv", 50, "pair-rows.csv"), "plant.json": ("plant-jobs.csv", 100000, None)}

# the texts that each status may come with; of a text that isn't whole there is none, since nothing here spoils standard output
WORD = b"(%s)" % b"|".join(re.escape(word.encode()) for word in WORDS)
NAME = rb"[A-Za-z0-9_.-]{1,32}"
PLACE = rb"(root|(resource|task) [0-9]+|request [0-9]+ [0-9]+)"
SET_REASON = rb"(absent|toolong|notjson|notask|shape %s|size (processors|tasks|resources|requests)|(name|twicename|processor|period|deadline|cost|jitter|local|resource|twicerequest|count|length|home|nohome) %s)" % (PLACE, PLACE)
CERT_REASON = rb"(absent|toolong|notjson|shape|shape (root|bounds|dual [0-9]+)|version|otherprotocol)"
LINE_REASON = rb"(absent|toolong( [0-9]+)?|(fields|number|unknownname|script|overbudget|tooclose|toomany|late|unknownjob) [0-9]+)"
CERTIFICATE = rb'\{"bounds":\[[0-9,]+\],"duals":\[.*\],"protocol":"%s","set":"[0-9a-f]{64}","verdict":"schedulable","version":2\}\n' % WORD
REFUSAL = rb'\{"protocol":"%s","set":"[0-9a-f]{64}","steps":\[.*\],"verdict":"notshown","version":1\}\n' % WORD
NO = rb"(not shown %s [0-9]+ [0-9]+|schedulable|invalid (otherset|open|step [0-9]+ (after|task|rising|size|row [0-9]+|low)|size|(bound|dualsize|small) %s|cover %s [0-9]+)|broken [0-9]+ (run|keep|grant|idle|priority))\n" % (NAME, NAME, NAME)
ANSWERS = {
    0: {
        "analyse": CERTIFICATE,
        "settle": CERTIFICATE,
        "report": rb"task {28}cpu .*\n(.*\n)+(load [0-9]+ [0-9]+\n)+",
        "check": rb"valid\n",
        "refute": REFUSAL,
        "confirm": rb"confirmed\n",
        "upgrade": CERTIFICATE,
        "conform": rb"lawful [0-9]+\n(%s [0-9]+ ([0-9]+|-) [0-9]+\n)+" % NAME,
        "simulate": rb"ticks(,[A-Za-z0-9_.-]+)+\n([0-9]+(,[0-9]*)+\n)+",
        "audit": rb"kept [0-9]+\n(%s ([0-9]+|-)( [0-9]+){6}\n)+" % NAME,
        "study": rb"step mpcp fmlp\+ dpcp\n([1-8]( [0-9]+){3}\n){8}stopped [0-9]+\n",
    },
    1: {"settle": REFUSAL, **dict.fromkeys(("analyse", "refute", "check", "confirm", "upgrade", "report", "conform", "audit"), NO)},
    2: rb"refused words\n",
    3: rb"refused (set %s|cert %s|(jobs|rows) %s)\n" % (SET_REASON, CERT_REASON, LINE_REASON),
    5: rb"wide %s\n" % NAME,
    6: rb"allowance\n",
    7: rb"",
}


class Command:
    """A command with inputs that it accepts: its words, in which a name in braces stands for a file, and what the files hold."""

    def __init__(self, words, files):
        self.words = words.split()
        self.files = files
        self.name = self.words[0]
        # what comes up in turn: the command, its protocol or its seed, and how many files it reads
        self.kind = (self.name, self.words[1], len(files))

    def run(self, program, folder, files, words, limit):
        """The status, what was written, and what was written to standard error; None for a status where the limit passed."""
        for name, text in files.items():
            (folder / name).write_bytes(text)
        try:
            ran = subprocess.run([program, *words], cwd=folder, stdin=subprocess.DEVNULL, capture_output=True, timeout=limit)
        except subprocess.TimeoutExpired:
            return None, b"", b""
        return ran.returncode, ran.stdout, ran.stderr


def example(name):
    return (EXAMPLES / name).read_bytes()


def base_commands(program, folder):
    """Each command over examples that it accepts. Certificates come from the program itself, and so do schedules where there are none."""
    found = [Command("study 0 1", {})]
    for protocol in WORDS:
        found.append(Command(f"settle {protocol} set", {"set": example("wide.json")}))
        for name in ("pair.json", "plant.json", "three.json", "overloaded.json"):
            text = example(name)
            if protocol in AT_HOMES and b"home" not in text and b"resources" in text:
                continue
            analyse = Command(f"analyse {protocol} set", {"set": text})
            found += [analyse, Command(f"analyse {protocol} set 1000", {"set": text}), Command(f"report {protocol} set", {"set": text})]
            status, certificate, _ = analyse.run(program, folder, analyse.files, analyse.words, 600)
            if status == 0:
                found += [Command(f"{word} {protocol} set cert", {"set": text, "cert": certificate}) for word in ("check", "report")]
                old = re.sub(rb'"set":"[0-9a-f]{64}",', b"", certificate).replace(b'"version":2', b'"version":1')
                found.append(Command(f"upgrade {protocol} set old", {"set": text, "old": old}))
            refute = Command(f"refute {protocol} set", {"set": text})
            found += [refute, Command(f"settle {protocol} set", {"set": text}), Command(f"settle {protocol} set 1000", {"set": text})]
            status, refusal, _ = refute.run(program, folder, refute.files, refute.words, 600)
            if status == 0:
                found.append(Command(f"confirm {protocol} set cert", {"set": text, "cert": refusal}))
            if name in SCHEDULES:
                found += over_schedules(program, folder, protocol, {"set": text, "cert": certificate}, *SCHEDULES[name])
    return found


def over_schedules(program, folder, protocol, known, jobs, ticks, rows):
    simulate = Command(f"simulate {protocol} set jobs {ticks}", {"set": known["set"], "jobs": example(jobs)})
    made = example(rows) if rows else simulate.run(program, folder, simulate.files, simulate.words, 600)[1]
    files = {**simulate.files, "rows": made}
    conform = Command(f"conform {protocol} set jobs rows", files)
    return [simulate, conform, Command(f"audit {protocol} set cert jobs rows", {**files, "cert": known["cert"]})]


def known_commands(program, folder):
    """The commands that the program has."""
    known, lacking = [], set()
    for command in base_commands(program, folder):
        status, _, _ = command.run(program, folder, command.files, command.words, 600)
        if status == 2:
            lacking.add(" ".join(command.words[:2] + ["cert"] * ("cert" in command.files)))
        else:
            known.append(command)
    for words in sorted(lacking):
        print(f"left out, since the program has no such command: {words}")
    return known


def bent(command, rng):
    """The command's files and words, with some of them bent."""
    files, words = dict(command.files), list(command.words)
    if not files or rng.randrange(40) == 0:
        at = rng.randrange(len(words))
        words[at] = rng.choice([*WORDS, "set", "", "-1", "08", "+1", str(rng.choice(NUMBERS)), words[at] + " ", words[at] * 2])
    bends = rng.choice([MILD, MILD + ROUGH])
    for _ in range(rng.choice([1, 1, 1, 2, 3, 8]) if files else 0):
        name = rng.choice(list(files))
        bend = rng.choice(bends)
        files[name] = bend(files[name], rng) if files[name] else files[name]
    return files, words


def complaint(words, files, status, written, error):
    """What is wrong with how a run ended, or None."""
    if status is None:
        return "it had not ended at the limit"
    if status < 0:
        return f"signal {-status} ended it"
    if error:
        return f"it wrote to standard error: {error[:200]!r}"
    # a bent word may be a path that leads to no plain file
    if status == 4 and re.fullmatch(rb"fault read (set|cert|jobs|rows)\n", written) and any(word not in files for word in words[2:]):
        return None
    form = ANSWERS.get(status)
    if isinstance(form, dict):
        form = form.get(words[0])
    if form is None:
        return f"it ended with status {status}"
    return None if re.fullmatch(form, written) else f"with status {status} it wrote {written[:200]!r}"


class Judging(NamedTuple):
    """How what a command wrote is judged: the name of its file, the command that judges, how many files that reads, and how its answer begins."""

    name: str
    command: str
    files: int
    says: bytes


VALID, CONFIRMED = Judging("cert", "check", 2, b"valid\n"), Judging("cert", "confirm", 2, b"confirmed\n")
JUDGINGS = {
    ("analyse", 0): VALID,
    ("settle", 0): VALID,
    ("settle", 1): CONFIRMED,
    ("refute", 0): CONFIRMED,
    ("simulate", 0): Judging("rows", "conform", 3, b"lawful "),
}


def disagreement(program, folder, known, words, files, ended, limit):
    """What is wrong with a certificate, a refusal or a schedule that the program wrote, by its own judgement, or None. It is kept among the files."""
    status, written = ended
    one = JUDGINGS.get((words[0], status))
    if one is None or (one.command, one.files) not in known or one.name in files or len(written) > MOST_BYTES:
        return None
    files[one.name] = written
    judging = [one.command, *words[1 : 1 + one.files], one.name]
    status, answer, error = Command(" ".join(judging), files).run(program, folder, {one.name: written}, judging, limit)
    says = one.says + b"%s\n" % words[-1].encode() if one.name == "rows" else one.says
    is_well = status == 0 and not error and answer.startswith(says)
    return None if is_well else f"{' '.join(judging)} says of what it wrote, with status {status}: {answer[:200]!r}"


def one_run(program, commands, seed, number, limit):
    """A run: the status, and what is wrong with it, its command's words and its files, or None."""
    rng = random.Random(f"{seed} {number}")
    known = {(command.name, len(command.files)) for command in commands}
    kinds = sorted({command.kind for command in commands})
    command = rng.choice([command for command in commands if command.kind == kinds[number % len(kinds)]])
    files, words = bent(command, rng)
    with tempfile.TemporaryDirectory(prefix="fuzz-") as name:
        status, written, error = command.run(program, Path(name), files, words, limit)
        why = complaint(words, files, status, written, error)
        if why is None:
            why = disagreement(program, Path(name), known, words, files, (status, written), limit)
    return command.name, status, (why, words, files) if why else None


def keep(folder, seed, number, why, words, files):
    at = Path(folder) / f"{seed}-{number}"
    at.mkdir(parents=True, exist_ok=True)
    for name, text in files.items():
        (at / name).write_bytes(text)
    (at / "find.json").write_text(json.dumps({"words": words, "why": why}, indent=1) + "\n")
    print(f"FIND {seed}-{number}: {' '.join(words)}: {why}; kept in {at}", flush=True)


def arguments():
    given = argparse.ArgumentParser()
    given.add_argument("program", nargs="?", default=str(BUILT))
    given.add_argument("--seconds", type=float, default=60)
    given.add_argument("--runs", type=int)
    given.add_argument("--seed", default="1")
    given.add_argument("--only", default="")
    given.add_argument("--limit", type=float, default=60)
    given.add_argument("--jobs", type=int, default=1)
    given.add_argument("--keep", default="finds")
    return given.parse_args()


def main():
    given = arguments()
    program = built(given.program)
    with tempfile.TemporaryDirectory(prefix="fuzz-") as name:
        commands = [command for command in known_commands(program, Path(name)) if given.only in command.name]
    if not commands:
        sys.exit("there is no such command")
    start = time.monotonic()
    counts, finds, ends = {}, 0, {}
    numbers = iter(range(given.runs)) if given.runs else itertools.count()
    with concurrent.futures.ThreadPoolExecutor(given.jobs) as pool:
        while given.runs or time.monotonic() < start + given.seconds:
            batch = list(itertools.islice(numbers, 25 * given.jobs))
            if not batch:
                break
            for number, (command, status, find) in zip(batch, pool.map(lambda n: one_run(program, commands, given.seed, n, given.limit), batch)):
                counts[command] = counts.get(command, 0) + 1
                ends[status] = ends.get(status, 0) + 1
                if find:
                    finds += 1
                    keep(given.keep, given.seed, number, *find)
    print("runs:", ", ".join(f"{count} of {command}" for command, count in sorted(counts.items())))
    print("ends:", ", ".join(f"{count} with status {status}" for status, count in sorted(ends.items(), key=str)))
    print(f"{finds} finds in {time.monotonic() - start:.0f} seconds, seed {given.seed}")
    sys.exit(1 if finds else 0)


main()
