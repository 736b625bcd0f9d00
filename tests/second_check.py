#!/usr/bin/env python3
"""Compares the second checker, tools/second_check.js, with the program: its texts and its statuses.

    python3 tests/second_check.py [PROGRAM] [--seed SEED] [--sets N] [--bent N] [--jobs N] [--keep FOLDER]

It is compared with three things:

- the answers of the table in tests/cli: of each case of `check` and of `confirm` over plain files, and of each refused set;
- the program's own judgement of each certificate and each refusal that it writes for the sets of examples/, of tests/cli and for N
  generated ones, under each protocol, and of the certificates and refusals of examples/;
- the program's judgement of N of these that are bent at random: in their numbers, in their lists, in their bytes, in their set, in the
  protocol that they are judged under.

A seed always makes the same files. PROGRAM is what `rt ci` or `./block` built, where none is given. It needs Node.js, and fails where
there is none. The inputs of each difference are kept in FOLDER where one is given.
"""
import argparse
import concurrent.futures
import hashlib
import importlib
import json
import os
import random
import shutil
import subprocess
import sys
import tempfile
from collections import Counter
from dataclasses import dataclass
from pathlib import Path

TOP = Path(__file__).resolve().parent.parent
BUILT = TOP / "crates" / "block_cli" / "out" / "block_cli"
sys.path[1:1] = [str(TOP / "tests" / "cli")]
sys.path += [str(TOP / "bench"), str(TOP / "tools")]

from bends import MILD, NUMBERS, ROUGH  # noqa: E402
from cizborg.protocols import WORDS  # noqa: E402
from generated_sets import generated, generated_crowded  # noqa: E402
from sets import resource, set_of, task  # noqa: E402
from setting import Case  # noqa: E402

# few enough that a set which never settles costs little
ALLOWANCE = "20000"


@dataclass(frozen=True)
class Judgement:
    """A command over the bytes of a set and of a certificate or a refusal."""

    command: str
    protocol: str
    set: bytes
    cert: bytes

    def write(self, folder: Path, name: str) -> list[str]:
        """The words of the command, over files that this writes."""
        paths = [folder / f"{name}-set", folder / f"{name}-cert"]
        for path, text in zip(paths, (self.set, self.cert)):
            path.write_bytes(text)
        return [self.command, self.protocol, *map(str, paths)]


def as_bytes(text: str | bytes) -> bytes:
    return text.encode() if isinstance(text, str) else text


def judgement_of(case: Case) -> Judgement | None:
    """The judgement that a case of the table asks for over plain files. Where another command refuses its set, that is `check` of it,
    since all commands read a set alike. None for other cases."""
    words = case.words.split() if isinstance(case.words, str) else case.words
    is_plain = isinstance(case.says, str) and not (case.out or case.faults or case.memory or case.before)
    files = {name: as_bytes(text) for name, text in case.files.items() if isinstance(text, (str, bytes))}
    if not is_plain or len(words) < 3 or words[2] not in files or words[1] not in WORDS:
        return None
    if words[0] in ("check", "confirm") and len(words) == 4 and words[3] in files:
        return Judgement(words[0], words[1], files[words[2]], files[words[3]])
    return Judgement("check", words[1], files[words[2]], b"") if case.says.startswith("refused set ") else None


def table_cases() -> list[tuple[Judgement, str, int]]:
    """What the table says of judgements, with the text and the status that it gives."""
    files = sorted((TOP / "tests" / "cli").glob("cases/*.py"))
    cases = [case for path in files for case in importlib.import_module(f"cases.{path.stem}").CASES]
    return [(judgement, case.says, case.status) for case in cases if (judgement := judgement_of(case))]


def small_set(draw: random.Random) -> bytes:
    """A set of few tasks with short times, in which all that a set may give comes up."""
    processors = draw.randint(1, 4)
    resources = [resource(f"q{q}", draw.randint(1, processors)) for q in range(draw.randint(1, 4))]
    tasks = []
    for number in range(draw.randint(2, 7)):
        cost = draw.randint(2, 9)
        period = draw.randint(cost + 5, 150)
        deadline = draw.randint((cost + period) // 2, period)
        chosen = draw.sample(resources, draw.randint(0, min(3, len(resources))))
        requests = [(one["name"], draw.randint(1, min(4, cost - 1)), draw.randint(1, 3)) for one in chosen]
        more = {"deadline": deadline, "local": draw.randint(1, cost), "jitter": draw.choice([0, 0, draw.randint(0, deadline - cost)])}
        tasks.append(task(f"t{number}", draw.randint(1, processors), period, cost, *requests, **more))
    return json.dumps(set_of(processors, resources, *tasks)).encode()


def wide_set(draw: random.Random) -> dict:
    """A set of few tasks that request many resources, so that lower tasks may spin for more than ten, and more than ten of these be used above."""
    processors = draw.randint(2, 3)
    resources = [resource(f"q{q}", draw.randint(1, processors)) for q in range(draw.randint(11, 14))]
    tasks = []
    for number in range(draw.randint(3, 6)):
        chosen = draw.sample(resources, draw.choice([2, draw.randint(10, len(resources)), len(resources)]))
        tasks.append(task(f"t{number}", draw.randint(1, processors), draw.randint(300, 900), 20, *((one["name"], draw.randint(1, 4)) for one in chosen)))
    return set_of(processors, resources, *tasks)


def known_sets() -> list[bytes]:
    """The sets of examples/, and the texts of tests/cli/sets.py that are sets."""
    texts = [path.read_bytes() for path in sorted((TOP / "examples").glob("*.json"))]
    texts += [as_bytes(text) for name, text in sorted(vars(importlib.import_module("sets")).items()) if name.isupper() and isinstance(text, str)]
    return [text for text in texts if b'"tasks"' in text]


def generated_sets(draw: random.Random, count: int) -> list[bytes]:
    found = []
    for number in range(count):
        larger = {3: lambda: wide_set(draw), 5: lambda: generated(12, draw), 6: lambda: generated(24, draw), 7: lambda: generated_crowded(10, draw, 300)}.get(number % 8)
        found.append(json.dumps(larger()).encode() if larger else small_set(draw))
    return found


def certified(program: str, folder: Path, number: int, text: bytes, protocol: str) -> Judgement | None:
    """The certificate or the refusal that the program writes for a set, to be judged; None where it writes none."""
    path = folder / f"{number}-{protocol}"
    path.write_bytes(text)
    for command, status, judged in (("analyse", 0, "check"), ("refute", 0, "confirm"), ("settle", 0, "check"), ("settle", 1, "confirm")):
        ran = subprocess.run([program, command, protocol, path, ALLOWANCE], capture_output=True)
        if ran.returncode == status:
            return Judgement(judged, protocol, text, ran.stdout)
    return None


def shipped() -> list[Judgement]:
    """The certificates and refusals of examples/."""
    read = {path.stem: path.read_bytes() for path in sorted((TOP / "examples").glob("*.json"))}
    found = []
    for name, text in read.items():
        base, kind = name.rpartition("-")[::2] if not name[-1].isdigit() else name.split("-")[:2]
        if kind in ("certificate", "refusal"):
            found.append(Judgement({"certificate": "check", "refusal": "confirm"}[kind], json.loads(text)["protocol"], read[base], text))
    return found


def tied(judgement: Judgement, text: bytes) -> Judgement:
    """The same for another text of the set, whose digest it gets."""
    old, new = (hashlib.sha256(one).hexdigest().encode() for one in (judgement.set, text))
    return Judgement(judgement.command, judgement.protocol, text, judgement.cert.replace(old, new))


def other_value(number: int, draw: random.Random) -> int:
    return draw.choice([number + 1, max(0, number - 1), number + draw.randint(1, 9), number * 2, 0, draw.choice(NUMBERS)])


def bend_list(items: list, draw: random.Random) -> None:
    """One item goes, comes again, or changes its place; of an empty list nothing changes."""
    if not items:
        return
    at = draw.randrange(len(items))
    way = draw.randrange(4)
    if way == 0:
        del items[at]
    elif way == 1:
        items.insert(draw.randrange(len(items) + 1), items[at])
    elif way == 2:
        items.append(items.pop(at))
    else:
        del items[at:]


def scale(scaled: dict, draw: random.Random) -> None:
    """The same numbers over another denominator, and perhaps one of them off by one."""
    times = draw.choice([2, 3, 7, 10**6])
    scaled["den"] *= times
    scaled["num"] = [times * number for number in scaled["num"]]
    if scaled["num"] and draw.randrange(2):
        at = draw.randrange(len(scaled["num"]))
        scaled["num"][at] = max(0, scaled["num"][at] + draw.choice([-1, 1]))


def bend_scaled(scaled: dict, draw: random.Random) -> None:
    way = draw.randrange(5)
    if way == 0:
        scaled["den"] = other_value(scaled["den"], draw)
    elif way == 1:
        bend_list(scaled["num"], draw)
    elif way == 2:
        scale(scaled, draw)
    elif scaled["num"]:
        at = draw.randrange(len(scaled["num"]))
        scaled["num"][at] = other_value(scaled["num"][at], draw)


def bent_value(judgement: Judgement, draw: random.Random) -> Judgement:
    """A number or a list of the certificate is another one."""
    value = json.loads(judgement.cert)
    listed = draw.choice(["bounds", "duals"]) if judgement.command == "check" else "steps"
    if not value[listed] or draw.randrange(8) == 0:
        bend_list(value[listed], draw)
    elif listed == "bounds":
        at = draw.randrange(len(value["bounds"]))
        value["bounds"][at] = other_value(value["bounds"][at], draw)
    elif listed == "duals":
        bend_scaled(draw.choice(value["duals"]), draw)
    else:
        one = draw.choice(value["steps"])
        member = draw.choice(["task", "value", "value", "point", "point", "point"])
        if member == "point":
            bend_scaled(one["point"], draw)
        else:
            one[member] = other_value(one[member], draw)
    return Judgement(judgement.command, judgement.protocol, judgement.set, json.dumps(value).encode())


def bent_set(judgement: Judgement, draw: random.Random) -> Judgement:
    """The set is another one, with the certificate tied to it in most cases."""
    text = draw.choice(MILD)(judgement.set, draw)
    return tied(judgement, text) if draw.randrange(6) else Judgement(judgement.command, judgement.protocol, text, judgement.cert)


def bent_protocol(judgement: Judgement, draw: random.Random) -> Judgement:
    """It is judged under another protocol, for which it is made out in most cases."""
    other = draw.choice(WORDS)
    named = [f'"protocol":"{word}"'.encode() for word in (judgement.protocol, other)]
    return Judgement(judgement.command, other, judgement.set, judgement.cert.replace(*named) if draw.randrange(6) else judgement.cert)


def bent_bytes(judgement: Judgement, draw: random.Random) -> Judgement:
    set_bytes, cert = judgement.set, judgement.cert
    for _ in range(draw.choice([1, 1, 2, 4])):
        bend = draw.choice(MILD + ROUGH)
        if draw.randrange(3):
            cert = bend(cert, draw) if cert else cert
        else:
            set_bytes = bend(set_bytes, draw) if set_bytes else set_bytes
    found = Judgement(judgement.command, judgement.protocol, set_bytes, cert)
    return Judgement(draw.choice(["check", "confirm"]), found.protocol, found.set, found.cert) if draw.randrange(20) == 0 else found


def bent(judgement: Judgement, draw: random.Random) -> Judgement:
    return draw.choice([bent_value, bent_value, bent_value, bent_set, bent_set, bent_protocol, bent_bytes])(judgement, draw)


def second_answers(node: str, folder: Path, words: list[list[str]]) -> list[tuple[str, int]]:
    listed = folder / "words.json"
    listed.write_text(json.dumps(words))
    ran = subprocess.run([node, TOP / "tests" / "second_checks.js", listed], capture_output=True, text=True)
    if ran.returncode != 0:
        sys.exit(f"the second checker failed: {ran.stderr[-2000:]}")
    return [(one["text"], one["status"]) for one in json.loads(ran.stdout)]


def kind_of(text: str) -> str:
    """An answer without names and numbers."""
    words = [word for word in text.split() if not word.isdigit()]
    return " ".join(words[:2] if words[:1] == ["invalid"] and words[1] != "step" else words[:4])


def differences(program: str, node: str, folder: Path, judgements: list[Judgement], jobs: int, keep: Path | None) -> list[str]:
    """Where the program and the second checker answer otherwise."""
    words = [one.write(folder, str(number)) for number, one in enumerate(judgements)]

    def judged(one: list[str]) -> tuple[str, int]:
        ran = subprocess.run([program, *one], capture_output=True, text=True)
        return ran.stdout + ran.stderr, ran.returncode

    with concurrent.futures.ThreadPoolExecutor(jobs) as pool:
        wanted = list(pool.map(judged, words))
    found = []
    for number, (one, want, got) in enumerate(zip(judgements, wanted, second_answers(node, folder, words))):
        if want != got:
            found.append(f"{one.command} {one.protocol} answers {want}, and the second checker {got}, for certificate {number}: {one.cert[:200]!r}")
            if keep:
                keep.mkdir(parents=True, exist_ok=True)
                one.write(keep, f"{number}-{one.command}-{one.protocol}")
    kinds = Counter(kind_of(text) for text, _ in wanted)
    print(f"  {len(judgements)} answers: {', '.join(f'{count} {kind}' for kind, count in sorted(kinds.items()))}")
    return found


def table_differences(node: str, folder: Path) -> list[str]:
    cases = table_cases()
    words = [one.write(folder, f"table-{number}") for number, (one, _, _) in enumerate(cases)]
    answered = second_answers(node, folder, words)
    print(f"  {len(cases)} cases of the table")
    return [f"{one} should be {says, status}, and is {got}" for (one, says, status), got in zip(cases, answered) if got != (says, status)]


def arguments() -> argparse.Namespace:
    given = argparse.ArgumentParser()
    given.add_argument("program", nargs="?", default=str(BUILT))
    given.add_argument("--seed", default="1")
    given.add_argument("--sets", type=int, default=40)
    given.add_argument("--bent", type=int, default=1500)
    given.add_argument("--jobs", type=int, default=os.cpu_count())
    given.add_argument("--keep", type=Path)
    return given.parse_args()


def main() -> None:
    given = arguments()
    node, program = shutil.which("node"), str(Path(given.program).resolve())
    if node is None:
        sys.exit("the second checker was not compared: node is missing (apt-get install nodejs)")
    draw = random.Random(given.seed)
    with tempfile.TemporaryDirectory(prefix="second-") as name:
        folder = Path(name)
        found = table_differences(node, folder)
        sets = known_sets() + generated_sets(draw, given.sets)
        asked = [(number, text, protocol) for number, text in enumerate(sets) for protocol in WORDS]
        with concurrent.futures.ThreadPoolExecutor(given.jobs) as pool:
            made = list(pool.map(lambda one: certified(program, folder, *one), asked))
        written = shipped() + [one for one in made if one]
        found += differences(program, node, folder, written, given.jobs, given.keep)
        found += differences(program, node, folder, [bent(draw.choice(written), draw) for _ in range(given.bent)], given.jobs, given.keep)
    print(*found[:20], f"the second checker: {len(found)} answers differ (seed {given.seed})", sep="\n")
    sys.exit(1 if found else 0)


main()
