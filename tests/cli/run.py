#!/usr/bin/env python3
"""The end-to-end test: runs the program's executable on real files and compares all that it writes, and its status, with a table.

    python3 tests/cli/run.py [PROGRAM] [--only WORD]

The table stands in cases/, a file for each subject, and in the guide and the README: each command that these show is run as it stands
there. A new file in cases/ is read by itself. The JSON Schemas of docs/schema are compared with the examples and the table, where
python3-jsonschema is there; all else needs Python's standard library alone. PROGRAM is what `rt ci` or `./block` built, where none is
given. WORD picks the cases whose file or text has it.
"""
import argparse
import importlib
import os
import shutil
import sys
import tempfile
from pathlib import Path

import schemas
import setting
from setting import TOP, Case

sys.path.append(str(TOP / "tools"))
from shown_commands import commands_of, documents_in  # noqa: E402

HERE = Path(__file__).resolve().parent
BUILT = TOP / "crates" / "block_cli" / "out" / "block_cli"


def built_program():
    """The executable that was built last. The script ends where it is missing or older than what it is made of."""
    sources = [TOP / "crates.txt", *(path for kind in ("rt", "antt") for path in TOP.glob(f"crates/*/*/**/*.{kind}") if "out" not in path.parts)]
    if not BUILT.is_file():
        sys.exit(f"{BUILT} is missing: ./block builds it, and so does rt ci")
    if any(path.stat().st_mtime > BUILT.stat().st_mtime for path in sources):
        sys.exit(f"{BUILT} is older than its sources: ./block builds it anew, and so does rt ci")
    return BUILT


def table(folder):
    """Every case, with the name of the file in which it stands. Commands of documents run in the folder."""
    for path in sorted(HERE.glob("cases/*.py")):
        for case in importlib.import_module(f"cases.{path.stem}").CASES:
            yield path.stem, case
    (folder / "examples").symlink_to(TOP / "examples")
    for document in documents_in(TOP):
        for shown in commands_of(document):
            yield document.name, Case(f"as shown: {shown.line}", shown.words, None if shown.saves else shown.answer, shown.status, at=folder, saves=shown.saves)


def clipped(text):
    shown = repr(text)
    return shown if len(shown) <= 600 else f"{shown[:300]} .. {shown[-300:]} ({len(text)} bytes)"


def differences(case, program):
    try:
        out, err, status, says = setting.run(case, program)
    except setting.Unready as why:
        return [f"    {why}"]
    if case.saves:
        (case.at / case.saves).write_bytes(out)
    found = []
    if not case.saves and not setting.matches(says, out):
        found.append(f"    it wrote {clipped(out)}\n    and not  {clipped(says)}")
    if err:
        found.append(f"    to standard error it wrote {clipped(err)}")
    if status != case.status:
        found.append(f"    its status was {status}, and not {case.status}")
    return found


def run_table(program, cases, only):
    passed, failed, skipped = 0, 0, {}
    for name, case in cases:
        if only not in f"{name}: {case.shows}":
            continue
        reason = setting.lacking(case)
        if reason:
            skipped[reason] = skipped.get(reason, 0) + 1
            continue
        found = differences(case, program)
        if found:
            failed += 1
            print(f"{name}: {case.shows}", f"    words: {case.words}", *found, sep="\n")
        else:
            passed += 1
    for reason, count in skipped.items():
        print(f"{count} cases were skipped: {reason}")
    return passed, failed


def compare_schemas(cases):
    found, count = schemas.differences(cases)
    if found is None:
        print("the schemas were not compared: python3-jsonschema is missing")
        return 0, 0
    for line in found:
        print(line)
    return count - len(found), len(found)


def main():
    arguments = argparse.ArgumentParser()
    arguments.add_argument("program", nargs="?")
    arguments.add_argument("--only", default="")
    given = arguments.parse_args()
    program = Path(given.program).resolve() if given.program else built_program()
    with tempfile.TemporaryDirectory(prefix="block-") as folder:
        # a copy, which another user can run too, and which a build beside this test doesn't change
        os.chmod(folder, 0o755)
        copy = shutil.copy(program, f"{folder}/block_cli")
        cases = list(table(Path(folder)))
        passed, failed = run_table(copy, cases, given.only)
        more_passed, more_failed = compare_schemas(cases)
    passed, failed = passed + more_passed, failed + more_failed
    print(f"the program on real files: {passed} passed, {failed} failed")
    sys.exit(1 if failed or not passed else 0)


sys.path.insert(0, str(HERE))
main()
