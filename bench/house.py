#!/usr/bin/env python3
"""Prints the size of the house in one line: crates, lines of code, the share of contracts and imports in it, and the longest function, file
and contract. Crates of tests alone count among the crates and nowhere else.

    bench/house.py [TREE]

A line counts as contract where it belongs to a clause (`requires`, `ensures`), to a ghost member or to an invariant of a model, as import
where it brings in names for proofs (`ghost use`), and else as code. Blank lines, comments and attributes don't count.
"""
import re
import sys
from collections.abc import Iterator
from pathlib import Path
from typing import NamedTuple

CASES = {"model_cases", "text_cases", "schedule_cases", "run_cases", "worked_sets"}
FUNCTION = re.compile(r"^\s*(?:pub(?:\([a-z]+\))? )?(?:const )?fn (\w+)")
GHOST = re.compile(r"^\s*(?:ensures|requires|ghost)\b")


class Piece(NamedTuple):
    lines: int
    name: str


class Counts(NamedTuple):
    code: int
    contract: int
    imports: int
    functions: list[Piece]
    contracts: list[Piece]


def counted_lines(text: str) -> Iterator[str]:
    """The lines that count."""
    for line in text.splitlines():
        bare = line.strip()
        if bare and not bare.startswith(("//", "#[", "#![")):
            yield line


def balance(line: str) -> int:
    return line.count("{") + line.count("(") - line.count("}") - line.count(")")


def kinds(lines: list[str]) -> list[str]:
    """For each line whether it is an import of a proof, a contract or code."""
    found = []
    depth = 0
    kind = "code"
    for line in lines:
        if depth <= 0:
            kind = "import" if line.startswith("ghost use") else "contract" if GHOST.match(line) else "code"
            depth = 0
        found.append(kind)
        depth = depth + balance(line) if kind != "code" else 0
    return found


def extents(lines: list[str], found: list[str], place: str) -> tuple[list[Piece], list[Piece]]:
    """The lines of code of each function's body, and the lines of each function's contract."""
    functions, contracts = [], []
    for start, line in enumerate(lines):
        named = FUNCTION.match(line)
        if not named or found[start] != "code":
            continue
        depth, body, contract, at, opened = 0, 0, 0, start, False
        while at < len(lines) and not (opened and depth <= 0):
            if found[at] == "contract":
                contract += 1
            else:
                body += 1
                depth += balance(lines[at])
                opened = opened or (depth > 0 and "{" in lines[at]) or lines[at].strip().endswith(("{}", ";", "}"))
            at += 1
        functions.append(Piece(body, f"{place} {named[1]}"))
        contracts.append(Piece(contract, f"{place} {named[1]}"))
    return functions, contracts


def counts_of(path: Path, tree: Path) -> Counts:
    lines = list(counted_lines(path.read_text()))
    found = kinds(lines)
    functions, contracts = extents(lines, found, str(path.relative_to(tree / "crates")))
    return Counts(found.count("code"), found.count("contract"), found.count("import"), functions, contracts)


def sources(tree: Path, suffix: str) -> list[Path]:
    return sorted(p for p in (tree / "crates").rglob(f"*{suffix}") if "out" not in p.relative_to(tree).parts)


def crates_of(tree: Path) -> list[str]:
    return [line.split(":")[0].split()[0] for line in (tree / "crates.txt").read_text().splitlines() if line and not line.startswith("#")]


def main() -> None:
    tree = Path(sys.argv[1]) if len(sys.argv) > 1 else Path(__file__).resolve().parent.parent
    product = [path for path in sources(tree, ".rt") if path.relative_to(tree).parts[1] not in CASES]
    files = [Piece(len(path.read_text().splitlines()), str(path.relative_to(tree / "crates"))) for path in product + sources(tree, ".antt")]
    all_counts = [counts_of(path, tree) for path in product]
    code, contract, imports = (sum(c[k] for c in all_counts) for k in (0, 1, 2))
    function = max(piece for c in all_counts for piece in c.functions)
    clauses = max(piece for c in all_counts for piece in c.contracts)
    longest = max(files)
    total = code + contract + imports
    print(
        f"{len(crates_of(tree))} crates; product: {total:,} lines, {100 * contract / total:.1f} % contracts, {100 * imports / total:.1f} % imports of proofs; "
        f"longest function {function.lines} ({function.name}), contract {clauses.lines} ({clauses.name}), file {longest.lines} ({longest.name})"
    )


if __name__ == "__main__":
    main()
