"""What is said of each crate beside its files: the crates that it stands on (crates.txt), and how many must-fail edits it may have.

A crate in crates.txt that no file and no edit names is built and proved first for nothing. A crate that a file names and crates.txt doesn't is refused
by the gate itself, so it isn't looked for here.
"""
import re
from pathlib import Path
from typing import Iterator

from block_script import TOP

MOST_EDITS = 5
# docs/DECISIONS.md names each crate without edits in this section, with the reason.
SECTION = "### Must-fail edits"
# It names each crate with more edits in this paragraph of it, as "`low` has six".
PARAGRAPH = "- **A crate has at most five edits**"
MORE = {"six": 6, "seven": 7, "eight": 8, "nine": 9, "ten": 10}

# A tree with faults of both kinds, and what is to be said of it.
FAULTY = {
    "crates.txt": "# from the bottom up\nlow:\nbeside:\nkit_like:\nhigh: low beside kit_like  # three\nfull:\nfuller: low\n",
    "crates/low/src/lib.rt": "pub fn one() -> u64 {\n    1\n}\n",
    "crates/high/src/lib.rt": "// As beside::two, it is a number.\npub use low::one;\n",
    "crates/high/src/inner.rt": "use crate::beside::two;\n",
    "crates/high/proofs/Lib.antt": "use Rattle.kit_like.specs.Numbers.{one}\n-- Rattle.beside.specs.Numbers isn't used\n",
    "crates/fuller/specs/Lib.antt": "use Rattle.low.specs.Numbers.{one}\n",
    "docs/DECISIONS.md": f"{SECTION}\n\n{PARAGRAPH}, so. So `low` has one. `fuller` has six, `high` has seven.\n- `low` has none.\n\n### `beside`\n",
} | {f"crates/{name}/must-fail/{k}.edit": "" for name, edits in (("high", 1), ("full", 6), ("fuller", 6)) for k in range(edits)}
SAID = [
    "crates/beside: no must-fail edit, and docs/DECISIONS.md doesn't say why",
    "crates/kit_like: no must-fail edit, and docs/DECISIONS.md doesn't say why",
    "crates.txt: high stands on beside, which no file of it names",
    "crates/high: 1 must-fail edits, and docs/DECISIONS.md says 7",
    "crates/full: 6 must-fail edits, and docs/DECISIONS.md says at most 5",
]


def lines_of(top: Path) -> Iterator[tuple[str, list[str]]]:
    """Each crate of crates.txt, with those that it stands on."""
    for line in (top / "crates.txt").read_text().splitlines():
        head, _, names = line.partition("#")[0].partition(":")
        if head.strip():
            yield head.split()[0], names.split()


def names_in(file: Path) -> set[str]:
    """The crates that a file names: in a path of definitions, or at the head of a path of code. A comment names nothing."""
    lines = [line for line in file.read_text().splitlines() if not line.lstrip().startswith(("//", "--"))]
    code = "\n".join(lines) if file.suffix in (".rt", ".edit") else ""
    return set(re.findall(r"\bRattle\.(\w+)\.", "\n".join(lines))) | set(re.findall(r"(?<![\w:])(\w+)::", code))


def named(crate: Path) -> set[str]:
    """The crates that some file of a crate names, or what an edit of it writes."""
    kinds = ("src", "specs", "proofs", "must-fail")
    files = [file for kind in kinds for file in (crate / kind).rglob("*") if file.suffix in (".rt", ".antt", ".edit")]
    return {name for file in files for name in names_in(file)}


def more_edits(top: Path) -> dict[str, int]:
    """The crates that docs/DECISIONS.md lets have more edits than the others, each with its number."""
    paragraphs = [line for line in (top / "docs" / "DECISIONS.md").read_text().splitlines() if line.startswith(PARAGRAPH)]
    found = re.findall(r"`(\w+)` has (\w+)", " ".join(paragraphs))
    return {crate: MORE[number] for crate, number in found if number in MORE}


def with_reasons(top: Path) -> set[str]:
    """What docs/DECISIONS.md names where it says why a crate has no edits."""
    section = (top / "docs" / "DECISIONS.md").read_text().partition(f"{SECTION}\n")[2]
    return set(re.findall(r"`(\w+)`", section.partition("\n#")[0]))


def edits_problem(top: Path, crate: str, more: dict[str, int], reasons: set[str]) -> str | None:
    """What is wrong with how many must-fail edits a crate has, or None. A crate that may have more has just as many as is said."""
    count = len(list((top / "crates" / crate).glob("must-fail/*.edit")))
    if count == 0:
        return None if crate in reasons else f"crates/{crate}: no must-fail edit, and docs/DECISIONS.md doesn't say why"
    if crate in more:
        return None if count == more[crate] else f"crates/{crate}: {count} must-fail edits, and docs/DECISIONS.md says {more[crate]}"
    return None if count <= MOST_EDITS else f"crates/{crate}: {count} must-fail edits, and docs/DECISIONS.md says at most {MOST_EDITS}"


def crate_problems(top: Path) -> Iterator[str | None]:
    """What is wrong, or None, with what is said of each crate of a tree."""
    more, reasons = more_edits(top), with_reasons(top)
    for crate, stands_on in lines_of(top):
        needless = sorted(set(stands_on) - named(top / "crates" / crate))
        yield f"crates.txt: {crate} stands on {', '.join(needless)}, which no file of it names" if needless else None
        yield edits_problem(top, crate, more, reasons)


def problems(folder: str, program: Path) -> Iterator[str | None]:
    """What is wrong, or None: with what is found in a tree of known faults, and with each crate here."""
    for name, text in FAULTY.items():
        file = Path(folder) / name
        file.parent.mkdir(parents=True, exist_ok=True)
        file.write_text(text)
    found = [problem for problem in crate_problems(Path(folder)) if problem is not None]
    yield None if found == SAID else f"of a tree of known faults is said {found}"
    yield from crate_problems(TOP)
