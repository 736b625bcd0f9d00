#!/usr/bin/env python3
"""The requirements of docs/ASSURANCE.md: builds their table of docs/requirements.json, and checks that each rests on what is there.

    python3 tests/assurance.py [--write]

Each requirement has to have a clause, a definition and a test. A clause is `FILE FUNCTION: WORD`, where the contract of that public
function has the word, or `FILE FIELD`, a field of a record or a definition there. A definition is `FILE NAME`. A test is `FILE TEXT`,
where the file has the text. An edit is `CRATE/NAME`, a file of the crate's must-fail. Files of crates are named from crates/ on.

Without --write the script says where the page isn't what the table asks for, and ends with status 1. It needs Python's standard library.
"""
import json
import re
import sys
from dataclasses import dataclass
from pathlib import Path
from typing import Iterator

TOP = Path(__file__).resolve().parent.parent
PAGE = TOP / "docs" / "ASSURANCE.md"
BEGIN, END = "<!-- The requirements: made by tests/assurance.py of docs/requirements.json. -->\n", "<!-- The end of the requirements. -->\n"


@dataclass(frozen=True)
class Requirement:
    """A sentence, and what it rests on."""

    number: int
    says: str
    clauses: list[str]
    definitions: list[str]
    tests: list[str]
    edits: list[str]


def requirements() -> list[Requirement]:
    """Those of docs/requirements.json, numbered as they stand."""
    return [Requirement(number, **one) for number, one in enumerate(json.loads((TOP / "docs" / "requirements.json").read_text()), 1)]


def text_of(path: Path) -> str:
    return path.read_text() if path.is_file() else ""


def contract_of(text: str, function: str) -> str | None:
    """The signature and the contract of a public function, up to its body, or None where there is none."""
    found = re.search(rf"^ *pub fn {function}\b.*?^ *(\{{$|;$|pub fn )", text + "\npub fn ", re.S | re.M)
    return found[0] if found else None


def is_defined(text: str, name: str) -> bool:
    """Whether a definition, or a field of a record, has the name."""
    return re.search(rf"^(?:abbrev |unfoldable |pub |record |data )+{name}\b|^  pub {name} :", text, re.M) is not None


def clause_problem(clause: str) -> str | None:
    path, name, *words = clause.split()
    text = text_of(TOP / "crates" / path)
    if not name.endswith(":"):
        return None if is_defined(text, name) else f"{path} has no {name}"
    contract = contract_of(text, name[:-1])
    if contract is None or "ensures" not in contract:
        return f"{path} has no public function {name[:-1]} with a clause"
    return next((f"the contract of {name[:-1]} in {path} has no {word}" for word in words if not re.search(rf"\b{word}\b", contract)), None)


def definition_problem(definition: str) -> str | None:
    path, name = definition.split()
    return None if is_defined(text_of(TOP / "crates" / path), name) else f"{path} has no definition {name}"


def test_problem(test: str) -> str | None:
    path, text = test.split(maxsplit=1)
    return None if text in text_of(TOP / path) else f"{path} has no {text!r}"


def edit_problem(edit: str) -> str | None:
    crate, name = edit.split("/")
    return None if (TOP / "crates" / crate / "must-fail" / f"{name}.edit").is_file() else f"crate {crate} has no edit {name}"


def problems_of(one: Requirement) -> Iterator[str]:
    """What is wrong with a requirement."""
    for kind, listed in (("clause", one.clauses), ("definition", one.definitions), ("test", one.tests)):
        if not listed:
            yield f"requirement {one.number} has no {kind}"
    for judge, listed in ((clause_problem, one.clauses), (definition_problem, one.definitions), (test_problem, one.tests), (edit_problem, one.edits)):
        for problem in filter(None, map(judge, listed)):
            yield f"requirement {one.number}: {problem}"


def shown_clause(clause: str) -> str:
    """A clause as the page names it."""
    path, name, *words = clause.split()
    crate = path.split("/")[0]
    if name.endswith(":"):
        return f"`{name[:-1]}` of `{crate}`" + (f" (`{'`, `'.join(words)}`)" if words else "")
    return f"`{name}` of `{Path(path).stem}`"


def shown_place(place: str) -> str:
    """A definition or a test as the page names it."""
    path, text = place.split(maxsplit=1)
    return f"`{text}` (`{path}`)" if path.endswith(".antt") else f"{text} (`{path}`)"


def table() -> str:
    """The requirements as the page has them."""
    parts = []
    for one in requirements():
        rests = [
            f"- Clauses: {', '.join(map(shown_clause, one.clauses))}",
            f"- Definitions: {', '.join(map(shown_place, one.definitions))}",
            f"- Tests: {'; '.join(map(shown_place, one.tests))}",
            f"- Wrong bodies that the prover refuses: {', '.join(f'`{edit}`' for edit in one.edits) or 'none of its own, since it is a law of others'}",
        ]
        parts.append(f"**Requirement {one.number}.** {one.says}\n\n" + "\n".join(rests) + "\n")
    return "\n".join(parts)


def page_with(text: str) -> str:
    """The page with the requirements as they are now."""
    head, _, rest = text.partition(BEGIN)
    _, _, tail = rest.partition(END)
    return f"{head}{BEGIN}\n{table()}\n{END}{tail}"


def main() -> None:
    found = [problem for one in requirements() for problem in problems_of(one)]
    now = PAGE.read_text()
    if sys.argv[1:] == ["--write"]:
        PAGE.write_text(page_with(now))
    elif page_with(now) != now:
        found.append("docs/ASSURANCE.md hasn't the requirements of docs/requirements.json: tests/assurance.py --write")
    print(*found, f"the requirements: {len(requirements())}, {len(found)} problems", sep="\n")
    sys.exit(1 if found else 0)


main()
