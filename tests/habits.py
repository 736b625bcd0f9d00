"""./block --help and its bound of memory, which words it takes to tools, the reading list of the headline, and how the documents are written."""
import os
import re
import shutil
import subprocess
import sys
from pathlib import Path
from typing import Iterator

from block_script import LATER, TOP, Copy

# A page is read at once, and a sentence too.
MOST_LINES = 400
MOST_WORDS = 40
# Files that the documents have a user write, or a toolchain bring.
NAMES_OF_USERS = {".vscode/settings.json", "must-fail/NAME.edit"}


def helped(folder, words):
    """What a copy of ./block without any crate answers: it can't build, and must not try to."""
    top = Path(folder) / "copy"
    if not top.is_dir():
        top.mkdir()
        shutil.copy(TOP / "block", top)
        for name in ("tools", "docs"):
            (top / name).symlink_to(TOP / name)
    return subprocess.run([top / "block", *words], cwd=folder, capture_output=True, text=True)


def memory_problem(folder, program):
    """BLOCK_MEMORY bounds the program's memory; without it the same text is read whole, and refused."""
    copy = Copy(Path(folder) / "bounded", program)
    copy.file("crates/block_cli/out/block.built", "", LATER)
    (copy.top / "set").write_text('{"processors":1,"tasks":[' + ",".join(['{"a":{"b":{}}}'] * 300_000) + "]}")
    found = [copy.run("report", "fmlp+", "set", **memory)[:2] for memory in ({"BLOCK_MEMORY": "200000"}, {"BLOCK_MEMORY": "unlimited"}, {})]
    return None if found == [(7, ""), (3, "refused set shape task 1\n"), (3, "refused set shape task 1\n")] else f"./block in little memory: {found}"


def forms_of(text):
    """The forms of words that the help shows, each as a list of its words: those of the program, and those of the tools."""
    return [[line[1].split() for line in re.finditer(r"^ {4}block (\S.*?) {2,}\S.*$", part, re.M)] for part in text.split("These are further tools")]


def guide_forms():
    section = re.search(r"^## Commands\n(.*?)^## ", (TOP / "docs" / "GUIDE-COMMANDS.md").read_text(), re.M | re.S)[1]
    return [form.split() for form in re.findall(r"^\| `([^`]*)` \|", section, re.M)]


def reading_problem():
    """docs/PROOFS.md is to hold the tables that bench/reading.py prints."""
    printed = subprocess.run([sys.executable, TOP / "bench" / "reading.py", "--table"], capture_output=True, text=True).stdout.strip()
    same = printed and printed in (TOP / "docs" / "PROOFS.md").read_text()
    return None if same else "the tables of docs/PROOFS.md aren't those that bench/reading.py --table prints"


def pages() -> list[Path]:
    """The documents of the repository, and the README of each crate."""
    return [TOP / "README.md", TOP / "CONTRIBUTING.md", *sorted(TOP.glob("docs/*.md")), *sorted(TOP.glob("crates/*/README.md"))]


def plain_pages() -> list[Path]:
    """The pages that a reader from outside opens first."""
    return [TOP / "README.md", *sorted(TOP.glob("docs/GUIDE*.md"))]


def without_blocks(text: str) -> str:
    """A page without what stands between fences."""
    return "".join(text.split("```")[::2])


def sentences_of(text: str) -> Iterator[str]:
    """The sentences of a page without code, tables, titles and the targets of links. A point of a list ends a sentence."""
    lines = [line for line in without_blocks(text).splitlines() if not line.startswith(("|", "#"))]
    said = re.sub(r"\]\([^)]*\)", "]", re.sub(r"`[^`\n]*`", "", "\n".join(lines)))
    for part in re.split(r"\n\s*\n|\n(?=\s*(?:-|\d+\.) )", said):
        yield from re.split(r"(?<=[.!?])[)*\"]*\s+", part)


def words_of(sentence: str) -> int:
    return len(re.findall(r"[^\W_][\w'’.,-]*", sentence))


def length_problems() -> Iterator[str]:
    """Pages that are too long to be read at once, and sentences too."""
    for page in pages():
        lines = len(page.read_text().splitlines())
        if lines > MOST_LINES:
            yield f"{page.relative_to(TOP)} has {lines} lines, which are more than {MOST_LINES}"
    for page in plain_pages():
        for sentence in sentences_of(page.read_text()):
            if words_of(sentence) > MOST_WORDS:
                yield f"{page.relative_to(TOP)} has a sentence of {words_of(sentence)} words, which are more than {MOST_WORDS}: {' '.join(sentence.split())}"


def places() -> set[str]:
    """Each file and each folder of the repository by its path from the top, and by each end of it. What `rt` makes is none of it."""
    found = set()
    for folder, folders, files in os.walk(TOP):
        folders[:] = [name for name in folders if name not in ("out", ".git", "__pycache__")]
        for name in (*folders, *files):
            parts = (Path(folder) / name).relative_to(TOP).parts
            found.update("/".join(parts[begin:]) for begin in range(len(parts)))
    return found


def anchors_of(page: Path) -> set[str]:
    """What a link may name of a page: its titles, as a viewer of Markdown makes them."""
    titles = re.findall(r"^#+ (.*)$", without_blocks(page.read_text()), re.M)
    return {re.sub(r"[^\w -]", "", title.lower()).replace(" ", "-") for title in titles}


def link_problems(page: Path, text: str) -> Iterator[str]:
    """Links of a page to files, or to titles of pages, that aren't there."""
    for target, anchor in re.findall(r"\]\(([^)#\s]*)(?:#([^)\s]*))?\)", text):
        place = page.parent / target if target else page
        if target.startswith("https://"):
            continue
        if not place.exists() or (anchor and anchor not in anchors_of(place)):
            yield f"{page.relative_to(TOP)} links {target}{'#' if anchor else ''}{anchor}, which isn't there"


def name_problems() -> Iterator[str]:
    """Links, and names of files of the repository, behind which nothing stands."""
    there = places()
    for page in pages():
        text = without_blocks(page.read_text())
        yield from link_problems(page, text)
        for name in re.findall(r"`(?:\./)?([\w./-]+\.(?:antt|rt|md|py|js|sh|c|css|json|csv|txt|ini|edit))`", text):
            if name not in there and name not in NAMES_OF_USERS:
                yield f"{page.relative_to(TOP)} names {name}, which isn't there"


def problems(folder, program):
    """What is wrong, or None, for each thing that is tried."""
    for found in (length_problems, name_problems):
        wrong = list(found())
        yield "\n".join(wrong) if wrong else None
    shown = [helped(folder, words) for words in (["--help"], ["-h"], ["--help", "analyse"])]
    answers = {(ran.returncode, ran.stdout, ran.stderr) for ran in shown}
    forms, tools = forms_of(shown[0].stdout)
    is_help = len(answers) == 1 and shown[0].returncode == 0 and not shown[0].stderr and forms == guide_forms()
    yield None if is_help and len(forms) > 5 else f"./block --help shows the forms {forms}: {answers}"
    # a tool says what it takes, and nothing is built for that
    for name in sorted({form[0] for form in tools}):
        ran = helped(folder, [name, "--help"])
        is_told = ran.returncode == 0 and f"block {name}" in ran.stdout and not ran.stderr
        yield None if is_told else f"./block {name} --help ended with {ran.returncode}: {ran.stdout}{ran.stderr}"
    yield reading_problem()
    yield memory_problem(folder, program)
