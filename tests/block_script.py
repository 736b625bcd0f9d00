"""./block: which executable it runs, when it builds one, what --try and --version say, and what memory it refuses.

Most of it is tried on a copy of the script with a program and an `rt` that are scripts too, and write down how they were called. One try
is made by the toolchain's own `rt`, where there is one.
"""
import os
import re
import shutil
import subprocess
from pathlib import Path
from typing import Iterator, Mapping, NamedTuple

TOP = Path(__file__).resolve().parent.parent
EXAMPLES = TOP / "examples"
NOT_BUILT, NO_ANSWER, NO_MEMORY = 70, 71, 72
# Times of files: two that are past, and one that is to come.
OLD, NEW, LATER = 1_000_000_000, 1_100_000_000, 2_000_000_000

PROGRAM = "#!/bin/sh\necho \"{says}: $*\"\n[ $# -gt 0 ] || exit 2\n"
# It writes its words to a file beside it, and where it is to prove makes an executable.
RT = """#!/bin/sh
printf '%s\\n' "$@" >"$0.words"
case $1 in
    version) echo "a kit" ;;
    ci)
        echo "rt: low proved"
        mkdir -p crates/block_cli/out && cp "$0.program" crates/block_cli/out/block_cli
        ;;
    try)
        cat "$0.answer"
        echo "checked: said before" >&2
        cat "$0.last" >&2
        exit "$(cat "$0.status")"
        ;;
esac
"""


class Ran(NamedTuple):
    """How a run ended."""

    status: int
    out: str
    err: str


class Copy:
    """A copy of ./block over a program of its own, with an `rt` of its own before all others on the path."""

    def __init__(self, folder: Path, program: str | Path = "") -> None:
        self.top = folder
        self.out = folder / "crates" / "block_cli" / "out"
        self.rt = folder / "bin" / "rt"
        for place in (self.out, self.rt.parent, folder / "crates" / "low"):
            place.mkdir(parents=True)
        for name in ("block", "VERSION", "HANDLES"):
            shutil.copy(TOP / name, folder)
        for name in ("tools", "docs"):
            (folder / name).symlink_to(TOP / name)
        self.source = self.file("crates/low/lib.rt", "", OLD)
        self.file("crates.txt", "low:\nblock_cli: low\n", OLD)
        self.file("bin/rt", RT, OLD)
        self.file("bin/rt.program", PROGRAM.format(says="built"), OLD)
        if isinstance(program, Path):
            shutil.copy(program, self.program())
        elif program:
            self.file("crates/block_cli/out/block_cli", PROGRAM.format(says=program), OLD)

    def program(self) -> Path:
        return self.out / "block_cli"

    def file(self, name: str, text: str, time: int) -> Path:
        path = self.top / name
        path.write_text(text)
        path.chmod(0o755)
        os.utime(path, (time, time))
        return path

    def run(self, *words: str | bytes | Path, at: Path | None = None, **environment: str) -> Ran:
        """What the copy does with these words."""
        given = {**os.environ, "PATH": f"{self.rt.parent}:{os.environ['PATH']}", **environment}
        ran = subprocess.run([self.top / "block", *words], cwd=at or self.top, capture_output=True, text=True, env=given, stdin=subprocess.DEVNULL)
        return Ran(ran.returncode, ran.stdout, ran.stderr)

    def called(self) -> list[str]:
        """The words of the last call of its `rt`, or none."""
        written = Path(f"{self.rt}.words")
        return written.read_text().split("\n")[:-1] if written.is_file() else []


def unless(is_right: bool, what: str, *found: object) -> str | None:
    return None if is_right else f"{what}: {found}"


def pick_problems(folder: Path) -> Iterator[str | None]:
    """What is wrong with which executable is run."""
    places: Mapping[str, tuple[dict[str, int], int, str]] = {
        "what the gate ran": ({"stdout": NEW}, OLD, "left: a"),
        "what ./block built": ({"block.built": OLD}, OLD, "left: a"),
        "what nobody ran": ({}, OLD, "built: a"),
        "what was written since the gate ran": ({"stdout": OLD - 1}, OLD, "built: a"),
        "what is older than a source": ({"stdout": NEW}, NEW, "built: a"),
    }
    for what, (marks, source, says) in places.items():
        copy = Copy(folder / what.replace(" ", "-"), "left")
        for mark, time in marks.items():
            copy.file(f"crates/block_cli/out/{mark}", "", time)
        os.utime(copy.source, (source, source))
        ran = copy.run("a")
        yield unless(ran[:2] == (0, f"{says}\n") and bool(ran.err) == ("built" in says), f"./block runs {what}", ran)
        again = copy.run("b")
        yield unless(again == (0, f"{says[:-1]}b\n", ""), f"./block again after {what}", again)


def build_problems(folder: Path) -> Iterator[str | None]:
    """What is wrong with how a build that fails ends."""
    copy = Copy(folder / "failing")
    copy.file("bin/rt", "#!/bin/sh\necho wrong\nexit 1\n", OLD)
    ran = copy.run("a")
    yield unless(ran[:2] == (NOT_BUILT, "") and "block: the build failed" in ran.err and "wrong" in ran.err, "a build that fails", ran)


def version_problems(folder: Path) -> Iterator[str | None]:
    """What is wrong with the four lines of --version."""
    copy = Copy(folder / "version")
    version = (TOP / "VERSION").read_text().strip()
    ran = copy.run("--version")
    wanted = rf"cizborg {re.escape(version)}\ncommit \S.*\nkit a kit\nexecutable none\n"
    yield unless(ran.status == 0 and re.fullmatch(wanted, ran.out) is not None and not ran.err, "./block --version without an executable", ran)
    copy.run("a")
    digest = subprocess.run(["sha256sum", copy.program()], capture_output=True, text=True).stdout.split()[0]
    ran = copy.run("--version")
    yield unless(ran.status == 0 and ran.out.splitlines()[3] == f"executable {digest}", "./block --version of what it built", ran)
    os.utime(copy.source)
    ran = copy.run("--version")
    yield unless(ran.status == 0 and ran.out.splitlines()[3] == f"executable {digest}, which isn't proved of these sources", "./block --version of an older executable", ran)


def memory_problems(folder: Path, program: Path) -> Iterator[str | None]:
    """What is wrong with how a bound under which nothing runs is refused, and with one under which the program runs."""
    copy = Copy(folder / "memory", program)
    copy.file("crates/block_cli/out/block.built", "", LATER)
    for memory, why in (("100", "under BLOCK_MEMORY=100,"), ("2000", "under BLOCK_MEMORY=2000,"), ("many", '"many"'), ("", '""'), ("-1", '"-1"')):
        ran = copy.run("report", "fmlp+", EXAMPLES / "three.json", BLOCK_MEMORY=memory)
        yield unless(ran[:2] == (NO_MEMORY, "") and why in ran.err and ran.err.count("\n") == 1, f"BLOCK_MEMORY={memory}", ran)
    table = copy.run("report", "fmlp+", EXAMPLES / "three.json")
    for memory in ("65536", "unlimited"):
        ran = copy.run("report", "fmlp+", EXAMPLES / "three.json", BLOCK_MEMORY=memory)
        yield unless(ran == table and ran.status == 0 and ran.out != "", f"BLOCK_MEMORY={memory}", ran)


def tried(copy: Copy, status: int, last: str, *words: str | Path, at: Path | None = None) -> Ran:
    """What a copy answers by a try that ends so."""
    copy.file("bin/rt.answer", "an answer\n", OLD)
    copy.file("bin/rt.last", last, OLD)
    copy.file("bin/rt.status", str(status), OLD)
    return copy.run("--try", *words, at=at)


def try_problems(folder: Path) -> Iterator[str | None]:
    """What is wrong with the words that `rt try` is given, and with what is made of its answers."""
    copy = Copy(folder / "trying")
    place = folder / "a place=here"
    place.mkdir()
    for name in ("a set", "jobs", "8"):
        (place / name).touch()
    ended = "run=ended status=0 runners=1 races=unchecked proved=no\n"
    ran = tried(copy, 0, ended, "simulate", "fmlp+", "a set", place / "jobs", "8", at=place)
    yield unless(ran[:2] == (0, "an answer\n") and ran.err.count("\n") == 1 and "nothing is proved" in ran.err and '"rt ci"' in ran.err, "--try", ran)
    wanted = ["try", "--data", f"input-3={place}/a set", "--data", f"input-4={place}/jobs", "--", "simulate", "fmlp+", "input-3", "input-4", "8"]
    yield unless(copy.called() == wanted, "the words of --try", copy.called())
    tried(copy, 0, ended, "report", "fmlp+", "none", "../place", at=place)
    yield unless(copy.called() == ["try", "--", "report", "fmlp+", f"{place}/none", f"{place}/../place"], "words of --try that are no files", copy.called())
    ran = tried(copy, 5, ended.replace("status=0", "status=5"), "analyse", "fmlp+", "a set", at=place)
    yield unless(ran[:2] == (5, "an answer\n"), "--try of a number that is too wide", ran)
    for status, last in ((6, "run=no-answer proved=no\n"), (1, "run=none proved=no\n"), (2, ""), (0, ended.replace("status=0", "status=3"))):
        ran = tried(copy, status, last, "analyse", "fmlp+", "a set", at=place)
        yield unless(ran[:2] == (NO_ANSWER, "") and "rt try gave no answer" in ran.err, f"--try that ends with {status} {last}", ran)


def real_try_problems(folder: Path, program: Path) -> Iterator[str | None]:
    """What is wrong with a try by the toolchain: the program's own answer and status, from another folder."""
    if not shutil.which("rt"):
        print("--try was not tried: no rt is on the path")
        return
    (folder / "set.json").write_bytes((EXAMPLES / "overloaded.json").read_bytes())
    words = ["analyse", "fmlp+", "set.json"]
    wanted = subprocess.run([program, *words], cwd=folder, capture_output=True, text=True)
    ran = subprocess.run([TOP / "block", "--try", *words], cwd=folder, capture_output=True, text=True, stdin=subprocess.DEVNULL)
    is_right = (ran.returncode, ran.stdout) == (wanted.returncode, wanted.stdout) and ran.stderr.count("\n") == 1
    yield unless(is_right and ran.returncode == 1 and ran.stdout != "", "--try by the toolchain", ran)


def problems(folder: str | Path, program: Path) -> Iterator[str | None]:
    """What is wrong, or None, for each thing that is tried."""
    place = Path(folder)
    yield from pick_problems(place)
    yield from build_problems(place)
    yield from version_problems(place)
    yield from memory_problems(place, program)
    yield from try_problems(place)
    yield from real_try_problems(place, program)
