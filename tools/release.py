#!/usr/bin/env python3
"""Writes a release to dist/: a tarball, a Debian package, and their checksums.

    tools/release.py --gate LOG [--program FILE] [--output FOLDER]

LOG is what `.ci/run` wrote. A release is made only where the gate passed, on a commit without changes, and where the executable is the one
whose digest stands in the log. The release has the executable, the tools, the documents with the schemas, the examples with their expected
answers, a manual page, completions for three shells, the licences, the changelog, and the record of what the gate said. Times of files are
that of the commit, so that a release that is made twice has the same bytes. The package needs dpkg-deb, and is left out with a word where
there is none.
"""
import argparse
import gzip
import hashlib
import io
import os
import re
import shutil
import subprocess
import sys
import tarfile
import tempfile
from dataclasses import dataclass
from pathlib import Path
from typing import Iterator, NoReturn, Sequence, Union

from shown_commands import commands_of, documents_in

TOP = Path(__file__).resolve().parent.parent
BUILT = TOP / "crates" / "block_cli" / "out" / "block_cli"
PRIVATE = "lib/cizborg"
DOCS = "share/doc/cizborg"
MAN = "share/man/man1/cizborg.1"
SHELLS = {
    "bash": "share/bash-completion/completions/cizborg",
    "zsh": "share/zsh/site-functions/_cizborg",
    "fish": "share/fish/vendor_completions.d/cizborg.fish",
}
# What the completions say of ./block, and what the installed command has in its place.
INSTALLED_WORDS = (
    ("--try --help --version", "--help --self-test --version"),
    ("./block", "cizborg"),
    ("block or block_cli", "cizborg"),
    ("block block_cli", "cizborg"),
    ("complete -c block ", "complete -c cizborg "),
)
PLAIN, RUNS = 0o644, 0o755
MAINTAINER = "the Cizborg developers <maintainers@users.noreply.cizborg.example>"


class Stop(Exception):
    """Why no release is made."""


@dataclass(frozen=True)
class File:
    """A file of the release: its bytes, and its rights."""

    data: bytes
    mode: int = PLAIN


@dataclass(frozen=True)
class Link:
    """A symbolic link of the release."""

    to: str


Tree = dict[str, Union[File, Link]]


@dataclass(frozen=True)
class Record:
    """What is known of the executable: what the log of the gate says of it."""

    version: str
    commit: str
    kit: str
    executable: str
    gate: tuple[str, ...]
    log: str

    def text(self) -> str:
        lines = [f"cizborg {self.version}", f"commit {self.commit}", f"kit {self.kit}", f"executable {self.executable}"]
        return "".join(f"{line}\n" for line in [*lines, *(f"gate {line}" for line in self.gate), f"gate-log {self.log}"])


def said(log: str, pattern: str, what: str) -> str:
    """The one line of the log that a pattern finds."""
    found = re.findall(pattern, log, re.M)
    if len(found) != 1:
        raise Stop(f"the log of the gate has {len(found)} lines with {what}, and not one: is it what .ci/run wrote?")
    return str(found[0])


def record_of(log: bytes) -> Record:
    """The record of a gate that passed on a commit without changes."""
    text = log.decode("utf-8", "replace")
    counts = re.findall(r"^((?:[a-z./ ]+: )?\d+ passed, (\d+) failed)$", text, re.M)
    said(text, r"^(\d+ passed, 0 failed)$", "what rt ci ends with where it passed")
    said(text, r"^(the gate passed)$", "what .ci/run ends with where it passed")
    if any(failed != "0" for _, failed in counts):
        raise Stop("the gate failed: its log counts failures")
    return Record(
        (TOP / "VERSION").read_text(encoding="utf-8").strip(),
        said(text, r"^commit ([0-9a-f]{40})$", "a commit without changes"),
        said(text, r"^kit (\S.*)$", "a kit"),
        said(text, r"^executable ([0-9a-f]{64})$", "the digest of a proved executable"),
        tuple(line for line, _ in counts),
        hashlib.sha256(log).hexdigest(),
    )


def time_of(commit: str) -> int:
    """The time of a commit in seconds."""
    ran = subprocess.run(["git", "-C", TOP, "show", "-s", "--format=%ct", commit], capture_output=True, text=True)
    if ran.returncode:
        raise Stop(f"git knows no commit {commit} here")
    return int(ran.stdout)


def tracked(commit: str, *folders: str) -> list[str]:
    """The files of folders that are part of a commit."""
    ran = subprocess.run(["git", "-C", TOP, "ls-tree", "-r", "--name-only", "-z", commit, "--", *folders], capture_output=True, text=True, check=True)
    return sorted(ran.stdout.split("\0")[:-1])


def committed(commit: str, name: str) -> File:
    """A file as the commit has it."""
    ran = subprocess.run(["git", "-C", TOP, "show", f"{commit}:{name}"], capture_output=True, check=True)
    return File(ran.stdout, RUNS if ran.stdout.startswith(b"#!") else PLAIN)


def in_roff(text: str) -> str:
    """A text of a document as the manual page writes it."""
    text = text.replace("\\", "\\e").replace("-", "\\-").replace("`", "")
    return re.sub(r"^([.'])", r"\\&\1", text, flags=re.M)


def rows_of(text: str, title: str) -> list[list[str]]:
    """The rows of the first table of a part of a document, without its head."""
    part = text.partition(f"\n## {title}\n")[2].partition("\n## ")[0]
    return [[cell.strip() for cell in row.strip("|").split(" | ")] for row in re.findall(r"^\|.*\|$", part, re.M)][2:]


def statuses_of(text: str) -> list[list[str]]:
    return [row for row in [[cell.strip() for cell in line.strip("|").split(" | ")] for line in re.findall(r"^\| \d \|.*\|$", text, re.M)] if len(row) == 2]


def manual(files: Tree, version: str, time: int) -> str:
    """The manual page: its commands are those of the guide, its statuses those of the README."""
    guide = "\n".join(text_in(files, name) for name in sorted(files) if name.startswith("docs/GUIDE"))
    commands = "".join(f".TP\n.B {in_roff(row[0])}\n{in_roff(row[1])}\n" for row in rows_of(guide, "Commands"))
    statuses = "".join(f".TP\n.B {status}\n{in_roff(means)}\n" for status, means in statuses_of(text_in(files, "README.md")))
    day = subprocess.run(["date", "-u", "-d", f"@{time}", "+%Y-%m-%d"], capture_output=True, text=True, check=True).stdout.strip()
    page = text_in(files, "release/cizborg.1")
    for name, value in (("VERSION", version), ("DATE", day), ("COMMANDS", commands.rstrip()), ("STATUSES", statuses.rstrip())):
        page = page.replace(f"@{name}@", value)
    return page


def text_in(files: Tree, name: str) -> str:
    file = files[name]
    assert isinstance(file, File)
    return file.data.decode("utf-8")


def expected(folder: Path) -> Iterator[tuple[str, str]]:
    """The commands that the documents show, as files of the self-test."""
    number = 0
    for document in documents_in(folder):
        for shown in commands_of(document):
            number += 1
            parts = {"words": shown.words.replace(" ", "\n") + "\n", "status": f"{shown.status}\n"}
            parts |= {"saves": f"{shown.saves}\n"} if shown.saves else {"answer": shown.answer}
            for part, text in parts.items():
                yield f"{PRIVATE}/self-test/{number:03}.{part}", text


def for_cizborg(text: str, shell: str) -> str:
    """A completion of ./block for the installed name. That for zsh is loaded as a function of the name of its file, at its first use."""
    for old, new in INSTALLED_WORDS:
        text = text.replace(old, new)
    lines = [line for line in text.splitlines(keepends=True) if "complete -c block_cli " not in line]
    return "".join(lines) + ('[[ $funcstack[1] != _cizborg ]] || _block "$@"\n' if shell == "zsh" else "")


def completions(folder: Path) -> Iterator[tuple[str, str]]:
    """The completions of three shells, as the tool that makes them writes them, for the installed name."""
    for shell, path in SHELLS.items():
        ran = subprocess.run([sys.executable, "-B", folder / "tools" / "cizborg", "completion", shell], capture_output=True, text=True)
        if ran.returncode:
            raise Stop(f"there are no completions for {shell}: {ran.stderr.strip()}")
        yield path, for_cizborg(ran.stdout, shell)


def laid_out(files: Tree, folder: Path, program: bytes, record: Record, time: int) -> Tree:
    """What is installed, by its place below the prefix."""
    found: Tree = {"bin/cizborg": File(files["release/cizborg"].data, RUNS), f"{PRIVATE}/block_cli": File(program, RUNS)}  # type: ignore[union-attr]
    # where the tools look for it that aren't told where it is
    found[f"{PRIVATE}/crates/block_cli/out/block_cli"] = Link("../../../block_cli")
    found[f"{PRIVATE}/RECORD"] = File(record.text().encode())
    for name, file in files.items():
        if name.startswith(("tools/", "docs/", "examples/")) and name not in ("tools/release.py", "tools/shown_commands.py", "tools/mypy.ini"):
            found[f"{PRIVATE}/{name}"] = file
    for name in ("README.md", "CHANGELOG.md", "LICENSE-MIT", "LICENSE-APACHE"):
        found[f"{DOCS}/{name}"] = files[name]
        found[f"{PRIVATE}/{name}"] = Link(f"../../{DOCS}/{name}")
    for name in ("docs", "examples"):
        found[f"{DOCS}/{name}"] = Link(f"../../../{PRIVATE}/{name}")
    for path, text in (*expected(folder), *completions(folder)):
        found[path] = File(text.encode())
    found[MAN] = File(manual(files, record.version, time).encode())
    return found


def unpack(tree: Tree, folder: Path) -> None:
    """Writes a tree to a folder."""
    for name, entry in tree.items():
        path = folder / name
        path.parent.mkdir(parents=True, exist_ok=True)
        if isinstance(entry, Link):
            path.symlink_to(entry.to)
        else:
            path.write_bytes(entry.data)
            path.chmod(entry.mode)


def compressed(data: bytes) -> bytes:
    return gzip.compress(data, 9, mtime=0)


def folders_of(tree: Tree) -> list[str]:
    """Each folder of a tree."""
    return sorted({str(parent) for name in tree for parent in Path(name).parents if str(parent) != "."})


def tarball(tree: Tree, top: str, time: int) -> bytes:
    """A tree below one folder, as a tarball whose bytes depend on nothing else."""
    out = io.BytesIO()
    with tarfile.open(fileobj=out, mode="w", format=tarfile.PAX_FORMAT) as tar:
        for name in sorted(["", *folders_of(tree), *tree]):
            entry = tree.get(name)
            info = tarfile.TarInfo(f"{top}/{name}".rstrip("/"))
            info.mtime, info.uname, info.gname, info.mode = time, "root", "root", RUNS
            if isinstance(entry, File):
                info.size, info.mode = len(entry.data), entry.mode
                tar.addfile(info, io.BytesIO(entry.data))
                continue
            info.type = tarfile.SYMTYPE if isinstance(entry, Link) else tarfile.DIRTYPE
            info.linkname = entry.to if isinstance(entry, Link) else ""
            tar.addfile(info)
    return compressed(out.getvalue())


def with_sums(tree: Tree) -> Tree:
    """A tree with the checksums of its files."""
    lines = (f"{hashlib.sha256(entry.data).hexdigest()}  {name}\n" for name, entry in sorted(tree.items()) if isinstance(entry, File))
    return {**tree, "SHA256SUMS": File("".join(lines).encode())}


def control(tree: Tree, version: str) -> str:
    """What the package says of itself."""
    size = sum(len(entry.data) for entry in tree.values() if isinstance(entry, File)) // 1024 + 1
    return "\n".join([
        "Package: cizborg",
        f"Version: {version}",
        "Architecture: amd64",
        f"Maintainer: {MAINTAINER}",
        f"Installed-Size: {size}",
        "Depends: libc6 (>= 2.34)",
        "Recommends: python3",
        "Suggests: python3-matplotlib, python3-jsonschema",
        "Section: science",
        "Priority: optional",
        "Description: proved response-time analysis of real-time tasks that share resources",
        " Finds bounds on response times of tasks that are pinned to processors and share",
        " resources under MPCP, FMLP+, DPCP, the distributed FIFO protocol or spin locks,",
        " with certificates that are judged without trust. The program is proved.",
        "",
    ])


def of_debian(tree: Tree, record: Record) -> Tree:
    """The tree as Debian installs it: below usr/, the manual page and the changelog compressed, and one file for the licences."""
    found = {f"usr/{name}": entry for name, entry in tree.items()}
    for name, to in ((MAN, f"usr/{MAN}.gz"), (f"{DOCS}/CHANGELOG.md", f"usr/{DOCS}/changelog.gz")):
        entry = tree[name]
        assert isinstance(entry, File)
        del found[f"usr/{name}"]
        found[to] = File(compressed(entry.data))
    found[f"usr/{PRIVATE}/CHANGELOG.md"] = Link(f"../../{DOCS}/changelog.gz")
    licences = "\n".join(text_in(tree, f"{DOCS}/{name}") for name in ("LICENSE-MIT", "LICENSE-APACHE"))
    found[f"usr/{DOCS}/copyright"] = File(f"Under either of these two licences, at your choice.\n\n{licences}".encode())
    sums = (f"{hashlib.md5(entry.data).hexdigest()}  {name}\n" for name, entry in sorted(found.items()) if isinstance(entry, File))
    found["DEBIAN/control"] = File(control(tree, record.version).encode())
    found["DEBIAN/md5sums"] = File("".join(sums).encode())
    return found


def package(tree: Tree, record: Record, time: int) -> bytes:
    """The Debian package. Its times are bounded by that of the commit, which dpkg-deb takes from its environment."""
    with tempfile.TemporaryDirectory(prefix="cizborg-") as room:
        folder = Path(room) / "package"
        found = of_debian(tree, record)
        folder.mkdir(mode=RUNS)
        unpack(found, folder)
        for name in [*folders_of(found), "."]:
            (folder / name).chmod(RUNS)
        for path in (folder, *folder.rglob("*")):
            os.utime(path, (time, time), follow_symlinks=False)
        words = ["dpkg-deb", "--root-owner-group", "-Zgzip", "--build", str(folder), f"{room}/package.deb"]
        ran = subprocess.run(words, env={**os.environ, "SOURCE_DATE_EPOCH": str(time)}, capture_output=True, text=True)
        if ran.returncode:
            raise Stop(f"dpkg-deb failed: {ran.stderr.strip()}")
        return (Path(room) / "package.deb").read_bytes()


def written(output: Path, files: dict[str, bytes]) -> None:
    """Writes the files of a release, and their checksums."""
    output.mkdir(parents=True, exist_ok=True)
    sums = "".join(f"{hashlib.sha256(data).hexdigest()}  {name}\n" for name, data in sorted(files.items()))
    for name, data in {**files, "SHA256SUMS": sums.encode()}.items():
        (output / name).write_bytes(data)
        print(output / name)


def released(log: Path, program: Path, output: Path) -> None:
    """Writes the release of an executable."""
    record, data = record_of(log.read_bytes()), program.read_bytes()
    if hashlib.sha256(data).hexdigest() != record.executable:
        raise Stop(f"{program} isn't the executable that the log of the gate names")
    time = time_of(record.commit)
    names = tracked(record.commit, "tools", "docs", "examples", "release", "README.md", "VERSION", "CHANGELOG.md", "LICENSE-MIT", "LICENSE-APACHE")
    files: Tree = {name: committed(record.commit, name) for name in names}
    if text_in(files, "VERSION").strip() != record.version:
        raise Stop("VERSION isn't that of the commit")
    with tempfile.TemporaryDirectory(prefix="cizborg-") as room:
        unpack(files, Path(room))
        tree = laid_out(files, Path(room), data, record, time)
    name = f"cizborg-{record.version}"
    made = {f"{name}-x86_64-linux.tar.gz": tarball(with_sums(tree), name, time), "RECORD": record.text().encode()}
    if shutil.which("dpkg-deb"):
        made[f"cizborg_{record.version}_amd64.deb"] = package(tree, record, time)
    else:
        print("no Debian package is made: dpkg-deb is missing", file=sys.stderr)
    written(output, made)


def main(words: Sequence[str]) -> NoReturn:
    arguments = argparse.ArgumentParser(description=__doc__, formatter_class=argparse.RawDescriptionHelpFormatter)
    arguments.add_argument("--gate", metavar="LOG", type=Path, required=True, help="what .ci/run wrote")
    arguments.add_argument("--program", metavar="FILE", type=Path, default=BUILT, help="the executable, where it isn't the one that rt ci left")
    arguments.add_argument("--output", metavar="FOLDER", type=Path, default=TOP / "dist", help="where the release goes, where not to dist/")
    given = arguments.parse_args(words)
    try:
        released(given.gate, given.program, given.output)
    except (Stop, OSError) as error:
        sys.exit(f"release.py: {error}")
    sys.exit(0)


if __name__ == "__main__":
    main(sys.argv[1:])
