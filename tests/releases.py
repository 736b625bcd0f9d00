"""tools/release.py: a release that is made twice has the same bytes, and what is installed works with nothing else of the repository."""
import hashlib
import os
import shutil
import subprocess
import sys
import tarfile
from pathlib import Path
from typing import Iterator

from block_script import TOP, unless

PARTS = ("tools", "docs", "examples", "release", "README.md", "VERSION", "CHANGELOG.md", "LICENSE-MIT", "LICENSE-APACHE")
VERSION = (TOP / "VERSION").read_text().strip()
TARBALL = f"cizborg-{VERSION}-x86_64-linux.tar.gz"
PACKAGE = f"cizborg_{VERSION}_amd64.deb"
KIT = "rattle-kit-0 logic 0000000000000000"
# what .ci/run writes, as far as a release reads it
LOG = "rt: ok; handles allowed: Threads\n198 passed, 0 failed\ncizborg {version}\ncommit {commit}\nkit {kit}\nexecutable {executable}\nthe tools: 9 passed, 0 failed\nthe gate passed\n"
RECORD = "cizborg {version}\ncommit {commit}\nkit {kit}\nexecutable {executable}\ngate 198 passed, 0 failed\ngate the tools: 9 passed, 0 failed\ngate-log {log}\n"
FAKE = b"#!/bin/sh\necho refused words\nexit 2\n"
# nothing of this repository, nor of the user, reaches what is tried, but the bound of memory: a build with checks needs another one
CLEAN = {"PATH": os.environ["PATH"], "HOME": "/nonexistent", "LANG": "C.UTF-8", **{name: os.environ[name] for name in ("BLOCK_MEMORY",) if name in os.environ}}
WANTED = [
    "bin/cizborg",
    "lib/cizborg/block_cli",
    "lib/cizborg/RECORD",
    "lib/cizborg/docs/GUIDE.md",
    "lib/cizborg/docs/PROOFS.md",
    "lib/cizborg/docs/schema/task-set.schema.json",
    "lib/cizborg/examples/plant.json",
    "lib/cizborg/tools/answering.sh",
    "share/man/man1/cizborg.1",
    "share/bash-completion/completions/cizborg",
    "share/zsh/site-functions/_cizborg",
    "share/fish/vendor_completions.d/cizborg.fish",
    "share/doc/cizborg/README.md",
    "share/doc/cizborg/CHANGELOG.md",
    "share/doc/cizborg/LICENSE-MIT",
    "share/doc/cizborg/LICENSE-APACHE",
]


def digest(data: bytes) -> str:
    return hashlib.sha256(data).hexdigest()


class Sources:
    """A repository with what a release is made of, in one commit."""

    def __init__(self, folder: Path) -> None:
        self.top = folder
        folder.mkdir()
        for name in PARTS:
            if (TOP / name).is_dir():
                shutil.copytree(TOP / name, folder / name, ignore=shutil.ignore_patterns("__pycache__"))
            else:
                shutil.copy(TOP / name, folder)
        self.git("init", "--quiet")
        self.git("add", "--all")
        self.git("commit", "--quiet", "--message", "All")
        self.commit = self.git("rev-parse", "HEAD").strip()

    def git(self, *words: str) -> str:
        who = {f"GIT_{kind}_{part}": value for kind in ("AUTHOR", "COMMITTER") for part, value in (("NAME", "a"), ("EMAIL", "a@b"), ("DATE", "2001-02-03T04:05:06Z"))}
        return subprocess.run(["git", *words], cwd=self.top, env={**os.environ, **who}, capture_output=True, text=True, check=True).stdout

    def log(self, program: bytes, **other: str) -> str:
        return LOG.format(**{"version": VERSION, "commit": self.commit, "kit": KIT, "executable": digest(program), **other})

    def release(self, name: str, program: bytes, log: str) -> subprocess.CompletedProcess[str]:
        """Makes a release in the folder of this name."""
        (self.top / "program").write_bytes(program)
        (self.top / "gate.log").write_text(log)
        words = ["--gate", "gate.log", "--program", "program", "--output", name]
        return subprocess.run([sys.executable, "-B", "tools/release.py", *words], cwd=self.top, capture_output=True, text=True)


def same_bytes_problems(sources: Sources) -> Iterator[str | None]:
    """What is wrong with two releases of one executable."""
    for name in ("once", "again"):
        ran = sources.release(name, FAKE, sources.log(FAKE))
        yield unless(ran.returncode == 0 and not ran.stderr, "release.py of a script", ran)
        # files that are written later have other times
        os.utime(sources.top / "docs" / "GUIDE.md")
    found = {path.name: digest(path.read_bytes()) for path in sorted((sources.top / "once").iterdir())}
    names = ["RECORD", "SHA256SUMS", TARBALL] + [PACKAGE] * bool(shutil.which("dpkg-deb"))
    yield unless(sorted(found) == sorted(names), "the files of a release", found)
    again = {path.name: digest(path.read_bytes()) for path in (sources.top / "again").iterdir()}
    yield unless(found == again, "a release made twice differs", found, again)
    sums = "".join(f"{found[name]}  {name}\n" for name in sorted(found) if name != "SHA256SUMS")
    yield unless((sources.top / "once" / "SHA256SUMS").read_text() == sums, "the checksums of a release", sums)
    log = sources.log(FAKE)
    record = RECORD.format(version=VERSION, commit=sources.commit, kit=KIT, executable=digest(FAKE), log=digest(log.encode()))
    yield unless((sources.top / "once" / "RECORD").read_text() == record, "the record of a release", record)


def refused_problems(sources: Sources) -> Iterator[str | None]:
    """What is wrong with how a release is refused of which the gate doesn't say that it passed."""
    right = sources.log(FAKE)
    wrong = {
        "a failure": (right.replace("198 passed, 0", "197 passed, 1"), "the log of the gate has 0 lines with what rt ci ends with where it passed"),
        "a failure of the tools": (right.replace("9 passed, 0", "8 passed, 1"), "the gate failed"),
        "changes": (right.replace(sources.commit, f"{sources.commit}, with changes"), "the log of the gate has 0 lines with a commit without changes"),
        "an executable that isn't proved": (right.replace(digest(FAKE), f"{digest(FAKE)}, which isn't proved of these sources"), "the log of the gate has 0 lines with the digest"),
        "a run that ended early": (right.replace("the gate passed\n", ""), "the log of the gate has 0 lines with what .ci/run ends with where it passed"),
        "another executable": (sources.log(b""), "program isn't the executable that the log of the gate names"),
        "another commit": (right.replace(sources.commit, 40 * "0"), f"git knows no commit {40 * '0'} here"),
        "two gates": (right + right, "the log of the gate has 2 lines"),
    }
    for what, (log, line) in wrong.items():
        ran = sources.release("refused", FAKE, log)
        is_right = ran.returncode == 1 and ran.stderr.startswith(f"release.py: {line}") and not (sources.top / "refused").exists()
        yield unless(is_right, f"release.py of {what}", ran)


def asked(command: Path, *words: str, at: Path) -> tuple[int, str, str]:
    """What the installed command does in a folder, with an environment of its own."""
    ran = subprocess.run([command, *words], cwd=at, env=CLEAN, capture_output=True, text=True, stdin=subprocess.DEVNULL)
    return ran.returncode, ran.stdout, ran.stderr


def judgements(private: Path) -> str:
    """What the self-test says of the second checker, where all judgements are right."""
    if not shutil.which("node", path=CLEAN["PATH"]):
        return "second checker: left out, since node is missing\n"
    count = sum(path.read_text().split("\n")[0] in ("check", "confirm") for path in (private / "self-test").glob("*.words"))
    return f"second checker: {count} of {count} judgements are as the documents have them\n"


def installed_problems(prefix: Path, program: Path, room: Path) -> Iterator[str | None]:
    """What is wrong with what is installed below a prefix."""
    command, private = prefix / "bin" / "cizborg", prefix / "lib" / "cizborg"
    version = asked(command, "--version", at=room)
    yield unless(version == (0, (private / "RECORD").read_text(), ""), "cizborg --version", version)
    count = len(list((private / "self-test").glob("*.words")))
    tested = asked(command, "--self-test", at=room)
    yield unless(count > 30 and tested == (0, f"self-test: {count} of {count} answers are as the documents have them\n" + judgements(private), ""), "cizborg --self-test", tested)
    (room / "set.json").write_bytes((TOP / "examples" / "three.json").read_bytes())
    words = ["analyse", "fmlp+", "set.json"]
    ran = subprocess.run([program, *words], cwd=room, capture_output=True, text=True)
    found = asked(command, *words, at=room)
    yield unless(found == (0, ran.stdout, "") and ran.stdout != "", "cizborg of a set", found)
    found = asked(command, "analyze", *words[1:], at=room)
    wanted = 'cizborg: "analyze" is no command; near to it is "analyse"\ncizborg: the form is: cizborg analyse PROTOCOL SET\n'
    yield unless(found == (2, "refused words\n", wanted), "cizborg of wrong words", found)
    shown = asked(command, "--help", at=room)
    yield unless(shown[0] == 0 and "    cizborg analyse PROTOCOL SET " in shown[1] and not shown[2], "cizborg --help", shown)


def differing_problems(prefix: Path, room: Path) -> Iterator[str | None]:
    """What is wrong with how an answer that differs is named, and an executable that isn't the one of the record."""
    answer = sorted((prefix / "lib" / "cizborg" / "self-test").glob("*.answer"))[0]
    words = answer.with_suffix(".words").read_text().replace("\n", " ")
    answer.write_text("another answer\n")
    tested = asked(prefix / "bin" / "cizborg", "--self-test", at=room)
    count = len(list(answer.parent.glob("*.words")))
    wanted = f"differs: cizborg {words}\nself-test: {count - 1} of {count} answers are as the documents have them\n" + judgements(prefix / "lib" / "cizborg")
    yield unless(tested == (1, wanted, ""), "cizborg --self-test with an answer changed", tested)
    (prefix / "lib" / "cizborg" / "block_cli").write_bytes(FAKE)
    version = asked(prefix / "bin" / "cizborg", "--version", at=room)
    yield unless(version[1].endswith(f"the executable that is installed is another one: {digest(FAKE)}\n"), "cizborg --version of another executable", version)


def tool_problems(prefix: Path, room: Path) -> Iterator[str | None]:
    """What is wrong with the tools where nothing else of the repository is."""
    (room / "set.json").write_bytes((TOP / "examples" / "pair.json").read_bytes())
    command = prefix / "bin" / "cizborg"
    for words in (["sensitivity", "fmlp+", "set.json"], ["dossier", "fmlp+", "set.json", "cert.json", "--output", "page.html"]):
        certificate = asked(command, "analyse", "fmlp+", "set.json", at=room)
        (room / "cert.json").write_text(certificate[1])
        ran = asked(command, *words, at=room)
        yield unless(ran[0] == 0 and not ran[2], f"cizborg {words[0]}", ran)
    page = room / "page.html"
    yield unless(page.is_file() and "it has read a valid certificate of the set" in page.read_text(), "the page of the installed dossier", page)


def page_problem(prefix: Path) -> str | None:
    """What is wrong with the manual page: it is read without a warning, and has each command and each status."""
    if not shutil.which("groff"):
        print("the manual page was not read: groff is missing")
        return None
    ran = subprocess.run(["groff", "-man", "-Tascii", "-P-cbou", "-ww", prefix / "share" / "man" / "man1" / "cizborg.1"], capture_output=True, text=True)
    missing = [word for word in ("analyse PROTOCOL SET", "audit PROTOCOL", "--self-test", "BLOCK_MEMORY", VERSION) if word not in ran.stdout]
    return unless(ran.returncode == 0 and not ran.stderr and not missing and "@" not in ran.stdout, "the manual page", ran.stderr, missing)


# what each shell is asked to show that the completion serves the command
ASKED = {
    "bash": 'source "$0" && complete -p cizborg',
    "zsh": 'autoload -Uz compinit && fpath=("${0:h}" $fpath) && compinit -u -D && [[ ${_comps[cizborg]} = _cizborg ]] && echo cizborg',
    "fish": "source $argv[1]; complete -c cizborg",
}


def shell_problems(prefix: Path) -> Iterator[str | None]:
    """What is wrong with the completions: each shell that is there reads its own, which serves the command."""
    for shell, path in zip(ASKED, WANTED[9:12]):
        text = (prefix / path).read_text()
        is_own = "--self-test" in text and "--try --help" not in text and "block_cli" not in text
        yield unless(is_own, f"the completion for {shell}", text)
        if shutil.which(shell):
            ran = subprocess.run([shell, "-c", ASKED[shell], prefix / path], capture_output=True, text=True)
            yield unless(ran.returncode == 0 and "cizborg" in ran.stdout and not ran.stderr, f"the completion for {shell}", ran)


def tarball_problems(sources: Sources, folder: Path, program: Path) -> Iterator[str | None]:
    """What is wrong with the tarball of the real executable."""
    data = program.read_bytes()
    ran = sources.release("real", data, sources.log(data))
    yield unless(ran.returncode == 0, "release.py of the executable", ran)
    with tarfile.open(sources.top / "real" / TARBALL) as tar:
        tar.extractall(folder)
    prefix, room = folder / f"cizborg-{VERSION}", folder / "room"
    room.mkdir()
    missing = [name for name in WANTED if not (prefix / name).is_file()]
    yield unless(not missing, "the tarball lacks", missing)
    summed = subprocess.run(["sha256sum", "--check", "--quiet", "SHA256SUMS"], cwd=prefix, capture_output=True, text=True)
    yield unless(summed.returncode == 0, "the checksums of the tarball", summed)
    yield from installed_problems(prefix, program, room)
    yield from tool_problems(prefix, room)
    yield page_problem(prefix)
    yield from shell_problems(prefix)
    yield from differing_problems(prefix, room)


def package_problems(sources: Sources, folder: Path, program: Path) -> Iterator[str | None]:
    """What is wrong with the Debian package of the real executable."""
    if not shutil.which("dpkg-deb"):
        print("the Debian package was not tried: dpkg-deb is missing")
        return
    package = sources.top / "real" / PACKAGE
    said = subprocess.run(["dpkg-deb", "--field", package, "Package", "Version", "Architecture"], capture_output=True, text=True)
    yield unless(said.stdout == f"Package: cizborg\nVersion: {VERSION}\nArchitecture: amd64\n", "the fields of the package", said)
    subprocess.run(["dpkg-deb", "--extract", package, folder], check=True)
    packed = {"share/man/man1/cizborg.1": "share/man/man1/cizborg.1.gz", "share/doc/cizborg/CHANGELOG.md": "share/doc/cizborg/changelog.gz"}
    missing = [name for name in (*WANTED, "share/doc/cizborg/copyright") if not (folder / "usr" / packed.get(name, name)).is_file()]
    yield unless(not missing, "the package lacks", missing)
    yield from installed_problems(folder / "usr", program, folder)


def problems(folder: str | Path, program: Path) -> Iterator[str | None]:
    """What is wrong, or None, for each thing that is tried."""
    place = Path(folder)
    sources = Sources(place / "sources")
    for name in ("tarball", "package"):
        (place / name).mkdir()
    yield from same_bytes_problems(sources)
    yield from refused_problems(sources)
    yield from tarball_problems(sources, place / "tarball", program)
    yield from package_problems(sources, place / "package", program)
