"""What a case of the end-to-end test is made of, and how it is run."""
import os
import re
import resource
import signal
import subprocess
import tempfile
import threading
import time
from dataclasses import dataclass, field
from pathlib import Path

import tracing

TOP = Path(__file__).resolve().parent.parent.parent
SECONDS = 60
NOBODY = 65534


@dataclass(frozen=True)
class Case:
    """One run of the program: what it shows, its words, the whole of what it writes to standard output, and its status.

    What it writes may be given as a pattern, which then has to match the whole of it, or as what it was run for before. Standard error has to stay
    empty. The words are one
    text that is split at spaces, or a list of texts or bytes. The program runs in a folder that holds the files: a name, and a text, bytes
    or one of the kinds below. Where `at` is given it runs there instead.
    """

    shows: str
    words: object
    says: object = ""
    status: int = 0
    files: dict = field(default_factory=dict)
    out: object = None
    """How standard output is spoilt: None, FULL, CLOSED, BROKEN or Room(bytes)."""
    without_input: bool = False
    """Whether standard input is closed."""
    memory: int = 0
    """The most bytes of address space that the program gets, where not 0."""
    faults: tuple = ()
    """What the system answers in place of the truth: Fault and Pieces of `tracing`."""
    as_nobody: bool = False
    """Whether another user runs it where root runs the test, since root reads every file."""
    before: tuple = ()
    """What the program is run for beforehand in the same folder: words, the file that gets the answer, and the status where that isn't 0."""
    at: object = None
    saves: str = ""
    """The file there to which the answer is saved, which may then be any."""

    def word_list(self):
        words = self.words.split() if isinstance(self.words, str) else self.words
        return [os.fsencode(word) for word in words]


FULL = "a full device"
CLOSED = "a closed standard output"
BROKEN = "a pipe that nobody reads"


def runs_on(own):
    """How a table writes a command on its own set, or on another, and on further files, each of which the command names."""
    def run(shows, command, says, status=0, set=own, **files):
        return Case(shows, f"{command} set {' '.join(files)}", says, status, {"set": set, **files})

    return run


class Unready(Exception):
    """What a case runs before ended otherwise than it says."""


@dataclass(frozen=True)
class Saved:
    """What a run before wrote to this file."""

    file: str


@dataclass(frozen=True)
class Room:
    """A file that takes so many bytes and no more."""

    bytes: int


@dataclass(frozen=True)
class Folder:
    """A folder in the place of a file."""


@dataclass(frozen=True)
class Link:
    """A symbolic link."""

    to: str


@dataclass(frozen=True)
class Unreadable:
    """A file that no user but root may read."""

    text: str


@dataclass(frozen=True)
class Fifo:
    """A pipe with a name, into which a text is put in pieces of so many bytes, with a pause after each of the first ones."""

    text: str
    piece: int


@dataclass(frozen=True)
class Zeros:
    """A file of so many zero bytes, which takes no room on the disk."""

    bytes: int


@dataclass(frozen=True)
class Padded:
    """A text, and then spaces up to so many bytes."""

    text: str
    bytes: int


def as_bytes(text):
    return text.encode() if isinstance(text, str) else text


def make(path, kind):
    """Makes one of a case's files. Returns what has to be done once the program runs, or None."""
    if isinstance(kind, Folder):
        path.mkdir()
    elif isinstance(kind, Link):
        path.symlink_to(kind.to)
    elif isinstance(kind, Fifo):
        os.mkfifo(path)
        return threading.Thread(target=feed, args=(path, as_bytes(kind.text), kind.piece), daemon=True)
    elif isinstance(kind, Zeros):
        with path.open("wb") as file:
            file.truncate(kind.bytes)
    elif isinstance(kind, Padded):
        path.write_bytes(as_bytes(kind.text).ljust(kind.bytes))
    elif isinstance(kind, Unreadable):
        path.write_text(kind.text)
        path.chmod(0)
    else:
        path.write_bytes(as_bytes(kind))
    return None


def feed(path, text, piece):
    with open(path, "wb", buffering=0) as pipe:
        for start in range(0, len(text), piece):
            pipe.write(text[start : start + piece])
            if start < 20 * piece:
                time.sleep(0.005)


def lacking(case):
    """Why this machine can't run the case, or None."""
    if case.faults and not tracing.is_possible():
        return "system calls can't be traced here"
    if case.as_nobody and os.geteuid() == 0 and not can_be_nobody():
        return "root reads every file, and can't be another user here"
    return None


def can_be_nobody():
    with tempfile.TemporaryDirectory(prefix="block-") as folder:
        os.chmod(folder, 0o755)
        try:
            return subprocess.run(["test", "-r", folder], user=NOBODY, group=NOBODY, extra_groups=[]).returncode == 0
        except (OSError, subprocess.SubprocessError):
            return False


def run(case, program):
    """What the program wrote to standard output and standard error, its status, and what it should have written."""
    with tempfile.TemporaryDirectory(prefix="block-") as name:
        folder = Path(name)
        folder.chmod(0o755)
        (folder / "files").mkdir()
        later = [make(folder / "files" / file, kind) for file, kind in case.files.items()]
        for words, saved, *status in case.before:
            run_before(program, words.split(), folder / "files" / saved, *status)
        with (folder / "out").open("w+b") as out, (folder / "err").open("w+b") as err:
            started = start(case, program, folder / "files", out, err)
            for thread in filter(None, later):
                thread.start()
            status = end_of(case, started)
            out.seek(0)
            err.seek(0)
            return out.read(), err.read(), status, wanted(case, folder / "files")


def run_before(program, words, saved, status=0):
    with saved.open("wb") as out:
        done = subprocess.run([program, *words], cwd=saved.parent, stdin=subprocess.DEVNULL, stdout=out, timeout=SECONDS)
    if done.returncode != status:
        raise Unready(f"{' '.join(words)} ended before with status {done.returncode}, and not {status}")


def wanted(case, folder):
    """What the case says that the program writes."""
    return (folder / case.says.file).read_bytes() if isinstance(case.says, Saved) else case.says


def matches(says, out):
    """Whether the whole of what was written is what the case says."""
    return bool(says.fullmatch(out.decode())) if isinstance(says, re.Pattern) else out == as_bytes(says)


def start(case, program, folder, out, err):
    def prepare():
        if case.out == CLOSED:
            os.close(1)
        if case.without_input:
            os.close(0)
        if isinstance(case.out, Room):
            signal.signal(signal.SIGXFSZ, signal.SIG_IGN)
            resource.setrlimit(resource.RLIMIT_FSIZE, (case.out.bytes, case.out.bytes))
        if case.memory:
            resource.setrlimit(resource.RLIMIT_AS, (case.memory, case.memory))
        if case.faults:
            tracing.be_traced()

    spoilt = spoilt_output(case.out)
    other_user = {"user": NOBODY, "group": NOBODY, "extra_groups": []} if case.as_nobody and os.geteuid() == 0 else {}
    try:
        return subprocess.Popen(
            [program, *case.word_list()],
            cwd=case.at or folder,
            stdin=subprocess.DEVNULL,
            stdout=out if spoilt is None else spoilt,
            stderr=err,
            preexec_fn=prepare,
            **other_user,
        )
    finally:
        if spoilt is not None:
            os.close(spoilt)


def spoilt_output(out):
    """A descriptor that standard output is, or None where it is a file."""
    if out == FULL:
        return os.open("/dev/full", os.O_WRONLY)
    if out == BROKEN:
        reader, writer = os.pipe()
        os.close(reader)
        return writer
    return None


def end_of(case, started):
    """The status with which the program ends, or a word for how else it ended."""
    alarm = threading.Timer(SECONDS, started.kill)
    alarm.start()
    try:
        if case.faults:
            started.returncode = tracing.follow(started.pid, case.faults, case.word_list())
        status = started.wait()
    finally:
        alarm.cancel()
    return status if status >= 0 else f"signal {-status}"
