"""Has the system answer a program's calls otherwise than they went, by tracing it: a read that fails, a write that takes one byte.

It knows the calls of Linux on x86-64. What it changes are openings of the files that are among the program's words, reads of them,
and writes to standard output.
"""
import ctypes
import functools
import os
import platform
import signal
from dataclasses import dataclass

TRACE_ME, GET_REGISTERS, SET_REGISTERS, NEXT_CALL, SET_OPTIONS = 0, 12, 13, 24, 0x4200
KILL_WITH_TRACER, MARK_CALLS = 0x100000, 1
# the places of registers in what the system gives
RESULT, THIRD, SECOND, FIRST, NUMBER = 10, 12, 13, 14, 15
READ, WRITE, CLOSE, OPEN_AT = 0, 1, 3, 257
NO_CALL = 2**64 - 1

libc = ctypes.CDLL(None, use_errno=True)
libc.ptrace.restype = ctypes.c_long
libc.ptrace.argtypes = [ctypes.c_long, ctypes.c_long, ctypes.c_void_p, ctypes.c_void_p]


@dataclass(frozen=True)
class Fault:
    """The program's call of this kind ("open", "read" or "write") with this number, counted from 1, isn't made; it gets this answer."""

    call: str
    number: int
    answer: int


@dataclass(frozen=True)
class Pieces:
    """No call of this kind ("read" or "write") moves more than so many bytes."""

    call: str
    bytes: int


def trace(request, pid, value=None):
    answer = libc.ptrace(request, pid, None, value)
    if answer < 0:
        error = ctypes.get_errno()
        raise OSError(error, os.strerror(error))


def be_traced():
    """Called in the child, before it becomes the program."""
    trace(TRACE_ME, 0)


@functools.cache
def is_possible():
    if platform.system() != "Linux" or platform.machine() != "x86_64":
        return False
    child = os.fork()
    if child == 0:
        os._exit(1 if libc.ptrace(TRACE_ME, 0, None, None) < 0 else 0)
    return os.waitpid(child, 0)[1] == 0


class Calls:
    """The calls of a traced program."""

    def __init__(self, pid, faults, words):
        self.pid = pid
        self.faults = faults
        self.words = words
        self.inputs = set()
        self.counts = {"open": 0, "read": 0, "write": 0}
        self.registers = (ctypes.c_ulonglong * 27)()

    def load(self):
        trace(GET_REGISTERS, self.pid, ctypes.cast(self.registers, ctypes.c_void_p))

    def store(self):
        trace(SET_REGISTERS, self.pid, ctypes.cast(self.registers, ctypes.c_void_p))

    def text_at(self, address):
        with open(f"/proc/{self.pid}/mem", "rb", buffering=0) as memory:
            memory.seek(address)
            return memory.read(4096).split(b"\0")[0]

    def kind(self):
        number = self.registers[NUMBER]
        if number == OPEN_AT and self.text_at(self.registers[SECOND]) in self.words:
            return "open"
        if number == READ and self.registers[FIRST] in self.inputs:
            return "read"
        if number == WRITE and self.registers[FIRST] == 1:
            return "write"
        return None

    def enter(self):
        """Before a call. Returns its kind, and the answer that it gets in place of being made, or None."""
        self.load()
        if self.registers[NUMBER] == CLOSE:
            self.inputs.discard(self.registers[FIRST])
        kind = self.kind()
        if kind is None:
            return None, None
        self.counts[kind] += 1
        for fault in self.faults:
            if isinstance(fault, Fault) and (fault.call, fault.number) == (kind, self.counts[kind]):
                self.registers[NUMBER] = NO_CALL
                self.store()
                return kind, fault.answer
            if isinstance(fault, Pieces) and fault.call == kind:
                self.registers[THIRD] = min(self.registers[THIRD], fault.bytes)
                self.store()
        return kind, None

    def leave(self, kind, answer):
        """After a call."""
        self.load()
        if answer is not None:
            self.registers[RESULT] = answer % 2**64
            self.store()
        elif kind == "open" and self.registers[RESULT] < 2**63:
            self.inputs.add(self.registers[RESULT])


def follow(pid, faults, words):
    """Runs a program that stands before its first step to its end. Returns its status, or less than 0 for a signal."""
    calls = Calls(pid, faults, words)
    os.waitpid(pid, 0)
    trace(SET_OPTIONS, pid, MARK_CALLS | KILL_WITH_TRACER)
    entered, passed_on = None, 0
    while True:
        trace(NEXT_CALL, pid, passed_on)
        _, status = os.waitpid(pid, 0)
        passed_on = 0
        if os.WIFEXITED(status):
            return os.WEXITSTATUS(status)
        if os.WIFSIGNALED(status):
            return -os.WTERMSIG(status)
        if os.WSTOPSIG(status) != signal.SIGTRAP | 0x80:
            passed_on = os.WSTOPSIG(status)
        elif entered is None:
            entered = calls.enter()
        else:
            calls.leave(*entered)
            entered = None
