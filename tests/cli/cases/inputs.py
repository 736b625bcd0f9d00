"""Inputs that are no plain files, that end early, or that the system doesn't give; each command's own stand in `spoilt`."""
from errno import EACCES, EIO, EMFILE, ENOENT, ENOMEM

from commands import INPUTS
from setting import Case, Fifo, Link, Padded
from sets import GREATEST, NAMES, PAIR, PAIR_CERTIFICATE, PAIR_JOBS, PAIR_MEASURED, PAIR_ROWS, tied
from tracing import Fault, Pieces

GREATEST_INPUT = 67_108_864
MEGABYTE = 2**20
ANALYSE = "analyse fmlp+ set"
CONFORM = "conform fmlp+ set jobs rows"
GREATEST_SAYS = f"not shown {NAMES[0]} 1000000028 1000000000\n"
ALL = {"set": PAIR, "jobs": PAIR_JOBS, "rows": PAIR_ROWS}


def padded(size):
    """The certificate of the pair with spaces up to so many bytes."""
    return tied(PAIR_CERTIFICATE, PAIR.ljust(size))


def unread(shows, files, words=ANALYSE):
    return Case(shows, words, "fault read set\n", 4, files)


def failing(shows, call, number, says, status, words="audit fmlp+ set cert jobs rows"):
    """The system answers the call of this number with an error. The words name all inputs, in their order."""
    name, error = call
    return Case(shows, words, says, status, INPUTS, faults=(Fault(name, number, -error),))


FILES = [
    Case("a link to a file", ANALYSE, PAIR_CERTIFICATE, 0, {"set": Link("real"), "real": PAIR}),
    Case("a link to nothing", ANALYSE, "refused set absent\n", 3, {"set": Link("real")}),
    Case("an empty path", ["analyse", "fmlp+", ""], "refused set absent\n", 3),
    Case("a path outside ASCII", ["analyse", "fmlp+", "Anlage \u2116 5"], PAIR_CERTIFICATE, 0, {"Anlage \u2116 5": PAIR}),
    Case("a path that begins and ends with a space", ["analyse", "fmlp+", " set "], PAIR_CERTIFICATE, 0, {" set ": PAIR}),
    Case("no file of the name without its spaces", ["analyse", "fmlp+", " set "], "refused set absent\n", 3, {"set": PAIR}),
    Case("a path that looks like an option", "analyse fmlp+ --set", PAIR_CERTIFICATE, 0, {"--set": PAIR}),
    Case("no standard input", ANALYSE, PAIR_CERTIFICATE, 0, {"set": PAIR}, without_input=True),
    unread("links in a loop", {"set": Link("other"), "other": Link("set")}),
    unread("a path through a file", {"set": PAIR}, "analyse fmlp+ set/set"),
    unread("a name of 300 bytes", {}, f"analyse fmlp+ {300 * 's'}"),
]

PIECES = [
    Case("a pipe in pieces of one byte", ANALYSE, PAIR_CERTIFICATE, 0, {"set": Fifo(PAIR, 1)}),
    Case("a pipe in pieces of 7 bytes", ANALYSE, GREATEST_SAYS, 1, {"set": Fifo(GREATEST, 7)}),
    Case("reads of one byte each", CONFORM, PAIR_MEASURED, 0, ALL, faults=(Pieces("read", 1),)),
    Case("a file that ends in the middle of a read", ANALYSE, padded(3 * 4096 + 17), 0, {"set": Padded(PAIR, 3 * 4096 + 17)}),
    Case("a file that ends with a read", ANALYSE, padded(2 * 4096), 0, {"set": Padded(PAIR, 2 * 4096)}),
    Case("a set cut in the middle of a read", ANALYSE, "refused set notjson\n", 3, {"set": GREATEST[: 4096 + 17]}),
    Case("a set cut at the end of a read", ANALYSE, "refused set notjson\n", 3, {"set": GREATEST[:8192]}),
    Case("a set of more than a megabyte", ANALYSE, padded(MEGABYTE + 1), 0, {"set": Padded(PAIR, MEGABYTE + 1)}),
    Case("the longest input, all of it white space", ANALYSE, "refused set notjson\n", 3, {"set": Padded("", GREATEST_INPUT)}),
    Case("the longest set", ANALYSE, padded(GREATEST_INPUT), 0, {"set": Padded(PAIR, GREATEST_INPUT)}),
    Case("an input without end", "analyse fmlp+ /dev/zero", "refused set toolong\n", 3),
    Case("an input that is always empty", "analyse fmlp+ /dev/null", "refused set notjson\n", 3),
]

# each input is short: its first read gives all of it, and its second one gives the end
FAULTS = [
    *(failing(f"read {2 * k + n} fails", ("read", EIO), 2 * k + n, f"fault read {which}\n", 4) for k, which in enumerate(INPUTS) for n in (1, 2)),
    *(failing(f"opening {number} isn't allowed", ("open", EACCES), number, f"fault read {which}\n", 4) for number, which in enumerate(INPUTS, 1)),
    *(failing(f"opening {number} finds nothing", ("open", ENOENT), number, f"refused {which} absent\n", 3) for number, which in enumerate(INPUTS, 1)),
    failing("too many files are open", ("open", EMFILE), 1, "fault read set\n", 4),
    *(failing(f"opening {number} finds no memory", ("open", ENOMEM), number, "", 7) for number in (1, 2, 3, 4)),
    failing("the second read of an analysis fails", ("read", EIO), 2, "fault read set\n", 4, ANALYSE),
    failing("the second read of a report fails", ("read", EIO), 2, "fault read set\n", 4, "report mpcp set"),
]

MEMORY = [
    Case("a megabyte of JSON whose value takes a hundred", ANALYSE, "", 7, {"set": b"[" + 150_000 * b'{"":1},' + b"1]"}, memory=64 * MEGABYTE),
    Case("an input larger than memory", ANALYSE, "", 7, {"set": Padded(PAIR, 60 * MEGABYTE)}, memory=64 * MEGABYTE),
    Case("rows larger than memory", CONFORM, "", 7, {**ALL, "rows": Padded(PAIR_ROWS, 60 * MEGABYTE)}, memory=64 * MEGABYTE),
]

CASES = FILES + PIECES + FAULTS + MEMORY
