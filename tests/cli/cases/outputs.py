"""Standard output that takes less than it should, or nothing. What is written is a beginning of the answer, and the status is 4."""
from errno import EIO, ENOSPC

from commands import COMMANDS, FILES
from setting import BROKEN, CLOSED, FULL, Case, Room
from sets import PAIR_MEASURED, pair
from tracing import Fault, Pieces

ANALYSE = "analyse fmlp+ set"
CONFORM = "conform fmlp+ set jobs rows"


def spoilt(out):
    """Every status but 7, which writes nothing, becomes 4 where nothing can be written."""
    return [
        *(Case(f"to {out}: {command.words}", command.words, "", 4, FILES, out) for command in COMMANDS),
        Case(f"a set that isn't shown, to {out}", "analyse mpcp set", "", 4, {"set": pair(first={"deadline": 4})}, out),
        Case(f"refused words to {out}", "--help", "", 4, FILES, out),
        Case(f"a refused set to {out}", "analyse fmlp+ no", "", 4, FILES, out),
        Case(f"a fault of reading to {out}", "analyse fmlp+ .", "", 4, FILES, out),
        Case(f"a stop to {out}", "analyse fmlp+ set 7", "", 4, FILES, out),
    ]


def in_rooms(command):
    """Room for all of an answer, for all but the line end, and for its first ten bytes alone."""
    words, says = command.words, command.says
    cuts = [(len(says), 0), (len(says) - 1, 4), *([(10, 4)] if len(says) > 11 else [])]
    return [Case(f"room for {room} bytes: {words}", words, says[:room], status, FILES, Room(room)) for room, status in cuts]


CASES = [
    *(case for out in (FULL, CLOSED, BROKEN) for case in spoilt(out)),
    *(case for command in COMMANDS for case in in_rooms(command)),
    Case("writes of one byte each", CONFORM, PAIR_MEASURED, 0, FILES, faults=(Pieces("write", 1),)),
    Case("the third write of 5 bytes fails", CONFORM, PAIR_MEASURED[:10], 4, FILES, faults=(Pieces("write", 5), Fault("write", 3, -EIO))),
    Case("the last write of 5 bytes fails", CONFORM, PAIR_MEASURED[:25], 4, FILES, faults=(Pieces("write", 5), Fault("write", 6, -ENOSPC))),
    Case("a write that takes nothing", ANALYSE, "", 4, FILES, faults=(Fault("write", 1, 0),)),
]
