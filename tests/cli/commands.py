"""Each command over the pair of tasks: its words, the inputs that it reads, in that order, and the whole of what it writes."""
from dataclasses import dataclass

from sets import OLD_PAIR_CERTIFICATE, PAIR, PAIR_AUDITED, PAIR_CERTIFICATE, PAIR_FULL_TABLE, PAIR_JOBS, PAIR_MEASURED, PAIR_ROWS
from sets import PAIR_SIMULATED, PAIR_TABLE, SHORT, SHORT_REFUSAL, STUDIED

INPUTS = {"set": PAIR, "cert": PAIR_CERTIFICATE, "jobs": PAIR_JOBS, "rows": PAIR_ROWS}
FILES = {**INPUTS, "old": OLD_PAIR_CERTIFICATE, "short": SHORT, "refusal": SHORT_REFUSAL}


@dataclass(frozen=True)
class Command:
    words: str
    says: str

    def files(self):
        """The inputs that it reads, by name."""
        return {word: FILES[word] for word in self.words.split() if word in FILES}


COMMANDS = [
    Command("analyse fmlp+ set", PAIR_CERTIFICATE),
    Command("settle fmlp+ set", PAIR_CERTIFICATE),
    Command("refute mpcp short", SHORT_REFUSAL),
    Command("check fmlp+ set cert", "valid\n"),
    Command("confirm mpcp short refusal", "confirmed\n"),
    Command("upgrade fmlp+ set old", PAIR_CERTIFICATE),
    Command("report fmlp+ set", PAIR_TABLE),
    Command("report fmlp+ set cert", PAIR_FULL_TABLE),
    Command("conform fmlp+ set jobs rows", PAIR_MEASURED),
    Command("simulate fmlp+ set jobs 5", PAIR_SIMULATED),
    Command("audit fmlp+ set cert jobs rows", PAIR_AUDITED),
    Command("study 1 1", STUDIED),
]
