"""The words for protocols and their analyses."""
from __future__ import annotations

from dataclasses import dataclass


@dataclass(frozen=True)
class Protocol:
    """A word: what it is called, what it is in a sentence, whether requests run at homes, and the word of the plain analysis of the same rules."""

    word: str
    title: str
    at_homes: bool
    rules: str

    def is_closer(self) -> bool:
        """Whether it is a closer analysis of another word's rules."""
        return self.word != self.rules


PROTOCOLS = {
    protocol.word: protocol
    for protocol in (
        Protocol("mpcp", "MPCP", False, "mpcp"),
        Protocol("fmlp+", "FMLP+", False, "fmlp+"),
        Protocol("dpcp", "DPCP", True, "dpcp"),
        Protocol("dflp", "the distributed FIFO protocol", True, "dflp"),
        Protocol("dpcp-w", "DPCP with windows of requests", True, "dpcp"),
        Protocol("spin", "spin locks", False, "spin"),
        Protocol("fmlp+-c", "FMLP+ with the closer analysis", False, "fmlp+"),
        Protocol("spin-c", "spin locks with the closer analysis", False, "spin"),
        Protocol("dpcp-c", "DPCP with the closer analysis", True, "dpcp"),
        Protocol("dflp-c", "the distributed FIFO protocol with the closer analysis", True, "dflp"),
        Protocol("mpcp-c", "MPCP with the closer analysis", False, "mpcp"),
    )
}
WORDS = tuple(PROTOCOLS)
# those under which a request runs on its resource's home, so that a job delays lower ones of its processor only outside of its requests
AT_HOMES = tuple(protocol.word for protocol in PROTOCOLS.values() if protocol.at_homes)
