"""Writes what a reviewer needs of a certificate, or of a refusal, as one page of HTML, which stands alone."""
from __future__ import annotations

from pathlib import Path

from .. import dossier_page, files, refusal_page
from ..evidence import Evidence, Refused, is_refusal
from ..statuses import Status, Stop
from ..table import OUTPUT, PROTOCOL, SET, Command, Given, Kind, Option, Word
from ..tables import tick_of
from ..times import Clock

ABOUT = """
Writes what a reviewer needs of a certificate as one page of HTML, which stands alone.

The page has the set as it was modelled, for each task the bound and what it is made of, what is proved and under which premises, the
digests of the files and the commands that check them again, and the files themselves. With a recording of the machine as JOBS and ROWS
it has the figures of `audit` and a picture of the schedule too.

Of a refusal, which `confirm` has to confirm, the page has where it ends and why, the steps, the set, what is proved, and the files.

With --tick the page has times beside ticks. It says when it was written, and by which version; SOURCE_DATE_EPOCH sets the day.

The tool proves nothing: it asks the program for `check` or `confirm`, `report` and `audit`, and the page says which answer a number comes from. It
writes nothing where the program answers one of them with another status than 0.
"""


def run(given: Given) -> int:
    """Writes the page."""
    if given.jobs and not given.rows:
        raise Stop("JOBS and ROWS are given together", Status.WORDS)
    clock = Clock(None if given.tick is None else tick_of(given.tick))
    paths = {word: path for word, path in vars(given).items() if word in ("set", "cert", "jobs", "rows") and path}
    title = given.title or Path(given.set).name
    if is_refusal(given.cert):
        if given.jobs:
            raise Stop("a refusal is told without a recording", Status.WORDS)
        text = refusal_page.page_of(Refused(given.program, given.protocol, paths, clock), title)
    else:
        text = dossier_page.page_of(Evidence(given.program, given.protocol, paths, clock), title)
    files.write_out(text, given.output)
    return Status.DONE


A_CERT = Word("CERT", Kind.JSON, "a certificate of it that `check` accepts, or a refusal that `confirm` confirms")
PLACES = (PROTOCOL, SET, A_CERT, Word("JOBS", Kind.CSV, "the jobs of a recording", is_needed=False), Word("ROWS", Kind.CSV, "its rows", is_needed=False))
TITLE = Option("--title", "the title of the page; without it the name of the set's file", Word("TITLE", Kind.TEXT, ""))
TICK = Option("--tick", "how long a tick is, as 1us; times then stand beside ticks", Word("TIME", Kind.TEXT, ""))
COMMANDS = (Command("dossier", PLACES, "what a reviewer needs of a certificate or a refusal, as one page of HTML", ABOUT, run, (TITLE, TICK, OUTPUT)),)
