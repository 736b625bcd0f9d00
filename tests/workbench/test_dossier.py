"""dossier: what its page must contain, and when it writes none."""
from __future__ import annotations

import base64
import hashlib
import html
import json
import os
import re
import subprocess
import unittest.mock
from html.parser import HTMLParser
from pathlib import Path
from typing import Iterator, Optional, Sequence
from xml.etree import ElementTree

from sets import task, task_set
from tests.workbench import TOP
from tests.workbench.setting import EXAMPLES, Text, ToolCase

Rows = list[list[str]]
PLANT = [EXAMPLES / "plant.json", EXAMPLES / "plant-certificate.json"]
PAIR = [EXAMPLES / name for name in ("pair.json", "pair-jobs.csv", "pair-rows.csv")]
SPIN = [EXAMPLES / name for name in ("spin.json", "spin-jobs.csv", "spin-rows.csv")]
JITTER = [EXAMPLES / name for name in ("jitter.json", "jitter-jobs.csv", "jitter-rows.csv")]
PARTS = ["Task", "Deadline", "Jitter", "Bound", "Slack", "Cost", "Blocking", "Interference", "Raised"]
INTERFERENCE = ["Task", "Delayed by", "Jobs, at most", "Ticks of each", "Ticks"]
BLOCKING = ["Task", "Blocked by", "Resource", "Way", "Requests", "Ticks of each", "Blocked ticks"]
AUDIT = ["Task", "Greatest response", "Bound", "Share", "Most blocked", "Blocking, at most", "Direct", "Indirect", "Preemption"]
# What would make the page need anything from elsewhere. A script that stands in the page itself doesn't.
FOREIGN = re.compile(r"https?:|<script[^>]|<link|<img|<iframe|\ssrc=|@import|@font-face|url\((?!#)")


class Page(HTMLParser):
    """A page: its tables as lists of rows, its links, its words, and whether each element that is opened is closed."""

    def __init__(self, text: str) -> None:
        super().__init__()
        self.open: list[str] = []
        self.tables: list[list[list[str]]] = []
        self.links: dict[str, str] = {}
        self.words: list[str] = []
        self.wrong: list[str] = []
        self.feed(text)
        self.wrong += self.open

    def handle_starttag(self, tag: str, attrs: list[tuple[str, Optional[str]]]) -> None:
        if tag != "meta":
            self.open.append(tag)
        if tag == "table":
            self.tables.append([])
        elif tag == "tr":
            self.tables[-1].append([])
        elif tag in ("td", "th"):
            self.tables[-1][-1].append("")
        elif tag == "a" and "download" in dict(attrs):
            self.links[str(dict(attrs)["download"])] = str(dict(attrs)["href"])

    def handle_endtag(self, tag: str) -> None:
        if not self.open or self.open.pop() != tag:
            self.wrong.append(tag)

    def handle_data(self, data: str) -> None:
        self.words.append(data)
        if "td" in self.open[-3:] or "th" in self.open[-3:]:
            self.tables[-1][-1][-1] += data

    def table(self, heads: list[str]) -> Optional[list[list[str]]]:
        """The rows of the table with this head, or None."""
        return next((table[1:] for table in self.tables if table[0] == heads), None)


def proof_words() -> str:
    """The sentences of PROOFS.md on `check` that the page has to give, without their marks."""
    found = re.search(r"^### A valid certificate\n\n> (.*)$", (TOP / "docs" / "PROOFS.md").read_text(encoding="utf-8"), re.M)
    return found[1].replace("`", "") if found else "no sentence"


def page_faults(text: str, files: Sequence[Path]) -> Iterator[str]:
    """What is wrong with a page on its own, of which the files are the inputs."""
    page = Page(text)
    words = "".join(page.words)
    if page.wrong:
        yield f"elements don't match: {page.wrong}"
    foreign = FOREIGN.search(text)
    if foreign:
        yield f"the page asks for something from elsewhere: {foreign[0]}"
    for drawn in re.findall(r"<svg.*?</svg>", text, re.S):
        ElementTree.fromstring(drawn)
    for file in files:
        if hashlib.sha256(file.read_bytes()).hexdigest() not in words:
            yield f"the digest of {file.name} is missing"
        if base64.b64decode(page.links[file.name].partition("base64,")[2]) != file.read_bytes():
            yield f"the page carries another {file.name}"
    marks = [cell for table in page.tables for row in table for cell in row if "`" in cell]
    if marks:
        yield f"cells of tables have marks: {marks}"
    wanted = ["check ", "valid\nstatus 0", "sha256sum", proof_words(), "Premises", "A job's window lies within a schedule", "In every schedule of lawful jobs of the set", "Times are in ticks", "a tick has k cycles", "one tick of its cost is spare", "That no two sets have one digest is not claimed", "The toolchain and its logic", "The time stamps of files", "What is left to you", "prefers-color-scheme", "@media print"]
    yield from (f"the page has no {word!r}" for word in wanted if word not in words)


class Dossier(ToolCase):
    """The page."""

    def assert_dossier(self, words: Sequence[Text], files: Sequence[Path], tables: Sequence[tuple[list[str], Rows]], shown: Sequence[str] = ()) -> None:
        """The page that these words give stands alone, has these rows, and shows these words."""
        text = self.assert_done(self.tool("dossier", *words))
        self.assertEqual(list(page_faults(text, files)), [])
        page = Page(text)
        for heads, rows in tables:
            found = page.table(heads) or []
            same = [row for row in found if any(row[: len(wanted)] == wanted for wanted in rows)]
            self.assertEqual((len(same), bool(rows) or not found), (len(rows), True), f"{heads}: {found}, and not {rows}")
        self.assertEqual([word for word in shown if html.escape(word) not in text], [])

    def certificate(self, name: str, of: Path, bounds: list[int]) -> Path:
        """A certificate for FMLP+ of the set of a file, whose tasks request nothing."""
        digest = hashlib.sha256(of.read_bytes()).hexdigest()
        duals = [{"den": 1, "num": []}] * len(bounds)
        written = {"version": 2, "protocol": "fmlp+", "set": digest, "verdict": "schedulable", "bounds": bounds, "duals": duals}
        return self.file(name, json.dumps(written))

    def test_plant(self) -> None:
        parts = [["t1", "10000", "0", "1750", "8250", "1000", "750", "0", "0"], ["t5", "50000", "0", "10670", "39330", "8000", "670", "2000", "0"]]
        by = [["t5", "t1", "2", "1000", "2000"], ["t6", "t2", "1", "3000", "3000"], ["t7", "t3", "2", "4000", "8000"], ["t8", "t4", "3", "6000", "18000"]]
        shown = ["Response times under FMLP+", "plant.json", "interference by t4: 3 jobs of 6000 ticks", "slack 39330, 78.7 %"]
        self.assert_dossier(["fmlp+", *PLANT], PLANT, [(PARTS, parts), (INTERFERENCE, by)], shown)
        for protocol in ("dpcp", "dflp", "dpcp-w"):
            distributed = [PLANT[0], self.written(protocol, "analyse", protocol, PLANT[0])]
            by = [["t5", "t1", "1", "1000", "1000"]]
            self.assert_dossier([protocol, *distributed], distributed, [(INTERFERENCE, by)], ["each for its local limit"])
        title = 'a <plant> & "more"'
        self.assert_dossier(["fmlp+", *PLANT, "--title", title], PLANT, [], [title])

    def test_bounds(self) -> None:
        """A bound that was raised, and jitter."""
        three = [EXAMPLES / "three.json", self.certificate("three", EXAMPLES / "three.json", [2, 3, 10])]
        parts = [["sample", "4", "0", "2", "2", "1", "0", "0", "1"], ["log", "20", "0", "10", "10", "3", "0", "7", "0"]]
        by = [["control", "sample", "1", "1", "1"], ["log", "sample", "3", "1", "3"], ["log", "control", "2", "2", "4"]]
        self.assert_dossier(["fmlp+", *three], three, [(PARTS, parts), (INTERFERENCE, by)], ["raised by 1"])
        late = [JITTER[0], self.certificate("late", JITTER[0], [2, 9])]
        parts = [["receive", "10", "4", "2", "4", "2", "0", "0", "0"], ["display", "20", "0", "9", "11", "5", "0", "4", "0"]]
        self.assert_dossier(["fmlp+", *late], late, [(PARTS, parts), (INTERFERENCE, [["display", "receive", "2", "2", "4"]])], ["jitter 4"])
        recorded = [*late, *JITTER[1:]]
        audited = [["receive", "2", "2", "100.0 %", "0", "0"], ["display", "9", "9", "100.0 %", "0", "0"]]
        shown = [f"{kind} of a job of receive, tick {tick}" for kind, tick in (("arrival", 0), ("release", 4), ("deadline", 10))]
        self.assert_dossier(["fmlp+", *recorded], recorded, [(AUDIT, audited)], shown)

    def test_recordings(self) -> None:
        pair = [PAIR[0], self.written("pair", "analyse", "fmlp+", PAIR[0]), *PAIR[1:]]
        audited = [["control", "5", "5", "100.0 %", "2", "2", "2", "0", "0"], ["sense", "4", "5", "80.0 %", "0", "1", "0", "0", "0"]]
        shown = ["control, ticks 0 to 1", "sense in a request of bus, ticks 1 to 3", "control is blocked, ticks 1 to 3", "The whole recording, 5 ticks", "kept 5"]
        self.assert_dossier(["fmlp+", *pair], pair, [(AUDIT, audited), (INTERFERENCE, [])], shown)
        spun = [SPIN[0], self.written("spin", "analyse", "spin", SPIN[0]), *SPIN[1:]]
        audited = [["guard", "6", "7", "85.7 %", "4", "5", "0", "2", "2"], ["send", "9", "11", "81.8 %", "3", "3", "3", "0", "0"]]
        shown = ["Response times under spin locks", "send spins for bus, ticks 1 to 4", "guard is blocked, ticks 2 to 6", "a low dashed box that it spins", "each for its cost"]
        self.assert_dossier(["spin", *spun], spun, [(AUDIT, audited), (INTERFERENCE, [["send", "guard", "2", "2", "4"]])], shown)
        # of the jobs of sense all but the first wait for the bus
        jobs = self.folder / "many"
        lines = [f"{task},{10 * k},{script}" for k in range(40) for task, script in (("control", "1 bus:1 1"), ("sense", "1 bus:2 1")) if k or task == "sense"]
        jobs.write_text("\n".join(["task,release,script", *lines, ""]))
        many = [PAIR[0], self.written("dpcp", "analyse", "dpcp", PAIR[0]), jobs, self.written("rows", "simulate", "dpcp", PAIR[0], jobs, "400")]
        shown = ["Ticks 10 to 15 of 400: up to the end of the job of", "released at tick 10", "control in a request of bus, ticks 11 to 12"]
        self.assert_dossier(["dpcp", *many], many, [(AUDIT, [["sense", "5", "5", "100.0 %", "1", "1"]])], shown)

    def test_who_blocks(self) -> None:
        spun = [SPIN[0], self.written("spin", "analyse", "spin", SPIN[0])]
        rows = [["guard", "send", "bus", "preemption", "1", "2", "2"], ["guard", "log", "bus", "indirect", "1", "3", "3"],
                ["send", "log", "bus", "direct", "1", "3", "3"], ["log", "send", "bus", "direct", "1", "2", "2"]]
        self.assert_dossier(["spin", *spun], spun, [(BLOCKING, rows)])
        # at the bounds 9 and 6 each has two jobs of the other in its window; control's dual takes each request for 3 ticks, that of sense for 1
        text = spun[1].read_text(encoding="utf-8")
        pair = [PAIR[0], self.written("pair", "analyse", "fmlp+", PAIR[0])]
        raised = json.loads(pair[1].read_text(encoding="utf-8"))
        raised["duals"] = [{"den": 1, "num": [3, 0, 0, 0]}, {"den": 1, "num": [1, 0, 0, 0]}]
        raised["bounds"] = [9, 6]
        pair[1] = self.file("raised", json.dumps(raised))
        said = "The certificate allows for more ticks of blocking than these come to: <code>control</code> 6 in place of 2, <code>sense</code> 2 in place of 1."
        page = self.assert_done(self.tool("dossier", "fmlp+", *pair))
        self.assertIn(said, page)
        self.assertNotIn("allows for more", self.assert_done(self.tool("dossier", "spin", SPIN[0], self.file("again", text))))

    def test_who_blocks_where_analyse_is_wide(self) -> None:
        wide = [EXAMPLES / "wide.json", EXAMPLES / "wide-certificate.json"]
        page = self.assert_done(self.tool("dossier", "mpcp", *wide))
        self.assertEqual({row[0] for row in Page(page).table(BLOCKING) or []}, {"steer", "look", "plan"})
        self.assertNotIn("Who blocks is not told", page)

    def test_contents_and_origin(self) -> None:
        page = self.assert_done(self.tool("dossier", "fmlp+", *PLANT))
        ids = re.findall(r'<section[^>]* id="([^"]*)"', page)
        self.assertEqual(re.findall(r'<li><a href="#([^"]*)">', page), ids)
        self.assertEqual((len(ids) > 4, len(set(ids)) == len(ids)), (True, True))
        commit = subprocess.run(["git", "rev-parse", "HEAD"], cwd=TOP, capture_output=True, text=True).stdout.strip()
        version = (TOP / "VERSION").read_text(encoding="utf-8").strip()
        self.assertRegex(page, rf"Written on 20\d\d-\d\d-\d\d by cizborg {re.escape(version)}, commit {commit or 'unknown'}")

    def test_the_day_that_is_given(self) -> None:
        with unittest.mock.patch.dict(os.environ, {"SOURCE_DATE_EPOCH": "86400"}):
            self.assertIn("Written on 1970-01-02 by", self.assert_done(self.tool("dossier", "fmlp+", *PLANT)))

    def test_times_beside_ticks(self) -> None:
        page = self.assert_done(self.tool("dossier", "fmlp+", *PLANT, "--tick", "0.5us"))
        self.assertIn("and a tick is 500 ns.", page)
        self.assertIn('<td class="number">1750<span class="time">875 us</span></td>', page)
        self.assertIn('<td class="number">108720<span class="time">54.36 ms</span></td>', page)
        self.assert_words(self.tool("dossier", "none", "--tick", "1us"), "invalid choice: 'none'")
        self.assert_words(self.tool("dossier", "fmlp+", "none", "none", "--tick", "1h"), "--tick is '1h', which is no time like 1us")

    def test_a_narrow_screen(self) -> None:
        page = self.assert_done(self.tool("dossier", "fmlp+", *PLANT))
        self.assertIn('name="viewport" content="width=device-width', page)
        # what is wider than the screen moves in its own box, so that the page itself needn't
        for rule in ("figure { overflow-x: auto; }", ".table { margin: 1rem 0 1.5rem; overflow-x: auto; }", "svg { min-width: 36rem; }"):
            self.assertIn(rule, page)

    def test_a_refusal(self) -> None:
        short = [EXAMPLES / "pair-short.json", EXAMPLES / "pair-short-refusal.json"]
        text = self.assert_done(self.tool("dossier", "mpcp", *short))
        page = Page(text)
        self.assertEqual((page.wrong, FOREIGN.search(text)), ([], None))
        self.assertEqual(page.table(["Part", "By", "Request", "How many", "Ticks of each", "Ticks"]), [["cost", "", "", "", "", "3"], ["blocking", "sense", "bus, direct", "1", "2", "2"]])
        self.assertEqual(page.table(["Step", "Task", "At least", "Left by the deadline and the jitter"]), [["1", "control", "5", "4"]])
        for shown in ("A refusal under MPCP", "confirmed\n", "it comes to at least 5 ticks, and 4 are left to it.", "certificate of refusal", "Premises"):
            self.assertIn(shown, text)
        for file in short:
            self.assertEqual(base64.b64decode(page.links[file.name].partition("base64,")[2]), file.read_bytes())
        ran = self.tool("dossier", "mpcp", *short, PAIR[1], PAIR[2])
        self.assert_words(ran, "a refusal is told without a recording")
        other = self.tool("dossier", "mpcp", PAIR[0], short[1])
        self.assert_refused(other, 1, "dossier", [f"block confirm mpcp {PAIR[0]} {short[1]} answers invalid otherset, so nothing is written"])

    def test_a_refusal_of_many_steps(self) -> None:
        over = self.file("over", task_set(1, [], task("a", 1, 10, 6), task("b", 1, 10, 6, deadline=9)))
        refusal = self.written("refusal", "refute", "fmlp+", over)
        page = Page(self.assert_done(self.tool("dossier", "fmlp+", over, refusal)))
        # b comes to 6 + 6 ticks at once, and 9 are left to it
        self.assertEqual(page.table(["Step", "Task", "At least", "Left by the deadline and the jitter"]), [["1", "b", "12", "9"]])
        self.assertEqual(page.table(["Part", "By", "Request", "How many", "Ticks of each", "Ticks"]), [["cost", "", "", "", "", "6"], ["interference", "a", "", "1", "6", "6"]])

    def test_a_long_recording_is_drawn_in_windows(self) -> None:
        jobs = self.file("long", self.tool("jobs", PAIR[0], 2000, "--kind", "random").stdout)
        rows = self.written("rows", "simulate", "fmlp+", PAIR[0], jobs, 2000)
        cert = self.written("pair", "analyse", "fmlp+", PAIR[0])
        text = self.assert_done(self.tool("dossier", "fmlp+", PAIR[0], cert, jobs, rows))
        self.assertEqual(len(re.findall(r"Ticks \d+ to \d+ of 2000: up to the end of the job of <code>(?:control|sense)</code>", text)), 2)
        ids = re.findall(r' id="([^"]*)"', text)
        self.assertEqual(len(ids), len(set(ids)))

    def test_refusals(self) -> None:
        """Nothing is written where the program doesn't accept what it is given."""
        out = self.folder / "out.html"
        self.written("pair", "analyse", "fmlp+", PAIR[0])
        words: list[Text] = ["fmlp+", PAIR[0], "pair", *PAIR[1:], "--output", out]
        said = f"block check fmlp+ {PAIR[0]} {PLANT[1]} answers invalid otherset, so nothing is written"
        self.assert_refused(self.tool("dossier", "fmlp+", PAIR[0], PLANT[1], "--output", out), 1, "dossier", [said])
        said = f"block check dpcp {PAIR[0]} pair answers refused cert otherprotocol, so nothing is written"
        self.assert_refused(self.tool("dossier", "dpcp", *words[1:]), 3, "dossier", [said])
        self.file("broken", PAIR[2].read_text(encoding="utf-8").replace("2,,2,2", "2,,2,1"))
        said = f"block audit fmlp+ {PAIR[0]} pair {PAIR[1]} broken answers broken 1 run, so nothing is written"
        self.assert_refused(self.tool("dossier", *words[:4], "broken", *words[5:]), 1, "dossier", [said])
        self.assert_words(self.tool("dossier", *words[:4], "--output", out), "JOBS and ROWS are given together")
        self.assertFalse(out.exists())
        none = "none/out can't be written: No such file or directory"
        self.assert_refused(self.tool("dossier", *words[:5], "--output", "none/out"), 4, "dossier", [none])
        self.assert_refused(self.tool("dossier", "fmlp+", "none", "pair"), 4, "dossier", ["none can't be read: No such file or directory"])
        self.assertEqual(self.assert_done(self.tool("dossier", *words)), "")
        self.assertTrue(out.read_text(encoding="utf-8").startswith("<!DOCTYPE html>"))
