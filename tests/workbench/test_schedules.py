"""What a schedule comes to, and the pictures of it: draw schedule and draw study."""
from __future__ import annotations

import json
import unittest
from pathlib import Path
from typing import Optional
from xml.etree import ElementTree

from cizborg import schedule
from cizborg.draw_schedule import hatch_of
from cizborg.drawing import colour
from cizborg.windows import Window, thinned
from sets import resource, task, task_set
from tests.workbench.setting import EXAMPLES, ToolCase, needs, python_with

PAIR = [EXAMPLES / name for name in ("pair.json", "pair-jobs.csv", "pair-rows.csv")]
JITTER = [EXAMPLES / name for name in ("jitter.json", "jitter-jobs.csv", "jitter-rows.csv")]
# a set, jobs and rows under spin locks: while one job spins, a higher one of its processor waits
SPIN = [EXAMPLES / name for name in ("spin.json", "spin-jobs.csv", "spin-rows.csv")]
LACKING = "no Python here has matplotlib: apt-get install python3-matplotlib"
STUDY = "step mpcp fmlp+ dpcp\n1 20 20 20\n2 20 19 20\n3 11 9 12\nstopped 3\n"
# a set, jobs and rows under DPCP: a request of another processor's task runs on its resource's home
HOMES = {
    "set": task_set(2, [resource("a", 2)], task("t1", 1, 9, 3, ("a", 1)), task("t2", 2, 9, 4, ("a", 2), deadline=8), task("t3", 2, 9, 2)),
    "jobs": "task,release,script\nt1,0,1 a:1 1\nt2,0,1 a:2 1\nt3,1,2\n",
    "rows": "ticks,P1,P2,a\n1,1,2,\n2,,2,2\n1,,1,1\n1,1,2,\n2,,3,\n",
}

# who executes from when to when, where, and in which request; and who is blocked from when to when
Executed = list[tuple[str, int, int, int, Optional[str]]]
Blocked = list[tuple[str, int, int]]
PAIR_BOXES: tuple[Executed, Blocked] = (
    [("control", 0, 1, 1, None), ("sense", 0, 1, 2, None), ("sense", 1, 3, 2, "bus"), ("control", 3, 4, 1, "bus"), ("sense", 3, 4, 2, None), ("control", 4, 5, 1, None)],
    [("control", 1, 3)],
)
# the request of t2 serves its resource, so it blocks t3; that of t1 blocks t2, which is Local again, and t3
HOMES_BOXES: tuple[Executed, Blocked] = (
    [("t1", 0, 1, 1, None), ("t2", 0, 1, 2, None), ("t2", 1, 3, 2, "a"), ("t1", 3, 4, 2, "a"), ("t1", 4, 5, 1, None), ("t2", 4, 5, 2, None), ("t3", 5, 7, 2, None)],
    [("t1", 1, 3), ("t3", 1, 4), ("t2", 3, 4)],
)
# nothing is blocked, though the two of receive are released 6 ticks apart
JITTER_BOXES: tuple[Executed, Blocked] = (
    [("receive", 4, 6, 1, None), ("display", 6, 10, 1, None), ("receive", 10, 12, 1, None), ("display", 12, 13, 1, None)],
    [],
)
SPIN_BOXES: tuple[Executed, Blocked] = (
    [("send", 0, 1, 1, None), ("log", 0, 1, 2, None), ("log", 1, 4, 2, "bus"), ("send", 4, 6, 1, "bus"), ("log", 4, 5, 2, None), ("guard", 6, 8, 1, None), ("send", 8, 9, 1, None)],
    [("send", 1, 4), ("guard", 2, 6)],
)
SPUN = [("send", 1, 4, 1, "bus")]
# of a job that is released late the arrival is marked too, and the deadline counts from it; what comes after the end isn't marked
PAIR_MARKS = [("release", 0, "control"), ("release", 0, "sense")]
JITTER_MARKS = [("arrival", 0, "receive"), ("release", 4, "receive"), ("deadline", 10, "receive"), ("release", 10, "receive"), ("release", 4, "display")]


def executed_of(boxes: list[schedule.Box]) -> Executed:
    """What boxes say of jobs."""
    return [(box.job.task.name, box.start, box.end, box.processor, box.resource) for box in boxes]


def picture_of(paths: list[Path], spins: bool = False) -> schedule.Picture:
    """The picture of three files."""
    return schedule.picture_of(str(paths[0]), str(paths[1]), str(paths[2]), spins)


class Boxes(ToolCase):
    """What jobs do when."""

    def assert_boxes(self, paths: list[Path], boxes: tuple[Executed, Blocked]) -> None:
        """These files come to these boxes."""
        picture = picture_of(paths)
        executed = sorted(executed_of(picture.executed), key=lambda box: (box[1], box[3]))
        self.assertEqual((executed, [(box.job.task.name, box.start, box.end) for box in picture.blocked]), boxes)

    def homes(self) -> list[Path]:
        """The files of a schedule whose requests run at homes."""
        return [self.file(name, text) for name, text in HOMES.items()]

    def test_boxes(self) -> None:
        for paths, boxes in ((PAIR, PAIR_BOXES), (self.homes(), HOMES_BOXES), (JITTER, JITTER_BOXES), (SPIN, SPIN_BOXES)):
            with self.subTest(paths[0].name):
                self.assert_boxes(paths, boxes)

    def test_spinning(self) -> None:
        self.assertEqual(executed_of(picture_of(SPIN, spins=True).spinning), SPUN)
        self.assertEqual(picture_of(SPIN).spinning, [])

    def test_marks(self) -> None:
        for paths, marks in ((PAIR, PAIR_MARKS), (JITTER, JITTER_MARKS)):
            with self.subTest(paths[0].name):
                self.assertEqual([(mark.kind, mark.tick, mark.task.name) for mark in picture_of(paths).marks()], marks)

    def test_a_box_goes_on_over_a_release(self) -> None:
        rows = self.file("rows", "ticks,P1\n9,1\n")
        jobs = self.file("jobs", "task,release,script\nt1,0,9\nt2,4,1\n")
        parts = self.file("set", task_set(1, [], task("t1", 1, 20, 9), task("t2", 1, 20, 1)))
        self.assert_boxes([parts, jobs, rows], ([("t1", 0, 9, 1, None)], []))


class Windows(ToolCase):
    """What of a schedule is drawn."""

    def test_a_window_cuts_boxes(self) -> None:
        picture = picture_of(PAIR)
        sense = [task for task in picture.tasks if task.name == "sense"]
        self.assertEqual(executed_of(Window(2, 4, sense, [2]).parts(picture.executed)), [("sense", 2, 3, 2, "bus"), ("sense", 3, 4, 2, None)])
        self.assertEqual(executed_of(Window(2, 4, sense, [1]).parts(picture.executed)), [])

    def test_narrow_boxes_are_thinned(self) -> None:
        job = picture_of(PAIR).jobs[0]
        boxes = [schedule.Box(job, tick, tick + 1, 1, None) for tick in range(3600)]
        found = thinned(boxes, 3600, True)
        self.assertEqual((len(found.boxes), found.left_out), (1800, 1800))
        self.assertEqual(thinned(boxes[:1800], 1800, True).left_out, 0)

    def test_colours_and_hatches_stay_apart(self) -> None:
        self.assertEqual(len({colour(place) for place in range(64)}), 64)
        names = [f"q{k}" for k in range(32)]
        self.assertEqual(len({hatch_of(name, names) for name in names}), 32)


@unittest.skipIf(needs("matplotlib"), needs("matplotlib"))
class Pictures(ToolCase):
    """The pictures name what they show."""

    def draw(self, words: list[object], shown: list[str], said: str = "", status: int = 0) -> str:
        """The text of out.svg, which these words draw."""
        self.assert_ends(self.tool("draw", *map(str, words)), status, "", said)
        self.assert_shows(self.folder / "out.svg", shown)
        text = (self.folder / "out.svg").read_text(encoding="utf-8")
        ElementTree.fromstring(text)
        return text

    def test_schedules(self) -> None:
        homes = [self.file(name, text) for name, text in HOMES.items()]
        self.draw(["schedule", *PAIR, "out.svg"], ["control", "sense", "in bus", "blocked", "P2", "ticks"])
        self.draw(["schedule", *homes, "out.svg"], ["t3", "in a", "release", "deadline"])
        self.draw(["schedule", *JITTER, "out.svg"], ["receive", "arrival", "release", "deadline"])
        self.draw(["schedule", *SPIN, "out.svg", "--spin"], ["guard", "in bus", "spins", "blocked"])

    def test_the_same_schedule_is_the_same_picture(self) -> None:
        first = self.draw(["schedule", *PAIR, "out.svg"], [])
        self.assertEqual(self.draw(["schedule", *PAIR, "out.svg"], []), first)

    def test_less_of_a_schedule(self) -> None:
        text = self.draw(["schedule", *PAIR, "out.svg", "--from", 1, "--to", 4, "--tasks", "sense", "--processors", "2"], ["sense", "P2"])
        self.assertNotIn("<!-- control -->", text)
        self.assertNotIn("<!-- P1 -->", text)

    def test_windows(self) -> None:
        self.assert_done(self.tool("draw", "schedule", *PAIR, "out.png", "--window", 2))
        self.assertEqual(sorted(path.name for path in self.folder.iterdir()), ["out-1.png", "out-2.png", "out-3.png"])

    def test_great_ticks_are_whole_numbers(self) -> None:
        rows = self.file("rows", "ticks,P1,P2,bus\n1,1,2,\n2,,2,2\n1,1,2,1\n1,1,,\n4999995,,,\n")
        said = "block draw: 4 boxes and arrows are too narrow or too many to be seen, and left out; --from, --to or --window show them\n"
        text = self.draw(["schedule", *PAIR[:2], rows, "out.svg"], ["4000000"], said)
        self.assertNotIn("1e6", text)

    def test_studies(self) -> None:
        study = self.file("study", STUDY)
        self.draw(["study", study, "out.svg"], ["mpcp", "fmlp+", "dpcp", "schedulable sets", "3 analyses ended without an answer"])
        self.draw(["study", study, "out.svg", 20], ["schedulable sets, %"])
        self.assert_refused(self.tool("draw", "study", study, "out.svg", 19), 2, "draw", [f"SETS is 19, and {study} counts 20 sets in a step"])
        no_study = f"{PAIR[2]} is no study: it has a line 'step mpcp fmlp+ dpcp', a line for each step, and a line 'stopped N'"
        self.assert_refused(self.tool("draw", "study", PAIR[2], "out.svg"), 3, "draw", [no_study])

    def test_wrong_words_come_before_any_work(self) -> None:
        self.assert_words(self.tool("draw", "schedule", *PAIR), "the following arguments are required: OUT")
        self.assert_words(self.tool("draw", "schedule", *PAIR, "out.svg", "--spins"), "unrecognized arguments: --spins")
        self.assert_words(self.tool("draw", "schedule", *PAIR, "out.txt"), "out.txt isn't the name of a picture: it has to end in .svg, .png, .pdf")
        self.assert_words(self.tool("draw", "schedule", "none", *PAIR[1:], "out.svg", "--from", "x"), "'x' is no whole number")
        self.assert_words(self.tool("draw", "schedule", *PAIR, "out.svg", "--from", 5, "--to", 5), "--to has to be above --from")
        self.assert_words(self.tool("draw", "schedule", *PAIR, "out.svg", "--tasks", "sense,none"), "the set has no task 'none'")
        self.assert_words(self.tool("draw", "schedule", *PAIR, "out.svg", "--processors", "3"), "the set has no processor '3'")
        self.assertEqual(list(self.folder.iterdir()), [])

    def test_wrong_files(self) -> None:
        self.assert_refused(self.tool("draw", "schedule", "none", *PAIR[1:], "out.svg"), 4, "draw", ["none can't be read: No such file or directory"])
        self.assert_ends(self.tool("draw", "schedule", PAIR[1], *PAIR[1:], "out.svg"), 3, "")
        said = f"{PAIR[2]} doesn't begin with the line task,release,script or task,arrival,release,script"
        self.assert_refused(self.tool("draw", "schedule", PAIR[0], PAIR[2], PAIR[2], "out.svg"), 3, "draw", [said])
        self.file("mixed", "task,arrival,release,script\ncontrol,0,1\n")
        self.assert_refused(self.tool("draw", "schedule", PAIR[0], "mixed", PAIR[2], "out.svg"), 3, "draw", ["mixed, line 1 has 3 fields in place of 4"])
        self.assert_refused(self.tool("draw", "schedule", *PAIR, "none/out.svg"), 4, "draw", ["none/out.svg can't be written: No such file or directory"])

    def test_no_input_is_written_over(self) -> None:
        copy = self.file("rows.svg", PAIR[2].read_text(encoding="utf-8"))
        self.assert_words(self.tool("draw", "schedule", *PAIR[:2], copy, copy), "is given for OUT and for ROWS: nothing is written over")
        self.assertEqual(copy.read_text(encoding="utf-8"), PAIR[2].read_text(encoding="utf-8"))

    def test_the_first_bad_tick_is_marked(self) -> None:
        said = "block draw: block conform dpcp answers broken 1 grant\n"
        self.draw(["schedule", *PAIR, "out.svg", "--protocol", "dpcp"], [" broken 1 grant", "sense"], said, 1)
        self.draw(["schedule", *SPIN, "out.svg", "--protocol", "spin"], ["guard", "spins"])

    def test_a_trace_has_the_boxes(self) -> None:
        self.assert_done(self.tool("draw", "schedule", *PAIR, "out.svg", "--perfetto", "trace.json"))
        events = json.loads((self.folder / "trace.json").read_text(encoding="utf-8"))["traceEvents"]
        executed = [(one["name"], one["ts"], one["ts"] + one["dur"], one["tid"], one["args"].get("resource")) for one in events if one.get("cat") == "executes"]
        self.assertEqual(sorted(executed, key=lambda box: (box[1], box[3])), [(name + (f" in {where}" if where else ""), *rest, where) for name, *rest, where in PAIR_BOXES[0]])
        blocked = [(one["tid"], one["ts"], one["dur"]) for one in events if one.get("cat") == "blocked"]
        self.assertEqual(blocked, [(1, 1, 2)])

    def test_no_python_has_matplotlib(self) -> None:
        # -S leaves out the folder of the packages, and a call that has gone on in another Python looks for no third
        blind = self.file("blind", f'#!/bin/sh\nCIZBORG_PYTHON=x exec {python_with("matplotlib")} -S "$@"\n')
        self.assert_refused(self.tool("draw", "schedule", "none", "none", "none", "out.svg", python=str(blind)), 70, "draw", [LACKING])
