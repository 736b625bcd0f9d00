"""compare: each figure is asked of the program once more, or follows from a worked example."""
from __future__ import annotations

import csv
import io
import json
import unittest
from typing import Any

from cizborg.protocols import WORDS
from sets import resource, task, task_set
from tests.workbench import TOP
from tests.workbench.setting import ToolCase, needs

# two tasks that each take more than half of their processor, beside one alone
OVER = task_set(2, [], task("a", 1, 10, 6), task("b", 1, 10, 6), task("c", 2, 10, 6))
HOMELESS = task_set(1, [resource("q")], task("a", 1, 10, 3, ("q", 1)))


class Compare(ToolCase):
    """All words side by side."""

    def compared(self, path: Any, *words: Any, status: int = 0) -> Any:
        """What the tool writes as JSON."""
        ran = self.tool("compare", path, "--json", *words, at=TOP)
        self.assert_ends(ran, status, err="")
        return json.loads(ran.stdout)

    def test_figures_of_a_schedulable_set(self) -> None:
        found = self.compared("examples/pump.json")
        self.assertEqual([one["word"] for one in found["words"]], list(WORDS))
        tasks = json.loads((TOP / "examples/pump.json").read_text(encoding="utf-8"))["tasks"]
        for one in found["words"]:
            bounds = json.loads(self.block("analyse", one["word"], "examples/pump.json", at=TOP).stdout)["bounds"]
            figures = [(task["name"], bound, task.get("deadline", task["period"]) - task.get("jitter", 0) - bound) for task, bound in zip(tasks, bounds)]
            with self.subTest(one["word"]):
                self.assertEqual([(task["task"], task["bound"], task["slack"]) for task in one["tasks"]], figures)
                self.assertEqual((one["answer"], one["status"], one["relaxed"], one["aside"]), ("schedulable", 0, [], []))
        # 27900 of 50000 are left to panel under each of these; under the others valve keeps 2600, 1100 or 1600 of 5000
        self.assertEqual(found["most_slack"], ["dpcp", "dflp", "dpcp-w", "dpcp-c", "dflp-c"])

    def test_tasks_behind_the_first_that_is_not_shown(self) -> None:
        # b waits for one job of a: 5 + 3 = 8 ticks, and 7 are left to it
        tight = task_set(2, [], task("a", 1, 20, 3, jitter=2, deadline=5), task("b", 1, 20, 5, deadline=7), task("c", 2, 10, 6))
        for one in self.compared(self.file("tight", tight), status=1)["words"]:
            with self.subTest(one["word"]):
                self.assertEqual([(task["task"], task["bound"], task["slack"], task["at_most"]) for task in one["tasks"]], [("a", 3, 0, False), ("b", 8, -1, False), ("c", 6, 4, False)])
                self.assertEqual((one["answer"], one["relaxed"], one["aside"]), ("not shown b 8 7", ["b"], []))

    def test_a_task_that_no_deadline_shows(self) -> None:
        # 6 + 6 ticks pass the period of 10
        for one in self.compared(self.file("over", OVER), status=1)["words"]:
            with self.subTest(one["word"]):
                self.assertEqual([(task["task"], task["bound"], task["slack"], task["at_most"]) for task in one["tasks"]], [("a", 6, 4, False), ("b", None, -2, True), ("c", 6, 4, False)])
                self.assertEqual((one["answer"], one["relaxed"], one["aside"]), ("not shown b 12 10", [], ["b"]))

    def test_where_analyse_is_wide(self) -> None:
        found = {one["word"]: one for one in self.compared("examples/wide.json")["words"]}
        mpcp = found["mpcp"]
        # the deadlines less the least bounds, in exact fractions of any size
        self.assertEqual([task["slack"] for task in mpcp["tasks"]], [50000000 - 24617120, 100000000 - 26689594, 200000000 - 26689594])
        self.assertEqual((mpcp["answer"], mpcp["backed_by"]), ("schedulable", "block settle mpcp examples/wide.json"))
        said = self.tool("compare", "examples/wide.json", at=TOP).stdout
        self.assertRegex(said, r"(?m)^mpcp.*: the analysis is wide, and block settle answered$")

    def test_no_task_is_left(self) -> None:
        parts = task_set(1, [], task("a", 1, 1, 1), task("b", 1, 1, 1))
        found = self.compared(self.file("none-left", parts), status=1)["words"][0]
        self.assertEqual([(task["slack"], task["at_most"]) for task in found["tasks"]], [(0, False), (-1, True)])

    def test_text(self) -> None:
        text = self.tool("compare", self.file("over", OVER)).stdout
        table = text.split("\n\n")[1].split("\n")
        self.assertEqual([line.split() for line in table], [
            ["task", "deadline", *WORDS],
            ["a", "10", *["4"] * len(WORDS)],
            ["b", "10", *["<=-2"] * len(WORDS)],
            ["c", "10", *["4"] * len(WORDS)],
            ["nearest"],
            ["answer", *["not", "shown"] * len(WORDS)],
        ])
        every = ", ".join(WORDS)
        self.assertEqual(text.split("\n\n")[2], (
            f"No word shows the set. Fewest tasks lack time under {every}: 1.\n{every}: not shown b 12 10\n"
            f"{every}: not shown with a whole period either, of b; the figures of the others are of a set without, and too good\n"))

    def test_words_that_refuse_the_set(self) -> None:
        found = {one["word"]: (one["answer"], one["status"], one["tasks"][0]["slack"]) for one in self.compared(self.file("homeless", HOMELESS))["words"]}
        homes = ("refused set nohome resource 1", 3, None)
        self.assertEqual((found["dpcp"], found["dflp"], found["dpcp-w"], found["mpcp"]), (homes, homes, homes, ("schedulable", 0, 7)))

    def test_csv(self) -> None:
        lines = list(csv.DictReader(io.StringIO(self.assert_done(self.tool("compare", self.file("homeless", HOMELESS), "--csv")))))
        self.assertEqual([(line["word"], line["status"], line["task"], line["slack"]) for line in lines if line["word"] in ("mpcp", "dpcp")], [("mpcp", "0", "a", "7"), ("dpcp", "3", "a", "")])

    def test_where_nothing_is_known(self) -> None:
        found = self.compared("examples/pair.json", "--allowance", 1, status=6)
        self.assertEqual({(one["answer"], one["status"]) for one in found["words"]}, {("allowance", 6)})
        self.assertEqual(found["most_slack"], [])

    def test_wrong_words_and_sets(self) -> None:
        self.assert_words(self.tool("compare", "none", "--json", "--csv"), "--json and --csv are not given together")
        self.assert_words(self.tool("compare", "none", "--picture", "out"), "out isn't the name of a picture")
        self.assert_refused(self.tool("compare", "none"), 3, "compare", ["refused set absent"])

    @unittest.skipIf(needs("matplotlib"), needs("matplotlib"))
    def test_a_picture(self) -> None:
        self.assert_ends(self.tool("compare", "examples/pump.json", "--picture", self.folder / "out.svg", at=TOP), 0, err="")
        self.assert_shows(self.folder / "out.svg", ["valve", "store", "slack, % of the deadline", *WORDS])
