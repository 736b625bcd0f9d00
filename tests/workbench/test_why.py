"""why: the worked programs of docs/ANALYSIS.md and the guide, and that all parts come to what the program answers."""
from __future__ import annotations

import json
from fractions import Fraction
from typing import Any

from cizborg.protocols import AT_HOMES, WORDS
from sets import resource, task, task_set
from tests.workbench import TOP
from tests.workbench.setting import ToolCase
from tests.workbench.test_sensitivity import LATE

# the worked program of docs/ANALYSIS.md
WORKED = task_set(
    3, [resource("q1"), resource("q2")],
    task("t1", 1, 100, 4, ("q1", 1), ("q2", 1)), task("t2", 2, 100, 4, ("q1", 3), ("q2", 2)), task("t3", 3, 100, 3, ("q1", 2)),
)
WORKED_TEXT = """t1: bound 8, deadline 100, slack 92
  cost                                         4
  blocking (whole ticks of 14/3)               4
    t2 q1 direct 2/3 x 3 = 2
    t2 q2 direct 1 x 2 = 2
    t3 q1 direct 1/3 x 2 = 2/3
  interference                                 0

"""
# that of docs/ANALYSIS.md under spin locks: guard is blocked by send's request, and while send spins for that of log
SPIN: dict[str, tuple[list[tuple[str, str, str, int]], list[tuple[str, int, int]]]] = {
    "guard": ([("send", "bus", "preemption", 2), ("log", "bus", "indirect", 3)], []),
    "send": ([("log", "bus", "direct", 3)], [("guard", 2, 2)]),
    "log": ([("send", "bus", "direct", 2)], []),
}
# it accepts each set, and nothing is known of it
UNSURE = """#!/bin/sh
case $1 in
report) echo table ;;
*) echo wide t; exit 5 ;;
esac
"""
# it is schedulable with the bound 3, and its refusals come to nothing
LIAR = """#!/bin/sh
case $1 in
analyse) echo '{"bounds":[3]}' ;;
refute) echo '{"steps":[{"point":{"den":1,"num":[]},"task":1,"value":3}]}' ;;
confirm) echo confirmed ;;
*) echo table ;;
esac
"""


class Why(ToolCase):
    """What bounds are made of."""

    def told(self, *words: Any, status: int = 0) -> dict[str, Any]:
        """What the tool writes as JSON, by task."""
        ran = self.tool("why", *words, "--json", at=TOP)
        self.assert_ends(ran, status, err="")
        return {one["task"]: one for one in json.loads(ran.stdout)["tasks"]}

    def assert_parts(self, one: Any, blocked: list[tuple[str, str, str, int]], delayed: list[tuple[str, int, int]]) -> None:
        """A task is blocked by these requests, each for so many ticks in all, and delayed by so many jobs of so many ticks."""
        self.assertEqual([(part["task"], part["resource"], part["way"], part["ticks"]) for part in one["blocking"]["parts"]],
                         [(*place, {"num": ticks, "den": 1}) for *place, ticks in blocked])
        self.assertEqual([(part["task"], part["jobs"], part["each"]) for part in one["interference"]["parts"]], delayed)

    def test_a_worked_program(self) -> None:
        path = self.file("worked", WORKED)
        said = f"This rests on block analyse mpcp {path}, and for each task on block refute of the same set with its deadline one tick below its bound; block confirm confirms these.\n"
        self.assert_ends(self.tool("why", "mpcp", path, "t1"), 0, WORKED_TEXT + said, "")

    def test_spin_locks(self) -> None:
        told = self.told("spin", "examples/spin.json")
        self.assertEqual(set(told), set(SPIN))
        for name, (blocked, delayed) in SPIN.items():
            with self.subTest(name):
                self.assert_parts(told[name], blocked, delayed)

    def test_windows_of_requests(self) -> None:
        # three requests of poll without windows, and one with them
        self.assert_parts(self.told("dpcp", "examples/windows.json", "plan")["plan"], [("poll", "store", "direct", 3)], [])
        self.assert_parts(self.told("dpcp-w", "examples/windows.json", "plan")["plan"], [("poll", "store", "direct", 1)], [])

    def test_jitter(self) -> None:
        one = self.told("fmlp+", "examples/jitter.json")["display"]
        self.assertEqual((one["value"], one["left"]), (9, 11))
        self.assert_parts(one, [], [("receive", 2, 2)])

    def test_all_parts_come_to_the_bound(self) -> None:
        late = self.file("late", json.dumps(LATE))
        for protocol in WORDS:
            for path in (str(late), "examples/plant.json", "examples/pump.json"):
                bounds = json.loads(self.block("analyse", protocol, path, at=TOP).stdout)["bounds"]
                for one, bound in zip(self.told(protocol, path).values(), bounds):
                    with self.subTest(protocol=protocol, path=path, task=one["task"]):
                        worth = sum(Fraction(part["ticks"]["num"], part["ticks"]["den"]) for part in one["blocking"]["parts"])
                        delayed = sum(part["jobs"] * part["each"] for part in one["interference"]["parts"])
                        self.assertEqual((one["cost"] + int(worth) + delayed, one["value"]), (bound, bound))

    def test_interference_is_of_local_limits_where_requests_run_at_homes(self) -> None:
        parts = task_set(2, [resource("q", 2)], task("a", 1, 20, 5, ("q", 3), local=2), task("b", 1, 40, 4))
        path = self.file("homes", parts)
        for protocol in WORDS:
            with self.subTest(protocol):
                self.assert_parts(self.told(protocol, path, "b")["b"], [], [("a", 1, 2 if protocol in AT_HOMES else 5)])

    def test_a_task_that_is_not_shown(self) -> None:
        one = self.told("mpcp", "examples/pair-short.json", status=1)["control"]
        self.assertEqual((one["value"], one["left"], one["cost"]), (5, -1, 3))
        self.assert_parts(one, [("sense", "bus", "direct", 2)], [])
        first = self.tool("why", "mpcp", "examples/pair-short.json", at=TOP).stdout.split("\n")[0]
        self.assertEqual(first, "control is not shown: at least 5, deadline 4, lacks 1")
        slow = self.told("fmlp+", "examples/overloaded.json", "slow", status=1)["slow"]
        self.assert_parts(slow, [], [("fast", 1, 1)])

    def test_another_task_of_a_set_that_is_not_shown(self) -> None:
        one = self.told("mpcp", "examples/pair-short.json", "sense", status=1)["sense"]
        self.assertEqual((one["value"], one["cost"]), (4, 4))
        self.assert_parts(one, [], [])

    def test_where_analyse_is_wide(self) -> None:
        told = self.told("mpcp", "examples/wide.json")
        # in exact fractions steer is blocked for 166383318391163/7356521 ticks, the others for whole ones
        self.assertEqual([one["value"] for one in told.values()], [24617120, 26689594, 26689594])
        for one in told.values():
            ticks = sum(Fraction(part["ticks"]["num"], part["ticks"]["den"]) for part in one["blocking"]["parts"])
            self.assertEqual(one["cost"] + int(ticks) + one["interference"]["ticks"], one["value"])
        text = self.tool("why", "mpcp", "examples/wide.json", at=TOP).stdout
        self.assertIn("\nThis rests on block settle mpcp examples/wide.json, and for each task on block ", text)
        self.assertIn("  blocking (whole ticks of about 22617120.020613)  ", text)

    def test_where_nothing_is_known(self) -> None:
        one = self.file("one", task_set(1, [], task("t", 1, 10, 2)))
        said = f"block settle mpcp {one} answers wide t: nothing is known of the set"
        self.assert_refused(self.tool("why", "mpcp", one, program=self.file("unsure", UNSURE)), 5, "why", [said])
        said = "block analyse fmlp+ examples/pair.json 1 answers allowance: nothing is known of the set"
        self.assert_refused(self.tool("why", "fmlp+", "examples/pair.json", "--allowance", 1, at=TOP), 6, "why", [said])

    def test_wrong_words_and_sets(self) -> None:
        self.assert_words(self.tool("why", "fmlp+", "examples/pair.json", "none", at=TOP), "the set has no task 'none'; its tasks are control, sense")
        self.assert_words(self.tool("why", "edf", "examples/pair.json", at=TOP), "invalid choice: 'edf'")
        self.assert_refused(self.tool("why", "fmlp+", "none"), 3, "why", ["refused set absent"])

    def test_parts_that_do_not_come_to_the_bound(self) -> None:
        one = self.file("one", task_set(1, [], task("t", 1, 10, 2)))
        ran = self.tool("why", "mpcp", one, program=self.file("liar", LIAR))
        self.assert_refused(ran, 70, "why", ["the parts of t come to 2, and its bound is 3"])
