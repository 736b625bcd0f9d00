"""sensitivity: what it prints of small sets is compared in full, and of another each edge is asked for again."""
from __future__ import annotations

import copy
import json
import unittest
from typing import Any

from sets import resource, task, task_set
from tests.workbench import TOP
from tests.workbench.setting import PROGRAM, ToolCase, needs

Parts = dict[str, Any]
PAIR, SHORT = "examples/pair.json", "examples/pair-short.json"
KILLED = "#!/bin/sh\nkill -9 $$\n"

FACTOR = "The factor is on all costs, local limits and lengths, each rounded up."
PERIOD = "A deadline that the set doesn't give is the period, and changes with it; one that it gives stays, but is lowered to a shorter period."

PAIR_TABLE = f"""block analyse fmlp+ examples/pair.json answers: schedulable.
At each edge the answer is the same, if nothing else changes. At the next value it is the one in the last column.

task     number        now   edge      by              at the next value
*        factor      1.000  2.000  +1.000    +100.0 %  2.001: not shown control 12 10
control  cost            3      8      +5    +166.7 %  9: not shown control 11 10
control  jitter          0      5      +5              6: not shown control 5 4
control  period         10      5      -5     -50.0 %  4: not shown control 5 4
control  bus count       1   1000    +999  +99900.0 %  1001: limit (refused set count request 1 1)
control  bus length      1      2      +1    +100.0 %  3: limit (refused set length request 1 1)
sense    cost            4      9      +5    +125.0 %  10: not shown sense 11 10
sense    jitter          0      5      +5              6: not shown sense 5 4
sense    period         10      5      -5     -50.0 %  4: not shown sense 5 4
sense    bus count       1   1000    +999  +99900.0 %  1001: limit (refused set count request 2 1)
sense    bus length      2      3      +1     +50.0 %  4: limit (refused set length request 2 1)

{FACTOR}
{PERIOD}
"""

SHORT_TABLE = f"""block analyse mpcp examples/pair-short.json answers: not shown control 5 4.
After any one of these changes the answer is: schedulable. One step before, it is the one in the last column. The cheapest come first.

task     number        now   edge      by            one step before
control  deadline        4      5      +1   +25.0 %  4: not shown control 5 4
control  cost            3      2      -1   -33.3 %  3: not shown control 5 4
*        factor      1.000  0.666  -0.334   -33.4 %  0.667: not shown control 5 4
sense    bus length      2      1      -1   -50.0 %  2: not shown control 5 4
control  bus count       1      0      -1  -100.0 %  1: not shown control 5 4
sense    bus count       1      0      -1  -100.0 %  1: not shown control 5 4

These were tried, each alone, and mend nothing, up to the furthest value that was asked for, with its answer:
control period 10, up to 1000: not shown control 5 4
sense cost 4, up to 3: not shown control 5 4
sense period 10, up to 1000: not shown control 5 4

{FACTOR}
A count of 0 is no request at all.
"""

# a task that takes all time of its processor
FULL = task_set(1, [], task("t1", 1, 1, 1))
FULL_TABLE = f"""block analyse dpcp SET answers: schedulable.
At each edge the answer is the same, if nothing else changes. At the next value it is the one in the last column.

task  number    now   edge      by          at the next value
*     factor  1.000  1.000  +0.000  +0.0 %  1.001: limit (refused set cost task 1)
t1    cost        1      1      +0  +0.0 %  2: limit (refused set cost task 1)
t1    jitter      0      0      +0          1: limit (refused set jitter task 1)
t1    period      1      1      +0  +0.0 %  0: limit (refused set period task 1)

{FACTOR}
{PERIOD}
"""

# a given deadline, a local limit, a jitter for which a higher task comes twice, and one for which another processor's task does
LATE: Parts = json.loads(task_set(
    2,
    [resource("a", 1)],
    task("t1", 1, 24, 4, ("a", 1), deadline=20, local=2, jitter=2),
    task("t2", 1, 40, 7, ("a", 2, 2)),
    task("t3", 2, 30, 4, ("a", 2), jitter=12),
))

# it finds a single task schedulable up to a cost of 5, is wide up to 7, and refuses what leaves no room for the cost
UNSURE = """#!/usr/bin/env python3
import json, sys
task = json.load(open(sys.argv[3]))["tasks"][0]
refused = task["cost"] + task.get("jitter", 0) > task["period"]
lines = {0: "{}", 1: "not shown t 9 8", 3: "refused set task 1", 5: "wide t"}
status = 3 if refused else 0 if task["cost"] <= 5 else 5 if task["cost"] <= 7 else 1
print(lines[status])
sys.exit(status)
"""
UNSURE_TABLE = f"""block analyse mpcp SET answers: schedulable.
At each edge the answer is the same, if nothing else changes. At the next value it is the one in the last column.

task  number    now   edge      by            at the next value
*     factor  1.000  2.500  +1.500  +150.0 %  2.501: wide t, so unknown
t     cost        2      5      +3  +150.0 %  6: wide t, so unknown
t     jitter      0      8      +8            9: limit (refused set task 1)
t     period     10      2      -8   -80.0 %  1: limit (refused set task 1)

{FACTOR}
{PERIOD}
10 of the 20 analyses were wide, and block settle was asked.
10 of the 20 analyses answered wide or allowance: nothing is known of those sets.
"""
# it is wide from a cost of 6 on, and settles that the task is schedulable up to 6
SETTLER = """#!/usr/bin/env python3
import json, sys
task = json.load(open(sys.argv[3]))["tasks"][0]
refused = task["cost"] + task.get("jitter", 0) > task["period"]
status = 3 if refused else 0 if task["cost"] <= 5 else 5 if sys.argv[1] == "analyse" else 0 if task["cost"] <= 6 else 1
lines = {0: "{}", 1: json.dumps({"steps": [{"task": 1, "value": 4}, {"task": 1, "value": 11}]}), 3: "refused set task 1", 5: "wide t"}
print(lines[status])
sys.exit(status)
"""
SETTLED_TABLE = f"""block COMMAND mpcp SET answers: schedulable.
At each edge the answer is the same, if nothing else changes. At the next value it is the one in the last column.

task  number    now   edge      by           at the next value
*     factor  1.000  1.000  +0.000   +0.0 %  1.001: not shown t 11 10
t     cost        6      6      +0   +0.0 %  7: not shown t 11 10
t     jitter      0      4      +4           5: limit (refused set task 1)
t     period     10      6      -4  -40.0 %  5: limit (refused set task 1)

{FACTOR}
{PERIOD}
15 of the 17 analyses were wide, and block settle was asked.
"""

# three tasks that each take half of their processor at the least
FULLER = task_set(1, [], task("a", 1, 2, 1), task("b", 1, 2, 1), task("c", 1, 2, 1))
FULLER_TEXT = """block analyse mpcp SET answers: not shown c 3 2.
No single change was found that makes the set schedulable.

These were tried, each alone, and mend nothing, up to the furthest value that was asked for, with its answer:
* factor 1.000, up to 0.001: not shown c 3 2
a period 2, up to 200: not shown c 3 2
b period 2, up to 200: not shown c 3 2
c period 2, up to 200: not shown c 201 200
"""


def changed(parts: Parts, number: Parts, value: float) -> Parts:
    """The set with another value of a number of the JSON that the tool writes."""
    parts = copy.deepcopy(parts)
    if number["number"] == "factor":
        thousandths = round(1000 * value)
        for one in parts["tasks"]:
            for holder, member in [(one, "cost"), (one, "local"), *((request, "length") for request in one.get("requests", []))]:
                if member in holder:
                    holder[member] = (holder[member] * thousandths + 999) // 1000
        return parts
    found = next(one for one in parts["tasks"] if one["name"] == number["task"])
    if number["resource"]:
        next(request for request in found["requests"] if request["resource"] == number["resource"])[number["number"]] = value
    else:
        found[number["number"]] = value
    if "deadline" in found:
        found["deadline"] = min(found["deadline"], found["period"])
    return parts


class Sensitivity(ToolCase):
    """The edges of sets."""

    def sensitivity(self, *words: Any, **more: Any) -> Any:
        """A run of the tool, at the top of the repository."""
        return self.tool("sensitivity", *words, at=TOP, **more)

    def test_a_pair(self) -> None:
        self.assert_ends(self.sensitivity("fmlp+", PAIR), 0, PAIR_TABLE, "")

    def test_a_set_that_is_not_shown(self) -> None:
        self.assert_ends(self.sensitivity("mpcp", SHORT), 1, SHORT_TABLE, "")

    def test_a_set_that_no_single_change_mends(self) -> None:
        fuller = self.file("fuller", FULLER)
        self.assert_ends(self.sensitivity("mpcp", fuller), 1, FULLER_TEXT.replace("SET", str(fuller)), "")

    def test_a_set_without_room(self) -> None:
        full = self.file("full", FULL)
        self.assert_ends(self.sensitivity("dpcp", full), 0, FULL_TABLE.replace("SET", str(full)), "")

    def test_the_program_answers_so_at_each_edge(self) -> None:
        numbers = json.loads(self.assert_done(self.sensitivity("dpcp", self.file("late", json.dumps(LATE)), "--json", "--jobs", "2")))["numbers"]
        names = [(number["task"], number["number"]) for number in numbers]
        self.assertEqual((len(names), ("t1", "jitter") in names), (16, True))
        for number in numbers:
            with self.subTest(number=number):
                answers = [self.block("analyse", "dpcp", self.file("changed", json.dumps(changed(LATE, number, value)))) for value in (number["edge"], number["next"])]
                self.assertEqual((answers[0].returncode, answers[1].returncode, answers[1].stdout.strip()), (0, number["status"], number["answer"]))
                steps = abs(number["edge"] - number["next"]) * (1000 if number["number"] == "factor" else 1)
                self.assertEqual((round(steps), number["status"] != 0), (1, True))

    def test_a_program_that_is_wide(self) -> None:
        one = self.file("one", task_set(1, [], task("t", 1, 10, 2)))
        unsure = self.sensitivity("mpcp", one, program=self.file("unsure", UNSURE))
        self.assert_ends(unsure, 0, UNSURE_TABLE.replace("SET", str(one)), "")

    def test_what_settle_answers_where_analyse_is_wide(self) -> None:
        one = self.file("one", task_set(1, [], task("t", 1, 10, 6)))
        settled = self.sensitivity("mpcp", one, program=self.file("settler", SETTLER))
        self.assert_ends(settled, 0, SETTLED_TABLE.replace("SET", str(one)).replace("COMMAND", "settle"), "")

    def test_statuses_are_those_of_the_program(self) -> None:
        one = self.file("one", task_set(1, [], task("t", 1, 10, 6)))
        unsure = self.sensitivity("mpcp", one, program=self.file("unsure", UNSURE))
        self.assert_refused(unsure, 5, "sensitivity", [f"block settle mpcp {one} answers wide t: nothing is known of the set"])
        for words, status, line in (
            (["mpcp", PAIR, "--allowance", "1"], 6, f"block analyse mpcp {PAIR} 1 answers allowance: nothing is known of the set"),
            (["mpcp", "none"], 3, "refused set absent"),
            (["mpcp", "examples"], 4, "analyse ended with status 4: fault read set"),
        ):
            with self.subTest(status=status):
                self.assert_refused(self.sensitivity(*words), status, "sensitivity", [line])

    def test_wrong_words_come_before_any_work(self) -> None:
        none = self.folder / "none"
        for words, said in (
            (["edf", PAIR], "invalid choice: 'edf'"),
            (["mpcp", PAIR, "--jobs", "0"], "0 isn't from 1 on"),
            (["mpcp", PAIR, "--allowance", "x"], "'x' is no whole number"),
            (["mpcp", PAIR, "--picture", "bars.gif"], "bars.gif isn't the name of a picture"),
            (["mpcp", PAIR, "--picture", "bars.svg", "--none"], "unrecognized arguments: --none"),
        ):
            with self.subTest(said):
                self.assert_words(self.sensitivity(*words, program=none), said)

    def test_a_program_that_does_not_answer(self) -> None:
        killed = self.sensitivity("mpcp", PAIR, program=self.file("killed", KILLED))
        self.assert_refused(killed, 70, "sensitivity", ["analyse ended with status -9: it wrote nothing"])
        none = self.folder / "none"
        said = f"{none} is missing: ./block builds the program, or give --program FILE"
        self.assert_refused(self.sensitivity("mpcp", PAIR, program=none), 70, "sensitivity", [said])
        self.assert_ends(self.sensitivity("fmlp+", PAIR, "--program", PROGRAM, program=none), 0, PAIR_TABLE, "")

    @unittest.skipIf(needs("matplotlib"), needs("matplotlib"))
    def test_a_picture(self) -> None:
        out = self.folder / "bars.svg"
        self.assert_ends(self.sensitivity("fmlp+", PAIR, "--picture", out), 0, PAIR_TABLE, "")
        self.assert_shows(out, ["control", "sense", "used", "free", "3 of 8", "4 of 9"])
