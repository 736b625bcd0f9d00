"""jobs: what the lists are, and that the program takes them."""
from __future__ import annotations

import json
import random

from cizborg import jobs
from cizborg.protocols import WORDS
from sets import resource, task, task_set
from tests.workbench import TOP
from tests.workbench.setting import EXAMPLES, Text, ToolCase
from tests.workbench.test_sensitivity import LATE

PLANT = EXAMPLES / "plant.json"
# c has room for one request of q beside a local tick before it, and no more than two local ticks
TASKS = [
    task("a", 1, 10, 4, ("q", 1, 2)),
    task("b", 1, 20, 6, ("q", 2), ("r", 1), local=2, jitter=3),
    task("c", 2, 15, 4, ("q", 2, 2), local=2),
]
SET = task_set(2, [resource("q", 1), resource("r", 2)], *TASKS)
PERIODIC = """task,release,script
a,0,1 q:1 1 q:1
a,10,1 q:1 1 q:1
b,0,1 q:2 1 r:1
c,0,1 q:2 1
c,15,1 q:2 1
"""


class Jobs(ToolCase):
    """Lists of jobs."""

    def jobs(self, *words: Text) -> str:
        """The list that these words make."""
        return self.assert_done(self.tool("jobs", *words))

    def assert_lawful(self, path: Text, listed: str, ticks: int) -> None:
        """The program makes a schedule of the list under each protocol, and finds it lawful."""
        jobs_file = self.file("listed", listed)
        for protocol in WORDS:
            rows = self.written("rows", "simulate", protocol, path, jobs_file, ticks)
            with self.subTest(protocol):
                self.assertTrue(self.block("conform", protocol, path, jobs_file, rows).stdout.startswith(f"lawful {ticks}\n"), listed)

    def test_the_jobs_of_the_plant(self) -> None:
        self.assertEqual(self.jobs(PLANT, 1_000_000), (EXAMPLES / "plant-jobs.csv").read_text(encoding="utf-8"))

    def test_scripts_stay_within_the_limits(self) -> None:
        self.assertEqual(self.jobs(self.file("set", SET), 20), PERIODIC)

    def test_offsets(self) -> None:
        made = self.jobs(self.file("set", SET), 40, "--kind", "offset", "--seed", 5)
        offsets = jobs.drawn_offsets(json.loads(SET), random.Random(5))
        first = {line.split(",")[0]: int(line.split(",")[1]) for line in reversed(made.splitlines()[1:])}
        self.assertEqual(first, offsets)
        self.assertEqual(made, self.jobs(self.folder / "set", 40, "--kind", "offset", "--seed", 5))
        self.assertNotEqual(made, self.jobs(self.folder / "set", 40, "--kind", "offset", "--seed", 6))

    def test_the_program_takes_all_kinds(self) -> None:
        late = self.file("late", json.dumps(LATE))
        for kind in ("periodic", "offset", "random"):
            for seed in range(3):
                with self.subTest(kind=kind, seed=seed):
                    self.assert_lawful(late, self.jobs(late, 500, "--kind", kind, "--seed", seed), 500)

    def test_random_scripts_stay_within_the_limits(self) -> None:
        draw = random.Random(1)
        for one in TASKS * 200:
            words = jobs.random_script(one, draw).split(" ")
            local = sum(int(word) for word in words if ":" not in word)
            requests = [word.split(":") for word in words if ":" in word]
            self.assertEqual((":" in words[0], any(":" in first and ":" in second for first, second in zip(words, words[1:]))), (False, False), words)
            self.assertTrue(1 <= local <= one.get("local", one["cost"]) and local + sum(int(ticks) for _, ticks in requests) <= one["cost"], words)
            for request in one["requests"]:
                mine = [int(ticks) for name, ticks in requests if name == request["resource"]]
                self.assertTrue(len(mine) <= request["count"] and all(1 <= ticks <= request["length"] for ticks in mine), words)

    def test_the_worst_that_is_seen(self) -> None:
        # a has 2 ticks of its own, and waits for a request of b that was issued a tick before its own, and so for 4 of 5 ticks
        parts = self.file("set", task_set(2, [resource("q", 1)], task("a", 1, 40, 2, ("q", 1)), task("b", 2, 40, 7, ("q", 5))))
        ran = self.tool("jobs", parts, 80, "--kind", "worst", "--protocol", "fmlp+", "--task", "a", "--tries", 60)
        self.assert_ends(ran, 0, err="block jobs: in 60 lists a came nearest: 6 ticks from release to end under fmlp+\n")
        listed = self.file("jobs", ran.stdout)
        rows = self.written("rows", "simulate", "fmlp+", parts, listed, 80)
        self.assertEqual(self.block("conform", "fmlp+", parts, listed, rows).stdout.split("\n")[1].split()[2], "6")

    def test_wrong_words_and_sets(self) -> None:
        self.assert_words(self.tool("jobs", PLANT, 0), "0 isn't from 1 to 1000000000")
        self.assert_words(self.tool("jobs", "none", 5, "--kind", "worst"), "--kind worst needs --protocol, and no other kind takes it")
        self.assert_words(self.tool("jobs", "none", 5, "--protocol", "mpcp"), "--kind worst needs --protocol, and no other kind takes it")
        self.assert_words(self.tool("jobs", "none", 5, "--task", "a"), "--task is for --kind worst")
        self.assert_words(self.tool("jobs", PLANT, 5, "--kind", "worst", "--protocol", "mpcp", "--task", "none"), "the set has no task 'none'; its tasks are t1, t2")
        self.assert_refused(self.tool("jobs", "none", 5), 3, "jobs", ["refused set absent"])
        self.assert_refused(self.tool("jobs", PLANT, 1_000_000_000, at=TOP), 3, "jobs", ["these would be up to 251000 jobs, and a list has at most 100000: take fewer ticks"])
