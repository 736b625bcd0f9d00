"""experiment: what is drawn, that a run goes on where it was, and what the curves are."""
from __future__ import annotations

import json
import math
import random
import unittest
from pathlib import Path

from cizborg.experiments import Experiment, experiment_of, lines_of
from cizborg.generating import Parameters, log_uniform, set_of, uunifast
from cizborg.protocols import WORDS
from tests.workbench import TOP
from tests.workbench.setting import EXAMPLES, PROGRAM, Text, ToolCase, needs

SMALL: list[Text] = ["--sets", 3, "--values", "0.4,0.9", "--words", "mpcp,spin", "--tasks", 4, "--processors", 2, "--resources", 2]
PARAMETERS = Parameters(0.6, 20, 3, 5, 0.5, 2, 50, 500, 1000, 100_000, "log-uniform")
# two values, of which the second has a set that is refused and one of which nothing is known; the last line was cut
HEAD = '# {"parameters": {"load": 0.5, "tasks": 8, "processors": 4, "resources": 4, "access": 0.5, "requests": 2, "shortest_length": 50, "longest_length": 500, ' \
    '"shortest_period": 10000, "longest_period": 100000, "periods": "uniform"}, "axis": "tasks", "values": ["8", "12"], "sets": 3, "seed": 1, "words": ["mpcp", "spin"]}\n'
LINES = "value,set,word,status\n8,0,mpcp,0\n8,0,spin,1\n8,1,mpcp,0\n8,1,spin,0\n12,0,mpcp,1\n12,0,spin,3\n12,1,mpcp,5\n12,1,spin,0\n12,2,mp"
SHOWN = """tasks  sets   mpcp   spin
    8     2  100 %   50 %
   12     2    0 %  100 %
Of 1 analyses nothing is known (wide or allowance); they count as not shown.
1 analyses refused their set; they don't count.
"""
COUNTS = """value,word,shown,not_shown,unknown,refused
8,mpcp,2,0,0,0
8,spin,1,1,0,0
12,mpcp,0,1,1,0
12,spin,1,0,0,1
"""


class Drawing(unittest.TestCase):
    """What sets are drawn."""

    def test_loads_come_to_the_given_one(self) -> None:
        draw = random.Random(1)
        loads = [uunifast(5, 0.7, draw) for _ in range(2000)]
        self.assertTrue(all(math.isclose(sum(one), 0.7) and min(one) >= 0 for one in loads))
        # each place has the same mean
        self.assertTrue(all(abs(sum(one[place] for one in loads) / 2000 - 0.14) < 0.01 for place in range(5)))

    def test_periods_are_spread_over_their_logarithms(self) -> None:
        draw = random.Random(1)
        periods = [log_uniform(1000, 100_000, draw) for _ in range(2000)]
        self.assertTrue(all(1000 <= period <= 100_000 for period in periods))
        self.assertTrue(0.45 < sum(period < 10_000 for period in periods) / 2000 < 0.55)

    def test_sets_are_as_asked(self) -> None:
        for seed in range(50):
            parts = set_of(PARAMETERS, random.Random(seed))
            tasks = parts["tasks"]
            self.assertEqual((parts["processors"], len(parts["resources"]), len(tasks)), (3, 5, 20))
            self.assertEqual([task["period"] for task in tasks], sorted(task["period"] for task in tasks))
            for task in tasks:
                asked = task.get("requests", [])
                self.assertTrue(1000 <= task["period"] <= 100_000 and sum(one["count"] * one["length"] for one in asked) < task["cost"])
                self.assertTrue(all(1 <= one["count"] <= 2 and 50 <= one["length"] <= 500 for one in asked))
            for processor in (1, 2, 3):
                load = sum(task["cost"] / task["period"] for task in tasks if task["processor"] == processor)
                # a cost is rounded to a whole tick of at least 1000
                self.assertAlmostEqual(load, 0.6, delta=0.007)

    def test_a_set_follows_from_its_number_alone(self) -> None:
        experiment = Experiment(PARAMETERS, "load", ("0.5", "0.6"), 10, 7, WORDS)
        self.assertEqual(experiment.drawn("0.6", 3), Experiment(PARAMETERS, "load", ("0.6",), 4, 7, ("mpcp",)).drawn("0.6", 3))
        self.assertNotEqual(experiment.drawn("0.6", 3), experiment.drawn("0.6", 4))
        # at another value the same is drawn, but for what the value changes
        one, other = (experiment.drawn(value, 3) for value in ("0.5", "0.6"))
        self.assertEqual([task["period"] for task in one["tasks"]], [task["period"] for task in other["tasks"]])


class Running(ToolCase):
    """Runs of experiments."""

    def run_to(self, name: str, *words: Text, status: int = 0) -> str:
        """What a run leaves in a file."""
        self.assert_ends(self.tool("experiment", "run", name, *SMALL, *words), status, "")
        return (self.folder / name).read_text(encoding="utf-8")

    def test_each_status_is_that_of_analyse(self) -> None:
        self.run_to("all")
        head, lines = lines_of(str(self.folder / "all"))
        experiment = experiment_of(head, "all")
        self.assertEqual(len(lines), 2 * 3 * 2)
        for line in lines:
            parts = self.file("set", json.dumps(experiment.drawn(line.value, line.number)))
            self.assertEqual(self.block("analyse", line.word, parts).returncode, line.status)

    def test_a_run_goes_on_where_it_was(self) -> None:
        whole = self.run_to("all")
        lines = whole.splitlines(keepends=True)
        self.file("cut", "".join(lines[:6]) + lines[6][:4])
        self.assertEqual(sorted(self.run_to("cut").splitlines()), sorted(whole.splitlines()))
        # nothing is left to ask, so the program isn't asked
        ran = self.tool("experiment", "run", "all", *SMALL, program=self.file("killed", "#!/bin/sh\nkill -9 $$\n"))
        self.assert_ends(ran, 0, "", "")

    def test_parts_are_the_whole(self) -> None:
        parts = [self.run_to(f"part-{k}", "--part", f"{k}/3") for k in (1, 2, 3)]
        self.file("joined", "".join(parts))
        self.run_to("all")
        self.assertEqual({*lines_of(str(self.folder / "joined"))[1]}, {*lines_of(str(self.folder / "all"))[1]})
        self.assertTrue(all(len(part.splitlines()) == 6 for part in parts))

    def test_another_experiment_is_not_mixed_in(self) -> None:
        self.run_to("all")
        ran = self.tool("experiment", "run", "all", *SMALL, "--seed", 2)
        self.assert_refused(ran, 3, "experiment", ["all is of another experiment: its first line says which"])

    def test_wrong_words_come_before_any_work(self) -> None:
        for words, said in (
            (["--values", "0.5,x"], "--values has 'x', which is no number for load"),
            (["--values", "0.5,0.5"], "--values has a value twice"),
            (["--values", "0.5,1.5"], "at load 1.5: the load has to be above 0 and at most 1"),
            (["--axis", "tasks", "--values", "8,65"], "at tasks 65: there are 1 to 64 tasks"),
            (["--axis", "tasks", "--values", "8.5"], "--values has '8.5', which is no number for tasks"),
            (["--words", "mpcp,edf"], "--words has 'edf', and words are mpcp"),
            (["--part", "3/2"], "--part is '3/2', which is no part like 2/8"),
            (["--access", "-1"], "--access is '-1', which is no number"),
            (["--access", "2"], "the access is a probability"),
        ):
            with self.subTest(said):
                self.assert_words(self.tool("experiment", "run", "out", *words), said)
        self.assertEqual(list(self.folder.iterdir()), [])


class Showing(ToolCase):
    """Curves."""

    def setUp(self) -> None:
        super().setUp()
        self.all = self.file("all", HEAD + LINES)

    def test_shares(self) -> None:
        self.assertEqual(self.assert_done(self.tool("experiment", "show", self.all)), SHOWN)
        self.assertEqual(self.assert_done(self.tool("experiment", "show", self.all, "--csv")), COUNTS)
        points = json.loads(self.assert_done(self.tool("experiment", "show", self.all, "--json")))["points"]
        self.assertEqual([",".join(str(cell) for cell in point.values()) for point in points], COUNTS.splitlines()[1:])

    def test_what_is_no_experiment(self) -> None:
        other = HEAD.replace('"seed": 1', '"seed": 2')
        for name, text in (("none", "a,b\n"), ("two", HEAD + LINES + "\n" + other + LINES), ("wrong", HEAD + LINES + "\nx\n"), ("empty", '# {}\nvalue,set,word,status\n')):
            with self.subTest(name):
                self.assert_ends(self.tool("experiment", "show", self.file(name, text)), 3, "")

    @unittest.skipIf(needs("matplotlib"), needs("matplotlib"))
    def test_a_picture(self) -> None:
        self.assert_done(self.tool("experiment", "show", self.all, "--csv", "--picture", "out.svg"))
        self.assert_shows(self.folder / "out.svg", ["mpcp", "spin", "tasks", "sets that are shown, %"])

    def test_the_shipped_one_is_what_the_program_answers(self) -> None:
        path = EXAMPLES / "experiment.csv"
        head, lines = lines_of(str(path))
        experiment = experiment_of(head, str(path))
        self.assertEqual(len(lines), len(experiment.values) * experiment.sets * len(experiment.words))
        for line in random.Random(1).sample(lines, 12):
            parts = self.file("set", json.dumps(experiment.drawn(line.value, line.number)))
            with self.subTest(line):
                self.assertEqual(self.block("analyse", line.word, parts).returncode, line.status)
        self.assertTrue(Path(PROGRAM).exists() and (TOP / "docs" / "pictures" / "experiment.svg").exists())
