"""set: two tables to a set."""
from __future__ import annotations

import json
from typing import Any, Optional

from cizborg.protocols import WORDS
from sets import resource, task, task_set
from tests.workbench import TOP
from tests.workbench.setting import EXAMPLES, Text, ToolCase

PUMP: list[Text] = [EXAMPLES / "pump-tasks.csv", EXAMPLES / "pump-requests.csv", "--ticks-per-unit", 1000]
TASKS = "task,processor,period,cost\na,1,10,2\nb,2,20,5\n"
REQUESTS = "task,resource,count,length,home\na,q,1,1,2\nb,q,2,2,\n"
AS_SET = {
    "processors": 2,
    "resources": [{"name": "q", "home": 2}],
    "tasks": [
        {"name": "a", "processor": 1, "period": 10, "cost": 2, "requests": [{"resource": "q", "count": 1, "length": 1}]},
        {"name": "b", "processor": 2, "period": 20, "cost": 5, "requests": [{"resource": "q", "count": 2, "length": 2}]},
    ],
}
ALONE = {"processors": 1, "tasks": [{"name": "a", "processor": 1, "period": 10, "deadline": 3, "cost": 2}]}

# what the tables are, more words, and the set that they make
MADE: list[tuple[str, Optional[str], list[str], dict[str, Any]]] = [
    (TASKS, REQUESTS, [], AS_SET),
    # as spreadsheets write it, with columns in another order
    ("\ufeffcost;task;period;processor\r\n2; a ;10;1\r\n;;;\r\n5;b;20;2\r\n", REQUESTS.replace(",", "\t"), [], AS_SET),
    ("task,processor,period,cost\nb,2,20,5\na,1,10,2\n", REQUESTS, ["--order", "period"], AS_SET),
    ("task,processor,period,cost,deadline\nb,2,20,5,9\na,1,10,2,\n", None, ["--order", "deadline", "--processors", "3"], {"processors": 3, "tasks": [
        {"name": "b", "processor": 2, "period": 20, "deadline": 9, "cost": 5}, {"name": "a", "processor": 1, "period": 10, "cost": 2}]}),
    # 10.9 and 3.9 are rounded down, 1.1 up
    ("task,processor,period,cost,deadline,jitter\na,1,10.9,1.1,3.9,\n", None, ["--ticks-per-unit", "1"], ALONE),
]
ROUNDED = "periods and deadlines are rounded down to whole ticks, costs, local limits, lengths and jitters up"
# what spreadsheets of several countries write, with more words, and the set that comes of it at a tick of a microsecond
SPREADSHEETS: list[tuple[str, Optional[str], list[str], dict[str, Any]]] = [
    ("Task;Processor;Period [ms];Cost [us]\na;1;10;1,5\n", "TASK;Resource;COUNT;Length (ns)\na;q;1;900\n", ["--tick", "1us"], {
        "processors": 1, "resources": [{"name": "q"}],
        "tasks": [{"name": "a", "processor": 1, "period": 10000, "cost": 2, "requests": [{"resource": "q", "count": 1, "length": 1}]}]}),
    ("task;processor;period;cost;deadline\na;1;10,9;1,1;3,9\n", None, ["--ticks-per-unit", "1"], ALONE),
    ("task;processor;period;cost;deadline\na;1;10.9;1.1;3.95\n", None, ["--ticks-per-unit", "1"], ALONE),
    ("task\tprocessor\tperiod [s]\tcost [ms]\tdeadline [µs]\na\t1\t0.0109\t1.1\t3999\n", None, ["--tick", "1 ms"], ALONE),
]
WRONG_NUMBERS: list[tuple[str, list[str], list[str]]] = [
    # a thousand in one country, and a part of one in another
    ("task;processor;period;cost\na;1;1.000;0.125\n", ["--ticks-per-unit", "1"], [
        "tasks, line 2: period is '1.000', which may be a thousand or a part of one: write 1000 or 1,000"]),
    ("task,processor,period,cost\na,1,\"1,5\",1\n", ["--ticks-per-unit", "1"], ["tasks, line 2: period is '1,5', which is no number"]),
    ("task;processor;period;cost\na;1;1,5;1\n", [], [
        "tasks, line 2: period is '1,5', which is no whole number; --ticks-per-unit says how many ticks are one unit"]),
    ("task,processor,period [ms],cost [h]\na,1,1,1\n", ["--tick", "1us"], ["tasks, line 1: the unit of cost is 'h', and units are s, ms, us and ns"]),
    ("task,processor [s],period [ms],cost\na,1,1,1\n", ["--tick", "1us"], [
        "tasks, line 1: processor is no time, and has the unit 's'", "tasks, line 1: the header names no unit of cost, which --tick needs"]),
    ("task,processor,period [ms],cost [ms]\na,1,1,1\n", ["--ticks-per-unit", "1"], ["tasks, line 1: the header names units; --tick says how long a tick is, as in --tick 1us"]),
    (f"task,processor,period,cost\na,1,{'9' * 40},1\n", ["--ticks-per-unit", "1"], [f"tasks, line 2: period is '{'9' * 40}', which is too long"]),
]
NOT_TASK = "the cost is 0 or above the deadline"
# what the tables are, and the lines that the tool says
REFUSED: list[tuple[str, Optional[str], list[str]]] = [
    (TASKS.replace("cost", "price"), REQUESTS, [
        "tasks, line 1: the header has no column 'cost'",
        "tasks, line 1: the header has a column 'price', and columns are task, processor, period, cost, deadline, local, jitter",
        "requests, line 2: tasks has no task 'a'", "requests, line 3: tasks has no task 'b'"]),
    (TASKS.replace("period", "cost"), None, ["tasks, line 1: the header has no column 'period'", "tasks, line 1: the header has the column 'cost' twice"]),
    (TASKS + "c,1\n\nd,1,,x\n", None, ["tasks, line 4: it has 2 fields, and the header has 4", "tasks, line 6: period is empty"]),
    (TASKS + "c,1,1e3,2.5\n", REQUESTS + "c,q,1,-1,1\n", [
        "tasks, line 4: period is '1e3', which is no whole number",
        "tasks, line 4: cost is '2.5', which is no whole number; --ticks-per-unit says how many ticks are one unit",
        "requests, line 4: length is '-1', which is no whole number",
        "requests, line 4: the home of q is 1 here, and 2 on line 2"]),
    # what the program refuses, by the line that it is of
    (TASKS + "c,1,10,11\n", REQUESTS, [f"tasks, line 4: block report answers 'refused set cost task 3' ({NOT_TASK})"]),
    (TASKS, REQUESTS + "b,r,1,5,\n", [
        "requests, line 4: block report answers 'refused set length request 2 2' (the length is 0 or not below the task's cost)"]),
    (TASKS, REQUESTS + "b,r s,1,1,\n", [
        "requests, line 4: block report answers 'refused set name resource 2' (a name isn't 1 to 32 bytes of `A-Z a-z 0-9 _ . -`)"]),
    ("task,processor,period,cost\n", None, ["tasks: block report answers 'refused set notask' (there is no task)"]),
]


class Tables(ToolCase):
    """Sets of tables."""

    def tables(self, tasks: str, requests: Optional[str]) -> list[Text]:
        """The tables as files of the folder, by the words that name them."""
        self.file("tasks", "").write_bytes(tasks.encode())
        self.file("requests", "").write_bytes((requests or "").encode())
        return ["tasks", *(["requests"] if requests is not None else [])]

    def set(self, *words: Text, **more: Any) -> Any:
        """A run of the tool."""
        return self.tool("set", "tables", *words, **more)

    def test_the_pump_of_the_guide(self) -> None:
        pump = (EXAMPLES / "pump.json").read_text(encoding="utf-8")
        self.assert_ends(self.set(*PUMP), 0, pump, f"block set: {ROUNDED}\n")
        guide = "".join(path.read_text(encoding="utf-8") for path in sorted((TOP / "docs").glob("GUIDE*.md")))
        for name in ("pump-tasks.csv", "pump-requests.csv", "pump.json"):
            self.assertIn((EXAMPLES / name).read_text(encoding="utf-8"), guide, name)

    def test_tables(self) -> None:
        for tasks, requests, words, made in MADE:
            with self.subTest(tasks=tasks, requests=requests):
                ran = self.set(*self.tables(tasks, requests), *words)
                self.assert_ends(ran, 0, err=f"block set: {ROUNDED}\n" if words[:1] == ["--ticks-per-unit"] else "")
                self.assertEqual(json.loads(ran.stdout), made)

    def test_tables_of_spreadsheets(self) -> None:
        for tasks, requests, words, made in SPREADSHEETS:
            with self.subTest(tasks=tasks):
                ran = self.set(*self.tables(tasks, requests), *words)
                self.assert_ends(ran, 0, err=f"block set: {ROUNDED}\n")
                self.assertEqual(json.loads(ran.stdout), made)

    def test_cycles(self) -> None:
        # at 3 cycles a tick: periods and deadlines down, all other times up, and a tick more in each cost
        tables = self.tables("task,processor,period,cost,deadline,local,jitter\na,1,100,10,95,7,4\n", "task,resource,count,length\na,q,1,2\n")
        asked = {"resource": "q", "count": 1, "length": 1}
        one = {"name": "a", "processor": 1, "period": 33, "deadline": 31, "cost": 4, "local": 3, "jitter": 2, "requests": [asked]}
        ran = self.set(*tables, "--cycles-per-tick", 3)
        self.assert_ends(ran, 0, err=f"block set: {ROUNDED}\n")
        self.assertEqual(json.loads(ran.stdout)["tasks"], [one])
        ran = self.set(*tables, "--cycles-per-tick", 3, "--spare-tick")
        self.assert_ends(ran, 0, err=f"block set: {ROUNDED}; a tick is added to each cost\n")
        self.assertEqual(json.loads(ran.stdout)["tasks"], [{**one, "cost": 5}])
        ran = self.set(*self.tables(TASKS, None), "--spare-tick")
        self.assert_ends(ran, 0, err="block set: a tick is added to each cost\n")
        self.assertEqual([task["cost"] for task in json.loads(ran.stdout)["tasks"]], [3, 6])

    def test_wrong_options_come_before_any_work(self) -> None:
        self.assert_words(self.set("none", "--tick", "1us", "--ticks-per-unit", 5), "--ticks-per-unit and --tick are not given together")
        self.assert_words(self.set("none", "--tick", "1 h"), "--tick is '1 h', which is no time like 1us; units are s, ms, us and ns")
        self.assert_words(self.set("none", "--tick", "0us"), "--tick is '0us'")
        self.assert_words(self.set("none", "--cycles-per-tick", 0), "0 isn't from 1 on")

    def test_wrong_tables(self) -> None:
        for tasks, requests, lines in REFUSED:
            with self.subTest(tasks=tasks, requests=requests):
                self.assert_refused(self.set(*self.tables(tasks, requests)), 3, "set", lines)
        for tasks, words, lines in WRONG_NUMBERS:
            with self.subTest(tasks=tasks):
                self.assert_refused(self.set(*self.tables(tasks, None), *words), 3, "set", lines)

    def test_outputs(self) -> None:
        tables = self.tables(TASKS, REQUESTS)
        self.assertEqual(self.assert_done(self.set(*tables, "--output", "made")), "")
        self.assertEqual(json.loads((self.folder / "made").read_text(encoding="utf-8")), AS_SET)
        self.assert_words(self.set(*tables, "--output", "tasks"), "tasks is given for --output and for TASKS: nothing is written over")
        said = "none/made can't be written: No such file or directory"
        self.assert_refused(self.set(*tables, "--output", "none/made"), 4, "set", [said])

    def test_what_is_missing(self) -> None:
        self.assert_refused(self.set("none"), 4, "set", ["none can't be read: No such file or directory"])
        self.assert_words(self.set("none", "--ticks-per-unit", "0"), "0 isn't from 1 on")
        self.assert_words(self.tool("set", "none"), "the forms of set are:")
        none = self.folder / "no program"
        said = f"{none} is missing: ./block builds the program, or give --program FILE"
        self.assert_refused(self.set(*self.tables(TASKS, REQUESTS), program=none), 70, "set", [said])

    def test_a_set_that_the_program_does_not_take(self) -> None:
        tables = self.tables("task,processor,period,cost\na,1,10,11\n", None)
        self.assertEqual(json.loads(self.assert_done(self.set(*tables, "--unjudged")))["tasks"], [{"name": "a", "processor": 1, "period": 10, "cost": 11}])


# a and c share q, and e runs on the home of r, which only b requests; d is alone
WHOLE = task_set(
    9, [resource("q", 2), resource("r", 7), resource("nobody", 1)],
    task("a", 2, 10, 3, ("q", 1)), task("b", 4, 20, 3, ("r", 1)), task("c", 5, 30, 3, ("q", 2)), task("d", 9, 40, 3), task("e", 7, 50, 3),
)


class Split(ToolCase):
    """Sets in parts."""

    def split(self, *words: Text) -> Any:
        """What the tool writes as JSON."""
        return json.loads(self.assert_done(self.tool("set", "split", *words, "--json")))

    def test_parts(self) -> None:
        found = self.split(self.file("whole", WHOLE))
        self.assertEqual([(one["tasks"], one["processors"]) for one in found], [(["a", "c"], [2, 5]), (["b", "e"], [4, 7]), (["d"], [9])])
        self.assertEqual(found[1]["set"], {"processors": 2, "resources": [{"name": "r", "home": 2}], "tasks": [
            task("b", 1, 20, 3, ("r", 1)), task("e", 2, 50, 3)]})
        self.assertEqual(found[2]["set"], {"processors": 1, "tasks": [task("d", 1, 40, 3)]})

    def test_parts_without_homes(self) -> None:
        found = self.split(self.file("whole", WHOLE), "--without-homes")
        self.assertEqual([(one["tasks"], one["processors"]) for one in found], [(["a", "c"], [2, 5]), (["b"], [4]), (["d"], [9]), (["e"], [7])])
        self.assertEqual(found[1]["set"]["resources"], [{"name": "r"}])

    def test_a_home_without_tasks_joins_who_uses_it(self) -> None:
        whole = task_set(3, [resource("q", 3), resource("r", 3)], task("a", 1, 10, 3, ("q", 1)), task("b", 2, 20, 3, ("r", 1)))
        found = self.split(self.file("whole", whole))
        self.assertEqual([(one["tasks"], one["processors"]) for one in found], [(["a", "b"], [1, 2, 3])])

    def test_parts_have_the_bounds_of_the_whole(self) -> None:
        whole = self.file("whole.json", WHOLE)
        self.tool("set", "split", whole, "part.json")
        for protocol in WORDS:
            bounds = dict(zip("abcde", json.loads(self.block("analyse", protocol, whole).stdout)["bounds"]))
            for number, names in enumerate(("ac", "be", "d"), 1):
                with self.subTest(protocol=protocol, part=number):
                    part = json.loads(self.block("analyse", protocol, f"part-{number}.json").stdout)["bounds"]
                    self.assertEqual(dict(zip(names, part)), {name: bounds[name] for name in names})

    def test_a_set_that_is_too_large(self) -> None:
        tasks = [task(f"t{k}", k // 2 + 1, 10, 2) for k in range(200)]
        whole = self.file("whole.json", task_set(100, [], *tasks))
        self.assertEqual(self.block("report", "mpcp", whole).stdout, "refused set size processors\n")
        listed = self.assert_done(self.tool("set", "split", whole, "part.json")).splitlines()
        self.assertEqual((len(listed), listed[0], listed[99]), (100, "part 1: 2 tasks on processors 1: t0, t1", "part 100: 2 tasks on processors 100: t198, t199"))
        self.assertEqual(json.loads((self.folder / "part-100.json").read_text(encoding="utf-8"))["tasks"][0]["processor"], 1)

    def test_a_part_that_is_too_large(self) -> None:
        whole = self.file("whole", task_set(1, [], *[task(f"t{k}", 1, 100, 1) for k in range(65)]))
        ran = self.tool("set", "split", whole, "part")
        self.assertEqual((ran.returncode, ran.stdout, [path.name for path in self.folder.iterdir()]), (3, "", ["whole"]))
        self.assertIn("part-1: block report answers 'refused set size tasks'", ran.stderr)

    def test_what_is_no_set(self) -> None:
        self.assert_ends(self.tool("set", "split", self.file("none", "[]")), 3, "")
        twice = self.file("twice", task_set(1, [], task("a", 1, 10, 2), task("a", 1, 10, 2)))
        self.assert_ends(self.tool("set", "split", twice), 3, "")
        self.assert_words(self.tool("set", "split", twice, twice), "nothing is written over")
