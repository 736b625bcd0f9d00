"""Recordings of machines: events become the jobs and rows that the rules of docs/RECORDING.md ask for.

The expected files are worked out by hand, by these rules. The recording of examples/ becomes the files that stand beside it, and the
program judges it as lawful, and within the bounds of its certificate.
"""
from __future__ import annotations

from cizborg import ftrace, recording
from cizborg.program import set_of as set_in
from sets import resource, set_of, task
from tests.workbench.setting import EXAMPLES, ToolCase

ALONE = set_of(1, [], task("high", 1, 100, 9), task("low", 1, 100, 20))
SHARED = set_of(2, [resource("q")], task("t1", 1, 100, 20, ("q", 9)), task("t2", 2, 100, 20, ("q", 9)))

# `high` is released at 50, and `low` is seen until 53
PREEMPTED = """0,1,low,release,
2,1,low,start,
53,1,low,stop,
50,1,high,release,
55,1,high,start,
85,1,high,stop,
85,1,high,finish,
87,1,low,start,
120,1,low,stop,
120,1,low,finish,
"""
# `t2` waits from 30 on, is granted at 55 as `t1` ends its request, which is noted at 58, and is seen from 61 on
HANDED_ON = """0,1,t1,release,
0,1,t1,start,
20,1,t1,issue,q
20,1,t1,grant,q
55,1,t1,end,q
80,1,t1,stop,
80,1,t1,finish,
0,2,t2,release,
0,2,t2,start,
30,2,t2,issue,q
30,2,t2,stop,
58,2,t2,grant,q
61,2,t2,start,
90,2,t2,end,q
100,2,t2,finish,
100,2,t2,stop,
"""
# at the last event `t1` is in its request, and a job of `t2` hasn't run yet, which arrived at 15
OPEN = """0,1,t1,release,
4,1,t1,start,
20,1,t1,issue,q
21,1,t1,grant,q
15,2,t2,arrive,
35,2,t2,release,
"""

HEADER = "time,processor,task,what,resource\n"
JOBS = "task,arrival,release,script\n"

# a set, its events, a tick, a latency, and the jobs and rows that follow by the rules
RECORDED = [
    ("a switch counts from its cause", ALONE, PREEMPTED, 10, 5, "low,0,0,8\nhigh,5,5,4\n", "ticks,P1\n5,1\n4,2\n3,1\n"),
    ("but not behind what was seen for longer than the latency", ALONE, PREEMPTED, 10, 2, "low,0,0,9\nhigh,5,5,3\n", "ticks,P1\n6,1\n3,2\n3,1\n"),
    ("a shorter tick", ALONE, PREEMPTED, 5, 5, "low,0,0,17\nhigh,10,10,7\n", "ticks,P1\n10,1\n7,2\n7,1\n"),
    ("a request is handed on at its end", SHARED, HANDED_ON, 10, 5, "t1,0,0,2 q:4 2\nt2,0,0,3 q:3 1\n", "ticks,P1,P2,q\n2,1,2,\n1,1,2,1\n3,1,,1\n2,1,2,2\n1,,2,2\n1,,2,\n"),
    ("a grant that is noted later than the latency counts from there", SHARED, HANDED_ON, 5, 1, "t1,0,0,4 q:7 5\nt2,0,0,6 q:6 2\n", "ticks,P1,P2,q\n4,1,2,\n2,1,2,1\n5,1,,1\n1,1,,\n4,1,2,2\n2,,2,2\n2,,2,\n"),
    ("what isn't over stays open", SHARED, OPEN, 10, 5, "t1,0,0,2 q:3\nt2,2,4,1\n", "ticks,P1,P2,q\n2,1,,\n2,1,,1\n"),
    ("nothing happened", ALONE, "", 10, 5, "", "ticks,P1\n"),
]

# events that are no recording, and why
REFUSED = [
    ("0,1,high\n", "line 1 has 3 fields in place of 5"),
    ("x,1,high,release,\n", "line 1 has no time, or a processor that the set hasn't"),
    ("0,2,high,release,\n", "line 1 has no time, or a processor that the set hasn't"),
    ("0,1,other,release,\n", "line 1 names no task of the set: other"),
    ("0,1,high,begin,\n", "line 1 says 'begin', which is none of arrive, release, start, stop, finish, issue, grant, end"),
    ("0,1,high,issue,q\n", "line 1 has another resource than 'issue' asks for: 'q'"),
    ("0,1,high,start,\n", "high has 'start' at 0 where it can't come"),
    ("0,1,high,release,\n5,1,high,start,\n6,1,high,start,\n", "high has 'start' at 6 where it can't come"),
    ("0,1,high,release,\n5,1,high,stop,\n", "high has 'stop' at 5 where it can't come"),
    ("0,1,high,release,\n0,1,low,release,\n0,1,high,start,\n20,1,high,stop,\n5,1,low,start,\n30,1,low,stop,\n", "two jobs execute on processor 1 at 5"),
    ("1,1,high,release,\n2,1,high,start,\n4,1,high,stop,\n4,1,high,finish,\n", "a job released at 1 has a section from 1 to 4 without a tick: take a shorter tick"),
]

TRACED = """time,processor,task,what,resource
0,2,log,release,
0,1,send,release,
11000,2,log,start,
24000,1,send,start,
1020000,2,log,issue,bus
1021000,2,log,grant,bus
2030000,1,send,issue,bus
2034000,1,send,stop,
4020000,2,log,end,bus
4022000,2,send,grant,bus
4031000,1,send,start,
5020000,2,log,finish,
5026000,2,log,stop,
6031000,1,send,end,bus
7030000,1,send,finish,
7035000,1,send,stop,
"""
TRACED_ROWS = "ticks,P1,P2,bus\n2,1,2,\n1,1,2,2\n2,,2,2\n1,1,2,1\n1,1,,1\n1,1,,\n"
TRACED_MEASURED = "lawful 8\nsend 1 8 2\nlog 1 6 0\n"


RECORDED_SET, EVENTS, CERTIFICATE = (EXAMPLES / f"recorded{end}" for end in (".json", "-events.csv", "-certificate.json"))
JOBS_FILE, ROWS_FILE = (EXAMPLES / f"recorded-{name}.csv" for name in ("jobs", "rows"))
TOLD = """block record: 30505 ticks
block record: 29 switches, of which the longest took 68545 ns
block record: 310 stops of a job to which no other came, of which the longest took 122852 ns
block record: 1 times a job was seen on its processor behind the cause of a switch, for 5264 ns at most
block record: 0 times for longer than the latency, for 0 ns at most
block record: 0 sections went on behind their last row, where the rows may break a rule that the machine kept: a shorter tick has fewer
"""


def refusal_of(text: str) -> str:
    """Why events of the set with one processor are refused."""
    try:
        recording.recorded(ALONE, text, 10, 5)
    except recording.Refused as why:
        return str(why)
    return "nothing"


class Rules(ToolCase):
    """Events by the rules."""

    def test_rows(self) -> None:
        for shows, parts, events, tick, latency, jobs, rows in RECORDED:
            with self.subTest(shows):
                made = recording.recorded(parts, HEADER + events, tick, latency)
                self.assertEqual((made.jobs, made.rows), (JOBS + jobs, rows))

    def test_a_section_that_goes_on_behind_its_last_row_is_counted(self) -> None:
        # `low` is stopped at 19 within its first section, and ends it at 38, before the instant at 40
        events = "0,1,low,release,\n0,1,low,start,\n19,1,low,stop,\n19,1,high,release,\n19,1,high,start,\n36,1,high,stop,\n36,1,high,finish,\n36,1,low,start,\n38,1,low,stop,\n38,1,low,finish,\n"
        made = recording.recorded(ALONE, HEADER + events, 10, 5)
        self.assertEqual((made.rows, made.counts.behind), ("ticks,P1\n2,1\n2,2\n", 1))

    def test_refused_events(self) -> None:
        for events, why in REFUSED:
            with self.subTest(events):
                self.assertEqual(refusal_of(HEADER + events), why)
        self.assertEqual(refusal_of("time,task\n"), "the first line isn't time,processor,task,what,resource")


class Shipped(ToolCase):
    """The recordings of examples/, by the tool."""

    def test_events(self) -> None:
        self.assert_ends(self.tool("record", "rows", RECORDED_SET, EVENTS, "10us", "jobs", "rows"), 0, "", TOLD)
        written = [(self.folder / name).read_text() for name in ("jobs", "rows")]
        self.assertEqual(written, [JOBS_FILE.read_text(), ROWS_FILE.read_text()])

    def test_the_program_judges_them(self) -> None:
        self.assertEqual(self.block("conform", "fmlp+", RECORDED_SET, JOBS_FILE, ROWS_FILE).stdout.partition("\n")[0], "lawful 30505")
        self.assertEqual(self.block("audit", "fmlp+", RECORDED_SET, CERTIFICATE, JOBS_FILE, ROWS_FILE).stdout.partition("\n")[0], "kept 30505")

    def test_trace(self) -> None:
        self.assert_ends(self.tool("record", "trace", EXAMPLES / "traced.json", EXAMPLES / "traced.txt", "events"), 0, "", "")
        self.assertEqual((self.folder / "events").read_text(), TRACED)
        self.tool("record", "rows", EXAMPLES / "traced.json", "events", "1ms", "jobs", "rows")
        self.assertEqual((self.folder / "rows").read_text(), TRACED_ROWS)
        self.assertEqual(self.block("conform", "fmlp+", EXAMPLES / "traced.json", "jobs", "rows").stdout, TRACED_MEASURED)

    def test_processors_have_the_numbers_that_are_given(self) -> None:
        names = [one["name"] for one in set_in(EXAMPLES / "traced.json")["tasks"]]
        events = ftrace.converted((EXAMPLES / "traced.txt").read_text(), names, [1, 0])
        self.assertEqual(events.splitlines()[1], "0,1,log,release,")

    def test_wrong_words(self) -> None:
        self.assert_refused(self.tool("record", "rows", RECORDED_SET, EVENTS, "10", "jobs", "rows"), 2, "record", ["'10' is no time: a whole number and ns, us or ms"])
        self.assert_refused(self.tool("record", "trace", RECORDED_SET, EVENTS, "out", "--processors", "0,1"), 2, "record", ["--processors has to name 3 numbers with commas between them"])

    def test_refused_files(self) -> None:
        self.assert_refused(self.tool("record", "rows", RECORDED_SET, JOBS_FILE, "10us", "jobs", "rows"), 3, "record", ["the first line isn't time,processor,task,what,resource"])
        self.assert_refused(self.tool("record", "rows", "none", EVENTS, "10us", "jobs", "rows"), 3, "record", ["refused set absent"])
