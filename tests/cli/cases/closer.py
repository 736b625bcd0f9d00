"""Closer analyses, in each command that takes a protocol."""
from bounds import audited, bounded
from setting import TOP, Case, runs_on
from sets import PAIR, PAIR_FULL_TABLE, PAIR_JOBS, PAIR_MEASURED, PAIR_ROWS, PAIR_SIMULATED, certificate, old, refusal, resource, step, task, task_set, tied

SHIPPED = (TOP / "examples" / "closer.json").read_text()
PAIR_CERTIFICATE = certificate("fmlp+-c", [5, 5], [[2, 0, 0, 0, 0], [1, 0, 0, 0, 0]])

# two tasks of one processor that request what nothing else does, the lower one twice
ALONE = task_set(1, [resource("q")], task("t1", 1, 20, 3, ("q", 1)), task("t2", 1, 100, 10, ("q", 3, 2)))
ALONE_CERTIFICATE = certificate("fmlp+-c", [6, 13], [[0, 0, 0, 0, 0, 0, 3, 0, 0], []], ALONE)
TIGHT = ALONE.replace('"cost": 3,', '"cost": 3, "deadline": 8,')
TIGHTER = ALONE.replace('"cost": 3,', '"cost": 3, "deadline": 5,')

# of each further kind of rows a set in which one bound falls by that kind alone, with the bounds under FMLP+ and by the closer analysis
THIRD = task("t4", 3, 200, 10, ("q", 1), ("s", 1))
KINDS = {
    "holders": (
        task_set(3, [resource("r"), resource("s"), resource("q")],
                 task("t1", 1, 100, 10, ("r", 1), ("s", 1)), task("t2", 2, 200, 10, ("r", 1)), task("t3", 2, 200, 20, ("q", 3), ("r", 3)), THIRD),
        [18, 17, 32, 15], [15, 17, 32, 15]),
    "other holders": (
        task_set(3, [resource("r"), resource("s"), resource("q")],
                 task("t1", 1, 100, 10, ("r", 1), ("s", 1)), task("t2", 2, 200, 10, ("r", 1)), task("t3", 2, 200, 20, ("q", 3, 2), ("s", 1)), task("t4", 3, 200, 10, ("q", 1))),
        [17, 17, 32, 14], [15, 17, 32, 14]),
    "lower tasks": (
        task_set(2, [resource("q")], task("t1", 1, 100, 10, ("q", 1)), task("t2", 1, 200, 20, ("q", 3, 4)), task("t3", 2, 200, 10, ("q", 1))),
        [20, 31, 14], [17, 31, 14]),
    "local preemption": (
        task_set(1, [resource("r")], task("t1", 1, 100, 10), task("t2", 1, 200, 20, ("r", 3)), task("t3", 1, 300, 20, ("r", 4))),
        [17, 34, 50], [14, 34, 50]),
    "local waits": (
        task_set(2, [resource("r"), resource("s")], task("t1", 1, 200, 10, ("r", 1), ("s", 1)), task("t2", 1, 400, 30, ("r", 5, 3), ("s", 1)),
                 task("t3", 1, 400, 30, ("r", 5, 3), ("s", 1)), task("t4", 2, 400, 10, ("s", 1))),
        [43, 57, 71, 21], [23, 51, 71, 13]),
    "local runners": (
        task_set(2, [resource("r"), resource("q")], task("t1", 1, 100, 10, ("r", 1)), task("t2", 2, 200, 10, ("r", 1)), task("t3", 2, 200, 20, ("q", 3))),
        [14, 14, 30], [11, 14, 30]),
}

# the same under MPCP
CEILED = (task("t1", 3, 100, 5, ("q", 1)), task("t2", 1, 110, 5, ("s", 1), ("u", 1)), task("t3", 1, 300, 10, ("q", 1), ("r", 1)))
OTHERS = (task("t5", 2, 500, 10, ("r", 1)), task("t6", 2, 600, 10, ("q", 1)))
FOUR = [resource("q"), resource("r"), resource("s"), resource("u")]
ABOVE = (task("t3", 2, 120, 10, ("q", 1), ("r", 1)), task("t4", 1, 300, 10, ("q", 1), ("r", 1)))
AWAY = task_set(2, [resource("q")], task("t1", 2, 100, 15, ("q", 5, 2)), task("t2", 1, 200, 6, ("q", 4)))
MPCP_KINDS = {
    "shared holdings": (task_set(3, FOUR, *CEILED, task("t4", 2, 400, 31, ("s", 4), ("u", 4)), *OTHERS), [6, 16, 26, 36, 44, 53], [6, 16, 22, 36, 44, 53]),
    "holdings by resource": (
        task_set(3, FOUR, task("t1", 3, 100, 5, ("q", 1), ("u", 1)), task("t2", 1, 110, 5, ("s", 1)), task("t3", 1, 300, 10, ("q", 1), ("r", 1)),
                 task("t4", 2, 400, 31, ("s", 4, 2), ("u", 1)), *OTHERS),
        [8, 12, 26, 36, 44, 53], [8, 12, 23, 36, 44, 53]),
    "away holdings": (AWAY, [19, 16], [19, 11]),
    "shared intervals": (
        task_set(2, [resource("q"), resource("r")], task("t1", 1, 100, 4, ("r", 1, 2)), task("t2", 2, 200, 6, ("q", 4)), task("t3", 2, 300, 6, ("r", 2, 2))),
        [8, 10, 14], [8, 8, 14]),
    "local preemption": (
        task_set(1, [resource("q")], task("t1", 1, 100, 5), task("t2", 1, 200, 13, ("q", 3)), task("t3", 1, 300, 5, ("q", 4))),
        [12, 22, 23], [9, 22, 23]),
    "lower waits": (
        task_set(2, [resource("q")], task("t1", 2, 100, 10, ("q", 1)), task("t2", 1, 100, 10, ("q", 1)), task("t3", 1, 200, 30, ("q", 5, 5))),
        [15, 26, 41], [15, 21, 41]),
    "shared holdings by a higher task": (
        task_set(3, FOUR, task("t1", 3, 100, 5, ("q", 1)), task("t2", 3, 110, 5, ("s", 1), ("u", 1)), *ABOVE, task("t5", 2, 400, 31, ("s", 4), ("u", 4))),
        [8, 19, 21, 21, 44], [8, 19, 21, 17, 44]),
    "holdings by resource, by a higher task": (
        task_set(3, FOUR, task("t1", 3, 100, 5, ("q", 1), ("u", 1)), task("t2", 3, 110, 5, ("s", 1)), *ABOVE, task("t5", 2, 400, 31, ("s", 4, 2), ("u", 1))),
        [9, 15, 22, 21, 44], [9, 15, 22, 18, 44]),
}

# of each further kind of rows a set and a lawful schedule that meets a row of it with equality, and with it the proved bound: its jobs, its
# rows, and what an audit says
MET = {
    "holders": (
        KINDS["holders"][0], "t1,1,1 r:1 1 s:1 6\nt2,1,1 r:1\nt3,0,1 q:3\nt4,0,1 q:1 6 s:1\n",
        "1,,3,4,,,\n1,1,2,4,,,4\n3,,3,4,2,,3\n1,,2,4,2,,\n1,1,,4,1,,\n1,1,,4,,,\n1,,,4,,4,\n1,1,,,,1,\n6,1,,,,,\n",
        "kept 16\nt1 15 15 5 5 2 3 0\nt2 5 17 3 7 0 0 3\nt3 5 32 0 2 0 0 0\nt4 9 15 0 5 0 0 0\n"),
    "other holders": (
        KINDS["other holders"][0], "t1,1,1 r:1 1 s:1 6\nt2,1,1 r:1\nt3,0,1 q:3 2 s:1\nt4,0,1 q:1\n",
        "1,,3,4,,,\n1,1,2,4,,,4\n3,,3,,2,,3\n1,,2,,2,,\n1,1,3,,1,,\n1,1,3,,,,\n1,,3,,,3,\n1,1,,,,1,\n6,1,,,,,\n",
        "kept 16\nt1 15 15 5 5 2 3 0\nt2 5 17 3 7 0 0 3\nt3 9 32 0 2 0 0 0\nt4 2 14 0 4 0 0 0\n"),
    "lower tasks": (
        KINDS["lower tasks"][0], "t1,1,1 q:1 8\nt2,0,1 q:3 1 q:3\nt3,4,1 q:1\n",
        "1,2,,\n3,2,,2\n1,1,3,\n1,2,3,3\n1,1,,1\n3,2,,2\n8,1,,\n",
        "kept 18\nt1 17 17 7 7 1 0 6\nt2 10 31 0 1 0 0 0\nt3 2 14 0 4 0 0 0\n"),
    "local preemption": (
        KINDS["local preemption"][0], "t1,1,10\nt3,0,1 r:4\n", "1,2,\n4,2,2\n10,1,\n",
        "kept 15\nt1 14 14 4 4 0 0 4\nt2 - 34 0 4 0 0 0\nt3 5 50 0 0 0 0 0\n"),
    # t1 requests q, and never waits for it
    "local waits": (
        ALONE, "t1,1,1 q:1 1\nt2,0,1 q:3\n", "1,2,\n3,2,2\n1,1,\n1,1,1\n1,1,\n", "kept 7\nt1 6 6 3 3 0 0 3\nt2 4 13 0 0 0 0 0\n"),
    # t1 waits for r, and q never runs in its holder's place
    "local runners": (
        KINDS["local runners"][0], "t1,4,1 r:1 8\nt2,1,1 r:1\nt3,0,1 q:3\n", "1,,3,,\n3,,3,,3\n1,1,2,,\n1,,2,2,\n1,1,,1,\n8,1,,,\n",
        "kept 15\nt1 11 11 1 1 1 0 0\nt2 5 14 3 4 0 0 3\nt3 4 30 0 0 0 0 0\n"),
}
MPCP_MET = {
    "shared holdings": (
        MPCP_KINDS["shared holdings by a higher task"][0], "t1,8,1 q:1\nt2,0,1 s:1\nt3,1,1 r:1 2 q:1\nt4,1,1 r:1 1 q:1 6\nt5,0,1 s:4\n",
        "1,,5,2,,,,\n1,4,3,2,,,2,\n4,,5,,,3,5,\n1,,3,,,3,,\n1,4,3,,,4,,\n1,4,3,1,,,,\n1,,,1,1,,,\n1,,3,,3,,,\n1,4,,,4,,,\n6,4,,,,,,\n",
        "kept 18\nt1 2 8 0 3 0 0 0\nt2 2 19 0 9 0 0 0\nt3 10 21 5 11 1 0 4\nt4 17 17 7 7 3 4 0\nt5 6 44 0 3 0 0 0\n"),
    "holdings by resource": (
        MPCP_KINDS["holdings by resource, by a higher task"][0], "t1,8,1 q:1\nt2,0,1 s:1\nt3,1,1 r:1 2 q:1\nt4,1,1 r:1 1 q:1 6\nt5,0,1 s:4 1 u:1\n",
        "1,,5,2,,,,\n1,4,3,2,,,2,\n4,,5,,,3,5,\n1,,3,,,3,,\n1,4,3,,,4,,\n1,4,3,1,,,,\n1,,5,1,1,,,\n1,,5,,3,,,5\n1,,3,,3,,,\n1,4,,,4,,,\n6,4,,,,,,\n",
        "kept 19\nt1 2 9 0 4 0 0 0\nt2 2 15 0 5 0 0 0\nt3 11 22 6 12 1 0 5\nt4 18 18 8 8 3 5 0\nt5 11 44 0 3 0 0 0\n"),
    "away holdings": (
        AWAY, "t1,0,1 q:5\nt2,0,1 q:4 1\n", "1,2,1,\n5,,1,1\n4,2,,2\n1,2,,\n", "kept 11\nt1 6 19 0 4 0 0 0\nt2 11 11 5 5 5 0 0\n"),
    "shared intervals": (
        MPCP_KINDS["shared intervals"][0], "t2,1,1 q:4 1\nt3,0,1 r:2\n", "1,,2,,\n2,,2,,2\n1,,1,,\n4,,1,1,\n1,,1,,\n",
        "kept 9\nt1 - 8 0 4 0 0 0\nt2 8 8 2 2 0 0 2\nt3 3 14 0 2 0 0 0\n"),
    "local preemption": (
        MPCP_KINDS["local preemption"][0], "t1,1,5\nt3,0,1 q:4\n", "1,2,\n4,2,2\n5,1,\n",
        "kept 10\nt1 9 9 4 4 0 0 4\nt2 - 22 0 4 0 0 0\nt3 5 23 0 0 0 0 0\n"),
    # t2 waits for t1's request, and never for one of t3
    "lower waits": (
        MPCP_KINDS["lower waits"][0], "t1,6,1 q:1\nt2,1,1 q:1 8\nt3,0,1 q:5 1 q:5\n",
        "1,3,,\n5,3,,3\n1,2,1,\n1,3,1,1\n1,2,,2\n5,3,,3\n8,2,,\n",
        "kept 22\nt1 2 15 0 5 0 0 0\nt2 21 21 11 11 1 0 10\nt3 14 41 0 1 0 0 0\n"),
}
MPCP_PAIR = certificate("mpcp-c", [5, 5], [[2, 0, 0, 0], [1, 0, 0, 0]])
AWAY_LATE = AWAY.replace('"cost": 6,', '"cost": 6, "deadline": 11,')
AWAY_TOO_LATE = AWAY.replace('"cost": 6,', '"cost": 6, "deadline": 10,')

run = runs_on(PAIR)


ANALYSES = [
    *(case for kind, (text, plain, closer) in KINDS.items() for case in (bounded(kind, "fmlp+", plain, text), bounded(kind, "fmlp+-c", closer, text))),
    *(case for kind, (text, plain, closer) in MPCP_KINDS.items() for case in (bounded(kind, "mpcp", plain, text), bounded(kind, "mpcp-c", closer, text))),
    run("a resource of one processor", "analyse fmlp+-c", ALONE_CERTIFICATE, 0, ALONE),
    run("the same under FMLP+", "analyse fmlp+", certificate("fmlp+", [9, 13], [[3, 0, 0, 0, 0], []], ALONE), 0, ALONE),
    run("what the closer analysis alone shows", "analyse fmlp+-c", certificate("fmlp+-c", [6, 13], [[0, 0, 0, 0, 0, 0, 3, 0, 0], []], TIGHT), 0, TIGHT),
    run("and FMLP+ doesn't", "analyse fmlp+", "not shown t1 9 8\n", 1, TIGHT),
    run("a pair on two processors, as under FMLP+", "analyse fmlp+-c", PAIR_CERTIFICATE),
    bounded("the example", "fmlp+-c", [5, 16, 37, 60, 36], SHIPPED),
    run("the example under FMLP+", "analyse fmlp+", "not shown control 35 16\n", 1, SHIPPED),
    run("under MPCP", "analyse mpcp", "not shown control 19 16\n", 1, SHIPPED),
    bounded("the example", "mpcp-c", [5, 16, 40, 60, 36], SHIPPED),
    bounded("what the closer analysis alone shows", "mpcp-c", [19, 11], AWAY_LATE),
    run("and MPCP doesn't", "analyse mpcp", "not shown t2 16 11\n", 1, AWAY_LATE),
    run("a pair on two processors, as under MPCP", "analyse mpcp-c", MPCP_PAIR),
    run("and under spin locks", "analyse spin", "not shown sample 8 5\n", 1, SHIPPED),
]

CERTIFICATES = [
    run("its certificate", "check fmlp+-c", "valid\n", 0, ALONE, cert=ALONE_CERTIFICATE),
    run("not under FMLP+", "check fmlp+", "refused cert otherprotocol\n", 3, ALONE, cert=ALONE_CERTIFICATE),
    run("nor with the word of FMLP+", "check fmlp+", "invalid dualsize t1\n", 1, ALONE, cert=ALONE_CERTIFICATE.replace("fmlp+-c", "fmlp+")),
    run("the bounds of FMLP+, with duals that are 0 at closer rows", "check fmlp+-c", "valid\n", 0, ALONE,
        cert=certificate("fmlp+-c", [9, 13], [[3, 0, 0, 0, 0, 0, 0, 0, 0], []], ALONE)),
    run("no bound below what local preemption lets be", "check fmlp+-c", "invalid small t1\n", 1, ALONE,
        cert=certificate("fmlp+-c", [5, 13], [[0, 0, 0, 0, 0, 0, 3, 0, 0], []], ALONE)),
    run("a dual that leaves preemption to local waits", "check fmlp+-c", "invalid cover t1 2\n", 1, ALONE,
        cert=certificate("fmlp+-c", [6, 13], [[0, 0, 0, 0, 0, 0, 0, 0, 3], []], ALONE)),
    run("a certificate of another set", "check fmlp+-c", "invalid otherset\n", 1, PAIR, cert=tied(PAIR_CERTIFICATE, ALONE)),
    run("a certificate without a digest", "upgrade fmlp+-c", PAIR_CERTIFICATE, 0, PAIR, old=old(PAIR_CERTIFICATE)),
    run("the table with bounds", "report fmlp+-c", PAIR_FULL_TABLE, cert=PAIR_CERTIFICATE),
    run("a refusal", "refute fmlp+-c", refusal("fmlp+-c", TIGHTER, step(1, 6, 0, 1)), 0, TIGHTER),
    run("confirmed", "confirm fmlp+-c", "confirmed\n", 0, TIGHTER, cert=refusal("fmlp+-c", TIGHTER, step(1, 6, 0, 1))),
    run("a point at which t1 waits", "confirm fmlp+-c", "invalid step 1 row 6\n", 1, TIGHTER, cert=refusal("fmlp+-c", TIGHTER, step(1, 6, 1, 0))),
    run("MPCP's of a pair", "check mpcp-c", "valid\n", cert=MPCP_PAIR),
    run("not under MPCP", "check mpcp", "refused cert otherprotocol\n", 3, cert=MPCP_PAIR),
    Case("what the closer analysis of MPCP shows", "check mpcp-c set cert", "valid\n", 0, {"set": AWAY_LATE}, before=(("analyse mpcp-c set", "cert"),)),
    Case("what it refuses", "confirm mpcp-c set cert", "confirmed\n", 0, {"set": AWAY_TOO_LATE}, before=(("refute mpcp-c set", "cert"),)),
    run("what FMLP+ refuses", "confirm fmlp+-c", "invalid step 1 row 6\n", 1, TIGHT, cert=refusal("fmlp+-c", TIGHT, step(1, 9, 1, 1))),
]

SCHEDULES = [
    run("what FMLP+ allows", "conform fmlp+-c", PAIR_MEASURED, 0, jobs=PAIR_JOBS, rows=PAIR_ROWS),
    Case("the schedule that FMLP+ chooses", "simulate fmlp+-c set jobs 5", PAIR_SIMULATED, 0, {"set": PAIR, "jobs": PAIR_JOBS}),
    run("what MPCP allows", "conform mpcp-c", "lawful 5\nt1 1 3 0\nt2 1 5 1\n", 0, jobs=PAIR_JOBS, rows=PAIR_SIMULATED),
    run("and what not", "conform mpcp-c", "broken 1 grant\n", 1, jobs=PAIR_JOBS, rows=PAIR_ROWS),
    Case("the schedule that MPCP chooses", "simulate mpcp-c set jobs 5", PAIR_SIMULATED, 0, {"set": PAIR, "jobs": PAIR_JOBS}),
    run("what MPCP charged beside what is proved", "audit mpcp-c", "kept 5\nt1 3 5 0 2 0 0 0\nt2 5 5 1 1 1 0 0\n", 0,
        cert=MPCP_PAIR, jobs=PAIR_JOBS, rows=PAIR_SIMULATED),
    run("what was charged beside what is proved", "audit fmlp+-c", "kept 5\nt1 5 5 2 2 2 0 0\nt2 4 5 0 1 0 0 0\n", 0,
        cert=PAIR_CERTIFICATE, jobs=PAIR_JOBS, rows=PAIR_ROWS),
    *(audited(kind, "fmlp+-c", *schedule) for kind, schedule in MET.items()),
    *(audited(kind, "mpcp-c", *schedule) for kind, schedule in MPCP_MET.items()),
]

WORDS = [
    run("the word with a capital", "analyse fmlp+-C", "refused words\n", 2),
    run("the word without its plus", "check fmlp-c", "refused words\n", 2, cert=PAIR_CERTIFICATE),
]

CASES = ANALYSES + CERTIFICATES + SCHEDULES + WORDS
