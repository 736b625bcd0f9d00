"""The worked schedules of `crates/worked_sets/src/files.rt`, and long ones: what `conform`, `simulate` and `audit` say of them."""
from setting import Case
from sets import certificate
from worked import FILES

# two tasks on one processor; the higher one's job is released within the request of the lower one's
LONG = """{"processors":1,"resources":[{"name":"q"}],"tasks":[
{"name":"t1","processor":1,"period":1000000000,"cost":50},
{"name":"t2","processor":1,"period":1000000000,"cost":600000000,"requests":[{"resource":"q","count":1,"length":400000000}]}]}"""
LONG_JOBS = "task,release,script\nt2,0,100000000 q:400000000 100000000\nt1,300000000,50\n"
# one task, whose job takes all of 10^9 ticks
WHOLE = '{"processors":1,"resources":[],"tasks":[\n{"name":"t1","processor":1,"period":1000000000,"cost":1000000000}]}'
WHOLE_JOBS, WHOLE_ROWS = "task,release,script\nt1,0,1000000000\n", "ticks,P1\n1000000000,1\n"

TEXTS = {
    **FILES,
    "NO_JOBS": "task,release,script\n",
    "NO_ROWS": "ticks,P1,P2,q\n",
    # the schedule ends while both jobs have ticks left, and the first is blocked at two, or at one
    "PAIR_CUT": "ticks,P1,P2,q\n1,1,2,\n2,,2,2\n",
    "PAIR_CUT_EARLY": "ticks,P1,P2,q\n1,1,2,\n1,,2,2\n",
    # the lower task's job has one tick behind it when the schedule ends
    "FIVE_CUT": "ticks,P1,P2,q\n2,1,,\n1,2,,\n",
    "WHOLE": WHOLE,
    "WHOLE_JOBS": WHOLE_JOBS,
    "WHOLE_ROWS": WHOLE_ROWS,
    # the job takes a tick less than the rows have
    "SHORT_JOBS": "task,release,script\nt1,0,999999999\n",
    "LONG": LONG,
    "LONG_JOBS": LONG_JOBS,
    # the higher one's job waits until the request ends
    "LONG_ROWS": "ticks,P1,q\n100000000,1,\n400000000,1,1\n50,2,\n100000000,1,\n",
    # the resource is kept for a tick after the request has ended
    "LONG_KEPT": "ticks,P1,q\n100000000,1,\n400000001,1,1\n",
    # the lower job runs on past the release of the higher one, and neither requests
    "LATER_JOBS": "task,release,script\nt2,0,600000000\nt1,300000000,50\n",
    "LATER_ROWS": "ticks,P1,q\n400000000,1,\n",
}


def schedule(names):
    """A set, jobs and rows by their names."""
    return dict(zip(("set", "jobs", "rows"), (TEXTS[name] for name in names.split())))


def measured(ticks, *tasks):
    return f"lawful {ticks}\n" + "".join(f"t{x} {numbers}\n" for x, numbers in enumerate(tasks, 1))


# under a protocol: the set, jobs and rows, and the rule that is broken first with its tick, or the ticks and what is measured of each task
CONFORMING = {
    "fmlp+": [
        ("PAIR PAIR_JOBS PAIR_LOWER_FIRST", measured(5, "1 5 2", "1 4 0")),
        ("PAIR PAIR_JOBS PAIR_HIGHER_FIRST", measured(5, "1 3 0", "1 5 1")),
        ("PAIR PAIR_JOBS PAIR_CUT", measured(3, "0 - 2", "0 - 0")),
        ("PAIR NO_JOBS NO_ROWS", measured(0, "0 - 0", "0 - 0")),
        ("FIVE FIVE_LOCAL_JOBS FIVE_CUT", measured(3, "1 2 0", "0 - 0", "0 - 0")),
        ("FIVE FIVE_JOBS FIVE_ROWS", measured(7, "1 3 1", "1 6 0", "1 7 2")),
        ("TURNS TURNS_JOBS TURNS_ROWS", measured(5, "1 2 0", "2 4 0")),
        ("ENDS ENDS_JOBS ENDS_ROWS", measured(6, "2 3 0", "1 4 1")),
        ("BOOST BOOST_JOBS BOOST_ROWS", measured(4, "0 - 0", "1 2 0", "1 3 1", "1 3 0", "0 - 0")),
        ("WHOLE WHOLE_JOBS WHOLE_ROWS", measured(10**9, "1 1000000000 0")),
        ("WHOLE SHORT_JOBS WHOLE_ROWS", "broken 999999999 run\n"),
        ("LONG LONG_JOBS LONG_ROWS", measured(600000050, "1 200000050 200000000", "1 600000050 0")),
        ("LONG LONG_JOBS LONG_KEPT", "broken 500000000 grant\n"),
        ("LONG LATER_JOBS LATER_ROWS", "broken 300000000 priority\n"),
        ("PAIR PAIR_JOBS PAIR_CROSSED", "broken 0 run\n"),
        ("PAIR PAIR_JOBS PAIR_TAKEN_AWAY", "broken 2 keep\n"),
        ("PAIR PAIR_JOBS PAIR_HELD_TOO_LONG", "broken 3 grant\n"),
        ("PAIR PAIR_JOBS PAIR_IDLE", "broken 0 idle\n"),
        ("FIVE FIVE_JOBS FIVE_IDLE_ROWS", "broken 2 idle\n"),
        ("FIVE FIVE_LOCAL_JOBS FIVE_LOWER_RUNS", "broken 0 priority\n"),
        ("BOOST BOOST_LATER_JOBS BOOST_BY_CEILING", "broken 3 priority\n"),
    ],
    "mpcp": [
        ("PAIR PAIR_JOBS PAIR_LOWER_FIRST", "broken 1 grant\n"),
        ("BOOST BOOST_LATER_JOBS BOOST_BY_CEILING", measured(5, "0 - 0", "0 - 0", "1 5 2", "1 2 0", "1 3 0")),
        ("BOOST BOOST_LATER_JOBS BOOST_BY_ISSUE", "broken 3 priority\n"),
    ],
    "dpcp": [
        ("HOME HOME_JOBS HOME_ROWS", measured(5, "1 4 1", "1 4 0")),
        ("HOME HOME_JOBS HOME_AT_ONCE", "broken 2 grant\n"),
        ("APART APART_JOBS APART_ROWS", measured(6, "1 3 0", "1 6 1")),
        ("APART APART_TOGETHER_JOBS APART_ONE_GRANT", measured(4, "1 3 0", "1 4 1")),
    ],
}


def conforming(protocol, names, says):
    return Case(f"under {protocol}: {names}", f"conform {protocol} set jobs rows", says, 1 if says.startswith("broken") else 0, schedule(names))


# a task of each of three processors; they share `q`, whose home is a fourth processor without tasks
SHARED = """{"processors":4,"resources":[{"name":"q","home":4}],"tasks":[
{"name":"t1","processor":1,"period":20,"cost":3,"requests":[{"resource":"q","count":1,"length":1}]},
{"name":"t2","processor":2,"period":20,"cost":3,"requests":[{"resource":"q","count":1,"length":1}]},
{"name":"t3","processor":3,"period":20,"cost":5,"requests":[{"resource":"q","count":1,"length":3}]}]}"""
# the requests are issued at the ticks 3, 2 and 1
SHARED_JOBS = "task,release,script\nt1,2,1 q:1 1\nt2,1,1 q:1 1\nt3,0,1 q:3 1\n"
SHARED_HEADER = "ticks,P1,P2,P3,P4,q\n"
# `t3` has `q` from tick 1 on; at tick 4, where it ends, `q` goes to the higher task of the two that wait, or to the request issued first
BY_TASK = SHARED_HEADER + "1,,,3,,\n1,,2,3,,3\n1,1,,3,,3\n1,,,3,,3\n1,1,,3,,1\n1,1,2,,,2\n1,,2,,,\n3,,,,,\n"
BY_ISSUE = SHARED_HEADER + "1,,,3,,\n1,,2,3,,3\n1,1,,3,,3\n1,,,3,,3\n1,,2,3,,2\n1,1,2,,,1\n1,1,,,,\n3,,,,,\n"
# the requests run on the fourth processor, where two wait at tick 3; `t1` gets it at tick 4, where `t3` ends
AT_HOME = SHARED_HEADER + "1,,,3,,\n1,,2,,3,3\n1,1,,,3,3\n1,,,,3,3\n1,,,3,1,1\n1,1,,,2,2\n1,,2,,,\n3,,,,,\n"
# at tick 2 `t1` is higher than the ceiling of `b`, which is `t2`, so that it holds beside `t2` and runs before it
BOTH_HOLD = "ticks,P1,P2,P3,a,b\n1,,2,,,\n1,1,,2,,2\n1,,,1,1,2\n1,1,,2,,2\n1,,,2,,2\n1,,2,,,\n4,,,,,\n"

# two tasks on one processor; the home of what the lower one requests is the other
LONG_HOME = LONG.replace('"processors":1,"resources":[{"name":"q"}]', '"processors":2,"resources":[{"name":"q","home":2}]')
# the higher task's job waits until the request ends, or runs beside it
WAITS = "ticks,P1,P2,q\n100000000,1,,\n400000000,1,,1\n50,2,,\n100000000,1,,\n399999950,,,\n"
RUNS = "ticks,P1,P2,q\n100000000,1,,\n200000000,,1,1\n50,2,1,1\n199999950,,1,1\n100000000,1,,\n400000000,,,\n"

# a set and jobs, a protocol and ticks, and the rows that are made
SIMULATED = [
    (SHARED, SHARED_JOBS, "mpcp", 10, BY_TASK),
    (SHARED, SHARED_JOBS, "fmlp+", 10, BY_ISSUE),
    (SHARED, SHARED_JOBS, "dpcp", 10, AT_HOME),
    (FILES["APART"], FILES["APART_JOBS"], "dpcp", 10, BOTH_HOLD),
    (WHOLE, WHOLE_JOBS, "fmlp+", 10**9, WHOLE_ROWS),
    (LONG_HOME, LONG_JOBS, "mpcp", 10**9, WAITS),
    (LONG_HOME, LONG_JOBS, "fmlp+", 10**9, WAITS),
    (LONG_HOME, LONG_JOBS, "dpcp", 10**9, RUNS),
]

# such rows, and what is measured of them
MADE = [
    (SHARED, SHARED_JOBS, "dpcp", AT_HOME, measured(10, "1 4 1", "1 6 3", "1 5 0")),
    (LONG_HOME, LONG_JOBS, "mpcp", WAITS, measured(10**9, "1 200000050 200000000", "1 600000050 0")),
    (LONG_HOME, LONG_JOBS, "fmlp+", WAITS, measured(10**9, "1 200000050 200000000", "1 600000050 0")),
    (LONG_HOME, LONG_JOBS, "dpcp", RUNS, measured(10**9, "1 50 0", "1 600000000 0")),
]

# the home of the pair's resource is the second processor
PAIR_AT_HOME = "ticks,P1,P2,q\n1,1,2,\n1,,1,1\n1,1,2,2\n1,,2,2\n1,,2,\n"
# under a protocol the rows that are made, and whether the rows in which the lower task is served first keep its rules
PAIR_MADE = {
    "mpcp": (FILES["PAIR_HIGHER_FIRST"], "broken 1 grant\n"),
    "fmlp+": (FILES["PAIR_HIGHER_FIRST"], measured(5, "1 5 2", "1 4 0")),
    "dpcp": (PAIR_AT_HOME, "broken 1 grant\n"),
}


def made_of_pair(protocol, rows, says):
    files = {"set": FILES["PAIR"], "jobs": FILES["PAIR_JOBS"]}
    return [
        Case(f"rows of the pair under {protocol}", f"simulate {protocol} set jobs 5", rows, 0, files),
        Case(f"that they keep the rules of {protocol}", f"conform {protocol} set jobs rows", measured(5, "1 3 0", "1 5 1"), 0, {**files, "rows": rows}),
        Case(f"the lower task first under {protocol}", f"conform {protocol} set jobs rows", says, 1 if says.startswith("broken") else 0,
             {**files, "rows": FILES["PAIR_LOWER_FIRST"]}),
    ]


PAIR, HOME = FILES["PAIR"], FILES["HOME"]
PAIR_PROOF = certificate("fmlp+", [5, 5], [[2, 0, 0, 0], [1, 0, 0, 0]], PAIR)
PAIR_WIDER = certificate("fmlp+", [6, 5], [[0, 0, 2, 0], [0, 0, 1, 0]], PAIR)
SMALL = certificate("fmlp+", [4, 5], [[2, 0, 0, 0], [1, 0, 0, 0]], PAIR)
ONE_BOUND = certificate("fmlp+", [5], [[2, 0, 0, 0]], PAIR)
HOME_PROOF = certificate("dpcp", [6, 6], [[2, 0, 0], [1, 1, 0]], HOME)

# a protocol, a certificate and a schedule, and what is said of both; a certificate is judged before the rows
AUDITED = [
    ("fmlp+", PAIR_PROOF, "PAIR PAIR_JOBS PAIR_LOWER_FIRST", "kept 5\nt1 5 5 2 2 2 0 0\nt2 4 5 0 1 0 0 0\n"),
    ("fmlp+", PAIR_WIDER, "PAIR PAIR_JOBS PAIR_LOWER_FIRST", "kept 5\nt1 5 6 2 2 2 0 0\nt2 4 5 0 1 0 0 0\n"),
    ("fmlp+", PAIR_PROOF, "PAIR PAIR_JOBS PAIR_CUT_EARLY", "kept 2\nt1 - 5 1 2 1 0 0\nt2 - 5 0 1 0 0 0\n"),
    ("dpcp", HOME_PROOF, "HOME HOME_JOBS HOME_ROWS", "kept 5\nt1 4 6 1 2 0 1 0\nt2 4 6 0 2 0 0 0\n"),
    ("fmlp+", SMALL, "PAIR PAIR_JOBS PAIR_LOWER_FIRST", "invalid small t1\n"),
    ("fmlp+", ONE_BOUND, "PAIR PAIR_JOBS PAIR_CROSSED", "invalid size\n"),
    ("fmlp+", PAIR_PROOF, "PAIR PAIR_JOBS PAIR_CROSSED", "broken 0 run\n"),
]


def audited(protocol, cert, names, says):
    status = 0 if says.startswith("kept") else 1
    return Case(f"a certificate for {protocol} beside {names}", f"audit {protocol} set cert jobs rows", says, status, {**schedule(names), "cert": cert})


CASES = [
    *(conforming(protocol, *one) for protocol, table in CONFORMING.items() for one in table),
    *(Case(f"{ticks} ticks under {protocol}", f"simulate {protocol} set jobs {ticks}", says, 0, {"set": set, "jobs": jobs}) for set, jobs, protocol, ticks, says in SIMULATED),
    *(Case(f"what was made under {protocol}", f"conform {protocol} set jobs rows", says, 0, {"set": set, "jobs": jobs, "rows": rows}) for set, jobs, protocol, rows, says in MADE),
    *(case for protocol, of in PAIR_MADE.items() for case in made_of_pair(protocol, *of)),
    *(audited(*one) for one in AUDITED),
]
