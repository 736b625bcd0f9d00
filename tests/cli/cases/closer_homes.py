"""The closer analyses of DPCP and of the distributed FIFO protocol, in each command that takes a protocol."""
from bounds import audited, bounded
from setting import Case, runs_on
from sets import HOME, HOMELESS, HOME_JOBS, HOME_ROWS, PAIR, PAIR_FULL_TABLE, PAIR_JOBS, PAIR_SIMULATED, certificate, old, resource, task, task_set, tied

# of each closer analysis the plain one whose rows it has, and more
PLAIN = {"dpcp-c": "dpcp-w", "dflp-c": "dflp"}

# three tasks of one processor: requests of the two lower ones run there
LOWER = task_set(1, [resource("r", 1), resource("s", 1)], task("t1", 1, 100, 10), task("t2", 1, 200, 20, ("r", 3)), task("t3", 1, 300, 20, ("s", 4)))
TIGHT = LOWER.replace('"cost": 10,', '"cost": 10, "deadline": 16,')
TIGHTER = LOWER.replace('"cost": 10,', '"cost": 10, "deadline": 13,')
# no more than one of them preempts t1
FIRST = [0, 0, 0, 0, 0, 0, 0, 0, 4]
DUALS = {"dpcp-c": [FIRST, [4, 0, 0, 0, 0], [3, 0, 0, 0]], "dflp-c": [FIRST, [4, 0, 0, 0, 0, 0, 0], [3, 0, 0, 0]]}

# of each further kind of rows a set in which one bound falls by that kind alone, with the bounds by the plain and by the closer analysis
KINDS = {
    "home tasks": (
        task_set(2, [resource("q", 2)], task("t1", 2, 100, 10, ("q", 3)), task("t2", 2, 200, 10, ("q", 4)), task("t3", 1, 300, 10, ("q", 1))),
        [15, 24, 17], [15, 24, 14]),
    "lower tasks": (
        task_set(2, [resource("q", 1), resource("r", 2)], task("t1", 1, 100, 10, ("r", 1)), task("t2", 1, 200, 30, ("q", 3, 2), ("r", 2))),
        [18, 41], [16, 41]),
    "lower preemption": (LOWER, [17, 34, 53], [14, 34, 53]),
}

# two lower tasks of the processor on which the requests of all run
OWN = task_set(1, [resource("q", 1)], task("t1", 1, 100, 10, ("q", 1)), task("t2", 1, 200, 20, ("q", 3)), task("t3", 1, 300, 20, ("q", 4)))
# a lower task of another one
ACROSS = task_set(2, [resource("q", 1)], task("t1", 1, 100, 10, ("q", 1)), task("t2", 2, 200, 10, ("q", 3)))

# of each further kind of rows a set and a lawful schedule that meets a row of it with equality, and with it the proved bound: its jobs, its
# rows, and what an audit says
MET = {
    "home tasks": (
        KINDS["home tasks"][0], "t2,0,1 q:4\nt3,0,1 q:1 8\n", "1,2,1,\n4,,1,1\n1,,2,2\n8,2,,\n",
        "kept 14\nt1 - 15 0 5 0 0 0\nt2 5 24 0 4 0 0 0\nt3 14 14 4 4 4 0 0\n"),
    # t1 requests q, and never waits for it
    "home tasks of its own processor": (
        OWN, "t1,1,1 q:1 8\nt3,0,1 q:4\n", "1,2,\n4,2,2\n1,1,\n1,1,1\n8,1,\n",
        "kept 15\nt1 14 14 4 4 0 0 4\nt2 - 35 0 5 0 0 0\nt3 5 54 0 4 0 0 0\n"),
    "lower tasks": (
        KINDS["lower tasks"][0], "t1,1,1 r:1 8\nt2,0,1 q:3 1 q:3\n", "1,2,,,\n3,2,,2,\n1,1,,,\n1,2,1,,1\n3,2,,2,\n8,1,,,\n",
        "kept 17\nt1 16 16 6 6 0 0 6\nt2 9 41 0 1 0 0 0\n"),
    "lower preemption": (
        LOWER, "t1,1,10\nt3,0,1 s:4\n", "1,2,,\n4,2,,2\n10,1,,\n", "kept 15\nt1 14 14 4 4 0 0 4\nt2 - 34 0 4 0 0 0\nt3 5 53 0 3 0 0 0\n"),
}
# t1 is preempted by t2's request, and never waits for it
LOWER_WAITS = (ACROSS, "t1,1,1 q:1 8\nt2,0,1 q:3\n", "1,,2,\n3,2,,2\n1,1,,\n1,1,,1\n8,1,,\n", "kept 14\nt1 13 13 3 3 0 0 3\nt2 4 11 0 1 0 0 0\n")

AT_HOME = PAIR_SIMULATED.replace("1,1,,1", "1,,1,1")
PAIR_DUALS = {"dpcp-c": [[2, 0, 0, 0], [1, 0, 0]], "dflp-c": [[2, 0, 0, 0, 0], [1, 0, 0, 0]]}
HOME_CERTIFICATES = {
    "dpcp-c": certificate("dpcp-c", [6, 6], [[2, 0, 0], [1, 1, 0, 0, 0]], HOME),
    "dflp-c": certificate("dflp-c", [6, 5], [[2, 0, 0, 0], [0, 0, 0, 0, 1]], HOME),
}
IN_TURN = HOME_ROWS.replace("1,,,2,2,", "1,,,2,2,1")

run = runs_on(PAIR)


def analysed(closer, plain):
    """Bounds by both analyses."""
    for kind, (text, bounds, lower) in KINDS.items():
        yield bounded(kind, plain, bounds, text)
        yield bounded(kind, closer, lower, text)
    yield bounded("what the closer analysis alone shows", closer, [14, 34, 53], TIGHT)
    yield run(f"and {plain} doesn't", f"analyse {plain}", "not shown t1 17 16\n", 1, TIGHT)
    yield run(f"nor it where less is left, {closer}", f"analyse {closer}", "not shown t1 14 13\n", 1, TIGHTER)
    yield bounded("a pair on two processors", closer, [5, 5], PAIR)
    yield run(f"a resource without a home, {closer}", f"analyse {closer}", "refused set nohome resource 1\n", 3, HOMELESS)


def certified(closer, plain):
    """What is said of certificates and refusals."""
    duals = DUALS[closer]
    its = certificate(closer, [14, 34, 53], duals, LOWER)
    of_pair = certificate(closer, [5, 5], PAIR_DUALS[closer])
    refuted = ((f"refute {closer} set", "cert"),)
    yield run(f"its certificate, {closer}", f"check {closer}", "valid\n", 0, LOWER, cert=its)
    yield run(f"not under {plain}", f"check {plain}", "refused cert otherprotocol\n", 3, LOWER, cert=its)
    yield run(f"nor with the word {plain}", f"check {plain}", "invalid dualsize t1\n", 1, LOWER, cert=its.replace(closer, plain))
    yield run(f"no bound below what lower preemption lets be, {closer}", f"check {closer}", "invalid small t1\n", 1, LOWER,
              cert=certificate(closer, [13, 34, 53], duals, LOWER))
    yield run(f"a dual without the other lower task, {closer}", f"check {closer}", "invalid cover t1 2\n", 1, LOWER,
              cert=certificate(closer, [13, 34, 53], [[0, 0, 0, 0, 0, 0, 0, 0, 3], *duals[1:]], LOWER))
    yield run(f"a certificate of another set, {closer}", f"check {closer}", "invalid otherset\n", 1, PAIR, cert=tied(of_pair, LOWER))
    yield run(f"a certificate without a digest, {closer}", f"upgrade {closer}", of_pair, 0, PAIR, old=old(of_pair))
    yield run(f"the table with bounds, {closer}", f"report {closer}", PAIR_FULL_TABLE, cert=of_pair)
    yield Case(f"a refusal confirmed, {closer}", f"confirm {closer} set cert", "confirmed\n", 0, {"set": TIGHTER}, before=refuted)


SCHEDULES = [
    run("what DPCP allows", "conform dpcp-c", "lawful 5\nt1 1 4 1\nt2 1 4 0\n", 0, HOME, jobs=HOME_JOBS, rows=HOME_ROWS),
    run("what the order of issue doesn't", "conform dflp-c", "broken 2 grant\n", 1, HOME, jobs=HOME_JOBS, rows=HOME_ROWS),
    *(Case(f"the schedule that {plain} chooses", f"simulate {closer} set jobs 5", AT_HOME, 0, {"set": PAIR, "jobs": PAIR_JOBS}) for closer, plain in PLAIN.items()),
    run("what was charged beside what is proved, dpcp-c", "audit dpcp-c", "kept 5\nt1 4 6 1 2 0 1 0\nt2 4 6 0 2 0 0 0\n", 0, HOME,
        cert=HOME_CERTIFICATES["dpcp-c"], jobs=HOME_JOBS, rows=HOME_ROWS),
    run("and dflp-c", "audit dflp-c", "kept 5\nt1 4 6 1 2 0 1 0\nt2 4 5 0 1 0 0 0\n", 0, HOME,
        cert=HOME_CERTIFICATES["dflp-c"], jobs=HOME_JOBS, rows=IN_TURN),
    *(audited(kind, closer, *schedule) for closer in PLAIN for kind, schedule in MET.items()),
    audited("lower waits", "dpcp-c", *LOWER_WAITS),
]

WORDS = [
    run("the word with a capital", "analyse dpcp-C", "refused words\n", 2),
    run("the word without its stroke", "check dflpc", "refused words\n", 2, cert=HOME_CERTIFICATES["dflp-c"]),
]

CASES = [case for closer, plain in PLAIN.items() for part in (analysed, certified) for case in part(closer, plain)] + SCHEDULES + WORDS
