"""The closer analysis of spin locks, in each command that takes a protocol."""
from bounds import audited, bounded
from setting import Case, runs_on
from sets import FIVE, PAIR, certificate, old, resource, task, task_set, tied

ELEVEN = [f"q{number}" for number in range(1, 12)]
TEN = ELEVEN[:10]


def only_below(names):
    """A set in which only the lower task of processor 1 uses these resources. Its requests are short, and those of the other processor long; of the
    last resource it is the other way round."""
    lower, there = ([(name, length) for name in names[:-1]] + [(names[-1], 11 - length)] for length in (1, 10))
    return task_set(2, [resource(name) for name in names], task("t1", 1, 900, 3), task("t2", 1, 1000, 40, *lower), task("t3", 2, 1000, 140, *there))


def used_above(number):
    """A set in which the higher task of processor 1 uses so many resources, and the lower one uses these and another one. On the other processor
    requests of the first resource are short, and there are two of each of the next two."""
    names = [f"q{place}" for place in range(1, number + 2)]
    there = [("q1", 1), ("q2", 10, 2), ("q3", 10, 2), *((name, 10) for name in names[3:])]
    tasks = (task("t1", 1, 900, 2 * number, *((name, 1) for name in names[:-1])), task("t2", 1, 1000, 26, *((name, 1) for name in names)))
    return task_set(2, [resource(name) for name in names], *tasks, task("t3", 2, 1000, 300, *there))


# of each closer kind of rows a set in which one bound falls by that kind alone, or by that kind among them, with the bounds under spin
# locks and by the closer analysis; and a lawful schedule that meets the smaller bound: its jobs, its rows, and what an audit says
KINDS = {
    "closer spinning": (
        task_set(2, [resource("q"), resource("r")], task("t1", 1, 200, 6, ("q", 3)), task("t2", 2, 300, 4, ("r", 1)), task("t3", 2, 400, 12, ("q", 3), ("r", 5))),
        [9, 12, 19], [9, 10, 19],
        "t1,0,1 q:3\nt2,1,4\nt3,0,1 q:3\n", "1,1,3,,\n3,1,,1,\n3,,3,3,\n4,,2,,\n",
        "kept 11\nt1 4 9 0 3 0 0 0\nt2 10 10 6 6 0 3 3\nt3 7 19 3 3 3 0 0\n"),
    "lower spinning": (
        task_set(2, [resource("q"), resource("r")],
                 task("t1", 1, 200, 3, ("q", 1)), task("t2", 1, 300, 6, ("q", 1), ("r", 1)), task("t3", 2, 300, 20, ("q", 5, 2), ("r", 5))),
        [19, 24, 23], [14, 24, 23],
        "t1,1,2 q:1\nt2,0,1 q:1\nt3,0,1 q:5 3 q:5\n", "1,2,3,,\n5,,3,3,\n1,2,3,2,\n2,1,3,,\n5,,3,3,\n1,1,,1,\n",
        "kept 15\nt1 14 14 11 11 5 5 1\nt2 7 24 5 15 5 0 0\nt3 14 23 0 3 0 0 0\n"),
    "lone lower spinning": (
        task_set(2, [resource("q"), resource("r")], task("t1", 1, 100, 3), task("t2", 1, 200, 5, ("q", 1), ("r", 1)), task("t3", 2, 200, 12, ("q", 5), ("r", 5))),
        [14, 18, 14], [9, 18, 14],
        "t1,1,3\nt2,0,1 q:1\nt3,0,1 q:5\n", "1,2,3,,\n5,,3,3,\n1,2,,2,\n3,1,,,\n",
        "kept 10\nt1 9 9 6 6 0 5 1\nt2 7 18 5 10 5 0 0\nt3 6 14 0 2 0 0 0\n"),
    "lone lower spinning with one": (
        task_set(2, [resource("q"), resource("r"), resource("s"), resource("u")],
                 task("t1", 1, 900, 6, ("q", 1), ("r", 1), ("s", 1)), task("t2", 1, 1000, 8, ("q", 1), ("r", 1), ("s", 1), ("u", 1)),
                 task("t3", 2, 1000, 40, ("q", 10, 2), ("r", 1), ("s", 1), ("u", 10))),
        [39, 46, 45], [29, 46, 45],
        "t1,1,1 q:1 1 r:1 1 s:1\nt2,0,1 q:1\nt3,0,1 q:10 2 q:10 2 r:1 2 s:1\n",
        "1,2,3,,,,\n10,,3,3,,,\n1,2,3,2,,,\n1,1,3,,,,\n10,,3,3,,,\n1,1,3,1,,,\n1,1,3,,,,\n1,,3,,3,,\n1,1,3,,1,,\n1,1,3,,,,\n1,,3,,,3,\n1,1,,,,1,\n",
        "kept 30\nt1 29 29 23 23 12 10 1\nt2 12 46 10 32 10 0 0\nt3 29 45 0 5 0 0 0\n"),
    "lone lower spinning, with eleven resources": (
        task_set(2, [resource(name) for name in ELEVEN],
                 task("t1", 1, 900, 3), task("t2", 1, 1000, 24, *((name, 1) for name in ELEVEN)), task("t3", 2, 1000, 80, *zip(ELEVEN, range(1, 12)))),
        [70, 93, 91], [15, 93, 91],
        "t1,1,3\nt2,0,1 q11:1\nt3,0,1 q11:11\n", "1,2,3,,,,,,,,,,,\n11,,3,,,,,,,,,,,3\n1,2,,,,,,,,,,,,2\n3,1,,,,,,,,,,,,\n",
        "kept 16\nt1 15 15 12 12 0 11 1\nt2 13 93 11 66 11 0 0\nt3 12 91 0 11 0 0 0\n"),
    "other lower spinning": (
        task_set(2, [resource("q"), resource("r"), resource("s")],
                 task("t1", 1, 200, 3), task("t2", 1, 300, 15, ("q", 1), ("r", 1), ("s", 10)), task("t3", 2, 300, 25, ("q", 10), ("r", 10), ("s", 1))),
        [34, 39, 37], [14, 39, 37],
        "t1,1,3\nt2,0,1 q:1\nt3,0,1 q:10\n", "1,2,3,,,\n10,,3,3,,\n1,2,,2,,\n3,1,,,,\n",
        "kept 15\nt1 14 14 11 11 0 10 1\nt2 12 39 10 21 10 0 0\nt3 11 37 0 12 0 0 0\n"),
    "other lower spinning, with ten resources": (
        only_below(TEN), [104, 134, 159], [14, 134, 159],
        "t1,1,3\nt2,0,1 q1:1\nt3,0,1 q1:10\n", "1,2,3,,,,,,,,,,\n10,,3,3,,,,,,,,,\n1,2,,2,,,,,,,,,\n3,1,,,,,,,,,,,\n",
        "kept 15\nt1 14 14 11 11 0 10 1\nt2 12 134 10 91 10 0 0\nt3 11 159 0 19 0 0 0\n"),
    "other lower spinning, with two of eleven resources used above": (
        task_set(2, [resource(name) for name in ELEVEN],
                 task("t1", 1, 900, 4, ("q1", 1), ("q2", 1)), task("t2", 1, 1000, 24, *((name, 1) for name in ELEVEN)),
                 task("t3", 2, 1000, 60, ("q1", 1), ("q2", 10, 2), *((name, 1) for name in ELEVEN[2:10]), ("q11", 10))),
        [44, 67, 72], [26, 67, 72],
        "t1,1,1 q2:1 1 q1:1\nt2,0,1 q2:1\nt3,0,1 q2:10 2 q2:10 2 q1:1\n",
        "1,2,3,,,,,,,,,,,\n10,,3,,3,,,,,,,,,\n1,2,3,,2,,,,,,,,,\n1,1,3,,,,,,,,,,,\n10,,3,,3,,,,,,,,,\n1,1,3,,1,,,,,,,,,\n1,1,3,,,,,,,,,,,\n1,,3,3,,,,,,,,,,\n1,1,,1,,,,,,,,,,\n",
        "kept 27\nt1 26 26 22 22 11 10 1\nt2 12 67 10 39 10 0 0\nt3 26 72 0 12 0 0 0\n"),
}

LOWER, _, BOUNDS, *_ = KINDS["lone lower spinning"]
REST = [[5, 5, 0, 0, 0, 0, 0], [1, 1, 0, 0, 0, 0, 0]]
# of the higher task: four rows of requests, two of time, lower requests, lone lower spinning, closer spinning of q and of r
LOWER_CERTIFICATE = certificate("spin-c", BOUNDS, [[0, 0, 0, 0, 0, 0, 1, 5, 0, 0], *REST], LOWER)
TIGHT = LOWER.replace('"cost": 3,', '"cost": 3, "deadline": 12,')
TIGHTER = LOWER.replace('"cost": 3,', '"cost": 3, "deadline": 8,')
FIVE_CERTIFICATE = certificate("spin-c", [7, 11, 7], [[2, 3, 0, 0, 0, 0], [3, 0, 0, 0], [2, 0, 0, 0]], FIVE)

run = runs_on(LOWER)


ANALYSES = [
    *(case for kind, (set, plain, closer, *_) in KINDS.items() for case in (bounded(kind, "spin", plain, set), bounded(kind, "spin-c", closer, set))),
    bounded("eleven resources, of which no row leaves out one", "spin-c", [23, 144, 160], only_below(ELEVEN)),
    bounded("ten that are used above, of which rows leave out one each", "spin-c", [122, 167, 313], used_above(10)),
    bounded("eleven that are used above, of which no row leaves out one", "spin-c", [142, 179, 314], used_above(11)),
    run("a set of one resource, as under spin locks", "analyse spin-c", FIVE_CERTIFICATE, 0, FIVE),
    bounded("what the closer analysis alone shows", "spin-c", BOUNDS, TIGHT),
    run("and spin locks don't", "analyse spin", "not shown t1 14 12\n", 1, TIGHT),
    run("what neither shows", "analyse spin-c", "not shown t1 9 8\n", 1, TIGHTER),
]

CERTIFICATES = [
    run("a certificate by lone lower spinning", "check spin-c", "valid\n", cert=LOWER_CERTIFICATE),
    run("not under spin locks", "check spin", "refused cert otherprotocol\n", 3, cert=LOWER_CERTIFICATE),
    run("nor with the word of spin locks", "check spin", "invalid dualsize t1\n", 1, cert=LOWER_CERTIFICATE.replace("spin-c", "spin")),
    run("what closer spinning shows without it", "check spin-c", "valid\n",
        cert=certificate("spin-c", [13, 18, 14], [[0, 0, 0, 0, 0, 0, 0, 0, 5, 5], *REST], LOWER)),
    run("no bound below what lone lower spinning lets be", "check spin-c", "invalid small t1\n", 1,
        cert=certificate("spin-c", [8, 18, 14], [[0, 0, 0, 0, 0, 0, 1, 5, 0, 0], *REST], LOWER)),
    run("a dual that leaves spinning to lower requests", "check spin-c", "invalid cover t1 3\n", 1,
        cert=certificate("spin-c", BOUNDS, [[0, 0, 0, 0, 0, 0, 5, 0, 0, 0], *REST], LOWER)),
    run("a certificate of another set", "check spin-c", "invalid otherset\n", 1, cert=tied(LOWER_CERTIFICATE, PAIR)),
    run("a certificate without a digest", "upgrade spin-c", LOWER_CERTIFICATE, old=old(LOWER_CERTIFICATE)),
    Case("a refusal, confirmed", "confirm spin-c set cert", "confirmed\n", 0, {"set": TIGHTER}, before=(("refute spin-c set", "cert"),)),
    Case("what spin locks refuse", "confirm spin set cert", "confirmed\n", 0, {"set": TIGHT}, before=(("refute spin set", "cert"),)),
    run("not by the closer analysis", "refute spin-c", "schedulable\n", 1, TIGHT),
]

SCHEDULES = [
    *(audited(kind, "spin-c", set, jobs, rows, says) for kind, (set, _, _, jobs, rows, says) in KINDS.items()),
]

WORDS = [
    run("the word with a capital", "analyse spin-C", "refused words\n", 2),
    run("the word without its dash", "check spinc", "refused words\n", 2, cert=LOWER_CERTIFICATE),
]

CASES = ANALYSES + CERTIFICATES + SCHEDULES + WORDS
