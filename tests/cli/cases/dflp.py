"""The distributed FIFO protocol, in each command that takes a protocol."""
from setting import Case, runs_on
from sets import HEADER, HOME, HOMELESS, HOME_JOBS, HOME_ROWS, PAIR, PAIR_JOBS, PAIR_ROWS, PAIR_SIMULATED, certificate, old, pair, tied

PAIR_FIFO = certificate("dflp", [5, 5], [[2, 0, 0, 0], [1, 0, 0, 0]])
# the one request of the second task may wait for either of the first task's two, and for no more than one of them
HOME_FIFO = certificate("dflp", [6, 5], [[2, 0, 0, 0], [0, 0, 0, 0, 1]], HOME)

# at tick 2 the first job holds b and waits: the other request was issued before its own
IN_TURN = HOME_ROWS.replace("1,,,2,2,", "1,,,2,2,1")
OUT_OF_TURN = HOME_ROWS.replace("1,,,2,2,", "1,,,1,2,1")

# both requests are issued at tick 1, and either may run first
TOGETHER = "task,release,script\nt1,0,1 b:1 1\nt2,0,1 a:2 1\n"
HIGHER_FIRST = "ticks,P1,P2,P3,a,b\n1,1,2,,,\n1,,,1,2,1\n1,1,,2,2,\n1,,,2,2,\n1,,2,,,\n"
LOWER_FIRST = "ticks,P1,P2,P3,a,b\n1,1,2,,,\n2,,,2,2,1\n1,,2,1,,1\n1,1,,,,\n"

HOME_TABLE = (
    HEADER[:-1] + "      bound   blocking      slack\n"
    + "t1                                1         20         20          4          4          6          2         14\n"
    + "t2                                2         20         20          4          4          5          1         15\n"
    + "load 1 200000\nload 2 200000\nload 3 0\n"
)
run = runs_on(PAIR)


def judged(shows, says, status, rows, jobs=HOME_JOBS, set=HOME):
    return run(shows, "conform dflp", says, status, set, jobs=jobs, rows=rows)


def made(shows, ticks, says, set, jobs):
    return Case(shows, f"simulate dflp set jobs {ticks}", says, 0, {"set": set, "jobs": jobs})


ANALYSES = [
    run("the least bounds", "analyse dflp", PAIR_FIFO),
    run("one request of another task for each own one at a home", "analyse dflp", HOME_FIFO, 0, HOME),
    run("a value above its deadline", "analyse dflp", "not shown t1 5 4\n", 1, pair(first={"deadline": 4})),
    run("a resource without a home", "analyse dflp", "refused set nohome resource 1\n", 3, HOMELESS),
]

CERTIFICATES = [
    run("its certificate", "check dflp", "valid\n", cert=PAIR_FIFO),
    run("a row of queues at homes", "check dflp", "valid\n", 0, HOME, cert=HOME_FIFO),
    run("a dual that leaves out such a row", "check dflp", "invalid dualsize t2\n", 1, HOME, cert=certificate("dflp", [6, 5], [[2, 0, 0, 0], [1, 1, 0, 0]], HOME)),
    run("a bound below what the dual is worth", "check dflp", "invalid small t1\n", 1, HOME, cert=certificate("dflp", [5, 5], [[2, 0, 0, 0], [0, 0, 0, 0, 1]], HOME)),
    run("a dual that leaves a column", "check dflp", "invalid cover t1 1\n", 1, cert=certificate("dflp", [5, 5], [[1, 0, 0, 0], [1, 0, 0, 0]])),
    run("a certificate of another set", "check dflp", "invalid otherset\n", 1, cert=tied(PAIR_FIFO, HOME)),
    run("a certificate for FMLP+", "check dflp", "refused cert otherprotocol\n", 3, cert=PAIR_FIFO.replace("dflp", "fmlp+")),
    run("its certificate under FMLP+", "check fmlp+", "refused cert otherprotocol\n", 3, cert=PAIR_FIFO),
    run("no home before the certificate", "check dflp", "refused set nohome resource 1\n", 3, HOMELESS, cert="{"),
    run("a certificate without a digest", "upgrade dflp", PAIR_FIFO, old=old(PAIR_FIFO)),
    run("the table with bounds", "report dflp", HOME_TABLE, 0, HOME, cert=HOME_FIFO),
    run("no table without homes", "report dflp", "refused set nohome resource 1\n", 3, HOMELESS),
]

SCHEDULES = [
    judged("a grant that no ceiling bars", "lawful 5\nt1 1 4 1\nt2 1 4 0\n", 0, IN_TURN),
    judged("a free resource that isn't granted", "broken 2 grant\n", 1, HOME_ROWS),
    judged("the higher task's holder before the earlier one", "broken 2 priority\n", 1, OUT_OF_TURN),
    judged("of requests of one tick that of the higher task first", "lawful 5\nt1 1 3 0\nt2 1 5 1\n", 0, HIGHER_FIRST, TOGETHER),
    judged("or that of the lower one", "lawful 5\nt1 1 5 2\nt2 1 4 0\n", 0, LOWER_FIRST, TOGETHER),
    judged("a request that doesn't run at its home", "broken 1 run\n", 1, PAIR_ROWS.replace("2,,2,2", "2,2,,2"), PAIR_JOBS, PAIR),
    judged("no home", "refused set nohome resource 1\n", 3, PAIR_ROWS, PAIR_JOBS, HOMELESS),
    made("a schedule whose requests run in turn", 5, IN_TURN, HOME, HOME_JOBS),
    made("the chosen one of two orders", 5, HIGHER_FIRST, HOME, TOGETHER),
    made("the chosen one of two grants", 5, PAIR_SIMULATED.replace("1,1,,1", "1,,1,1"), PAIR, PAIR_JOBS),
    run("what was charged beside what is proved", "audit dflp", "kept 5\nt1 4 6 1 2 0 1 0\nt2 4 5 0 1 0 0 0\n", 0, HOME, cert=HOME_FIFO, jobs=HOME_JOBS, rows=IN_TURN),
    run("a certificate before a broken schedule", "audit dflp", "broken 2 grant\n", 1, HOME, cert=HOME_FIFO, jobs=HOME_JOBS, rows=HOME_ROWS),
]

WORDS = [
    run("the word in capitals", "analyse DFLP", "refused words\n", 2),
    Case("a study under it", "study dflp 1 1", "refused words\n", 2),
]

CASES = ANALYSES + CERTIFICATES + SCHEDULES + WORDS
