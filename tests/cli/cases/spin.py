"""Spin locks, in each command that takes a protocol."""
from setting import TOP, Case, runs_on
from sets import FIVE, HEADER, HOMELESS, PAIR, PAIR_JOBS, SIX, certificate, old, tied

SHIPPED = {name: (TOP / "examples" / file).read_text() for name, file in (("set", "spin.json"), ("jobs", "spin-jobs.csv"), ("rows", "spin-rows.csv"))}
DUALS = [[2, 3, 0, 0, 0, 0], [3, 0, 0, 0], [2, 0, 0, 0]]
FIVE_CERTIFICATE = certificate("spin", [7, 11, 7], DUALS, FIVE)
PAIR_CERTIFICATE = certificate("spin", [5, 5], [[2, 0, 0, 0], [1, 0, 0, 0]])

FIVE_JOBS = "task,release,script\nt1,2,2\nt2,0,1 q:2 1\nt3,0,1 q:3 1\n"
# the second job spins at ticks 1 to 3, and keeps its processor for its request until tick 6, though the first waits there since tick 2
FIVE_ROWS = "ticks,P1,P2,q\n1,2,3,\n3,,3,3\n1,2,3,2\n1,2,,2\n2,1,,\n1,2,,\n"
# of the two requests of tick 1 that of the higher task is granted
FIVE_CHOSEN = "ticks,P1,P2,q\n1,2,3,\n2,2,,2\n2,1,3,3\n1,2,3,3\n1,,3,\n"
FIVE_TABLE = (
    HEADER[:-1] + "      bound   blocking      slack\n"
    + "t1                                1         10         10          2          2          7          5          3\n"
    + "t2                                1         20         20          4          4         11          3          9\n"
    + "t3                                2         20         20          5          5          7          2         13\n"
    + "load 1 400000\nload 2 250000\n"
)

# the third job holds q1 at ticks 1 and 2, and the second was the next to ask for it, at tick 2
SIX_JOBS = "task,release,script\nt1,2,1 q1:1 1\nt2,1,1 q1:3\nt3,0,1 q1:2\n"
SIX_BEGIN = "ticks,P1,P2,P3,q1,q2\n1,,,3,,\n1,,2,3,3,\n1,1,,3,3,\n"
SIX_IN_TURN = SIX_BEGIN + "3,,2,,2,\n1,1,,,1,\n1,1,,,,\n"
SIX_OUT_OF_TURN = SIX_BEGIN + "1,1,,,1,\n"
run = runs_on(FIVE)


def judged(shows, says, rows, jobs=FIVE_JOBS, set=FIVE, protocol="spin"):
    return run(shows, f"conform {protocol}", says, 1 if says.startswith("broken") else 0, set, jobs=jobs, rows=rows)


def with_rows(*lines):
    """The rows of the first ticks: each line stands for one of them."""
    return "ticks,P1,P2,q\n" + "".join(f"{line}\n" for line in lines)


ANALYSES = [
    run("a task without requests beside one that spins", "analyse spin", FIVE_CERTIFICATE),
    run("the shipped set", "analyse spin", tied(FIVE_CERTIFICATE, SHIPPED["set"]), 0, SHIPPED["set"]),
    Case("the units that it takes", "analyse spin set 21", FIVE_CERTIFICATE, 0, {"set": FIVE}),
    Case("one unit fewer", "analyse spin set 20", "allowance\n", 6, {"set": FIVE}),
    run("a value above its deadline", "analyse spin", "not shown t1 7 6\n", 1, FIVE.replace('"cost": 2', '"cost": 2, "deadline": 6')),
    run("the pair", "analyse spin", PAIR_CERTIFICATE, 0, PAIR),
    run("homes aren't asked for", "analyse spin", tied(PAIR_CERTIFICATE, HOMELESS), 0, HOMELESS),
]

CERTIFICATES = [
    run("its certificate", "check spin", "valid\n", cert=FIVE_CERTIFICATE),
    run("own spinning alone", "check spin", "invalid dualsize t1\n", 1, cert=certificate("spin", [4, 11, 7], [[2, 0, 0], *DUALS[1:]], FIVE)),
    run("no spinning by a lower task", "check spin", "invalid cover t1 2\n", 1, cert=certificate("spin", [4, 11, 7], [[2, 0, 0, 0, 0, 0], *DUALS[1:]], FIVE)),
    run("the rows of lower requests and of spinning", "check spin", "valid\n", cert=certificate("spin", [7, 11, 7], [[0, 0, 0, 0, 2, 3], *DUALS[1:]], FIVE)),
    run("a row of own spinning", "check spin", "valid\n", cert=certificate("spin", [7, 11, 7], [DUALS[0], [0, 0, 0, 3], DUALS[2]], FIVE)),
    run("a bound below what the dual is worth", "check spin", "invalid small t1\n", 1, cert=certificate("spin", [6, 11, 7], DUALS, FIVE)),
    run("a certificate of another set", "check spin", "invalid otherset\n", 1, cert=tied(FIVE_CERTIFICATE, PAIR)),
    run("a certificate for FMLP+", "check spin", "refused cert otherprotocol\n", 3, cert=FIVE_CERTIFICATE.replace("spin", "fmlp+")),
    run("its certificate under FMLP+", "check fmlp+", "refused cert otherprotocol\n", 3, cert=FIVE_CERTIFICATE),
    run("a certificate without a digest", "upgrade spin", FIVE_CERTIFICATE, old=old(FIVE_CERTIFICATE)),
    run("the table with bounds", "report spin", FIVE_TABLE, cert=FIVE_CERTIFICATE),
]

SCHEDULES = [
    judged("a job that spins, and a higher one that waits for it", "lawful 9\nt1 1 6 4\nt2 1 9 3\nt3 1 5 0\n", FIVE_ROWS),
    judged("the same under FMLP+", "broken 2 idle\n", FIVE_ROWS, protocol="fmlp+"),
    judged("a higher job that runs where one spins", "broken 2 priority\n", with_rows("1,2,3,", "1,,3,3", "1,1,3,3")),
    judged("a spinning job that runs", "broken 1 run\n", with_rows("1,2,3,", "1,2,3,3")),
    judged("a processor that is idle without a spinner", "broken 0 idle\n", with_rows("1,,3,")),
    judged("a holder that doesn't run", "broken 2 idle\n", with_rows("1,2,3,", "1,,3,3", "1,,,3")),
    judged("a resource that nobody holds", "broken 1 grant\n", with_rows("1,2,3,", "1,,,")),
    judged("a holder that loses its resource", "broken 2 keep\n", with_rows("1,2,3,", "1,,3,3", "1,2,,2")),
    judged("the other order of two requests of one tick", "lawful 7\nt1 1 3 1\nt2 1 6 0\nt3 1 7 2\n", FIVE_CHOSEN),
    judged("requests in the order of issue", "lawful 8\nt1 1 6 3\nt2 1 5 1\nt3 1 3 0\n", SIX_IN_TURN, SIX_JOBS, SIX),
    judged("a grant to the highest task", "broken 3 grant\n", SIX_OUT_OF_TURN, SIX_JOBS, SIX),
    Case("the chosen one of two orders", "simulate spin set jobs 7", FIVE_CHOSEN, 0, {"set": FIVE, "jobs": FIVE_JOBS}),
    Case("the same of the pair", "simulate spin set jobs 5", "ticks,P1,P2,q\n1,1,2,\n1,1,,1\n1,1,2,2\n1,,2,2\n1,,2,\n", 0, {"set": PAIR, "jobs": PAIR_JOBS}),
    run("what was charged beside what is proved", "audit spin", "kept 9\nt1 6 7 4 5 0 2 2\nt2 9 11 3 3 3 0 0\nt3 5 7 0 2 0 0 0\n", cert=FIVE_CERTIFICATE, jobs=FIVE_JOBS, rows=FIVE_ROWS),
    run("the same of the shipped schedule", "audit spin", "kept 9\nguard 6 7 4 5 0 2 2\nsend 9 11 3 3 3 0 0\nlog 5 7 0 2 0 0 0\n", 0, SHIPPED["set"],
        cert=tied(FIVE_CERTIFICATE, SHIPPED["set"]), jobs=SHIPPED["jobs"], rows=SHIPPED["rows"]),
]

WORDS = [
    run("a longer word", "analyse spinlock", "refused words\n", 2),
    run("the word in capitals", "check SPIN", "refused words\n", 2, cert=FIVE_CERTIFICATE),
]

CASES = ANALYSES + CERTIFICATES + SCHEDULES + WORDS
