"""DPCP with windows of requests, in each command that takes a protocol."""
from setting import TOP, Case, runs_on
from sets import HOME, HOMELESS, HOME_JOBS, HOME_ROWS, PAIR, PAIR_FULL_TABLE, PAIR_JOBS, PAIR_SIMULATED, certificate, old, pair, resource, task, task_set, tied

SHIPPED = (TOP / "examples" / "windows.json").read_text()


def two(period=10, count=1, **more):
    """A higher task that comes often, and a lower one whose job takes long; each requests one resource of a third processor."""
    return task_set(3, [resource("q", 3)], task("t1", 1, period, 3, ("q", 1), **more), task("t2", 2, 100, 20, ("q", 1, count)))


PLAIN = two()
PLAIN_CERTIFICATE = certificate("dpcp-w", [4, 21], [[1, 0, 0], [0, 0, 1]], PLAIN)
PAIR_CERTIFICATE = certificate("dpcp-w", [5, 5], [[2, 0, 0], [1, 0, 0]])

# a job of the higher task that was there at the issue, or came late, runs a request beside the one of the next job
CLOSE, LATE = two(5), two(jitter=5)
# a request of the lowest task may be open at the issue, and until it ends another job of the highest task comes
LOWEST = task_set(4, [resource("q", 4)], task("t1", 1, 10, 3, ("q", 1)), task("t2", 2, 100, 20, ("q", 1)), task("t3", 3, 1000, 30, ("q", 4)))
# the requests that the higher task lists take longer than its period, though its cost doesn't hold them
LISTED = task_set(3, [resource("q", 3)], task("t1", 1, 10, 3, ("q", 1, 10)), task("t2", 2, 100, 20, ("q", 1)))

AT_HOME = PAIR_SIMULATED.replace("1,1,,1", "1,,1,1")
run = runs_on(PAIR)


def bounded(shows, dpcp, windows, set):
    """The bounds under DPCP, and those with windows."""
    for protocol, (bounds, duals) in (("dpcp", dpcp), ("dpcp-w", windows)):
        yield run(f"{shows}, {protocol}", f"analyse {protocol}", certificate(protocol, bounds, duals, set), 0, set)


ANALYSES = [
    *bounded("a long job with one short request", ([4, 23], [[1, 0, 0], [1, 0]]), ([4, 21], [[1, 0, 0], [0, 0, 1]]), PLAIN),
    *bounded("the pair of the examples", ([4, 23], [[1, 0, 0], [1, 0]]), ([4, 21], [[1, 0, 0], [0, 0, 1]]), SHIPPED),
    *bounded("two resources of one home", ([6, 6], [[2, 0, 0], [1, 1, 0]]), ([6, 6], [[2, 0, 0], [1, 1, 0, 0, 0]]), HOME),
    *bounded("a higher job that was there at the issue", ([4, 26], [[1, 0, 0], [1, 0]]), ([4, 22], [[1, 0, 0], [0, 0, 1]]), CLOSE),
    *bounded("a higher job that came late", ([4, 24], [[1, 0, 0], [1, 0]]), ([4, 22], [[1, 0, 0], [0, 0, 1]]), LATE),
    *bounded("more requests than the higher task makes in all", ([4, 23], [[0, 0, 1], [1, 0]]), ([4, 23], [[0, 0, 1], [1, 0, 0]]), two(count=5)),
    *bounded("a request that has no window", ([4, 32], [[1, 0, 0], [0, 1]]), ([4, 32], [[1, 0, 0], [0, 1, 0]]), LISTED),
    run("a lower request within the window", "analyse dpcp-w", certificate("dpcp-w", [7, 26, 33], [[0, 0, 0, 0, 4], [0, 4, 0, 0, 0, 1], [0, 1, 0, 0, 1, 0]], LOWEST), 0, LOWEST),
    run("a value above its deadline", "analyse dpcp-w", "not shown t1 5 4\n", 1, pair(first={"deadline": 4})),
    run("a resource without a home", "analyse dpcp-w", "refused set nohome resource 1\n", 3, HOMELESS),
]

CERTIFICATES = [
    run("its certificate", "check dpcp-w", "valid\n", 0, PLAIN, cert=PLAIN_CERTIFICATE),
    run("not under DPCP", "check dpcp", "refused cert otherprotocol\n", 3, PLAIN, cert=PLAIN_CERTIFICATE),
    run("nor with the word of DPCP", "check dpcp", "invalid dualsize t2\n", 1, PLAIN, cert=PLAIN_CERTIFICATE.replace("dpcp-w", "dpcp")),
    run("the bounds of DPCP, with duals that are 0 at windows", "check dpcp-w", "valid\n", 0, PLAIN, cert=certificate("dpcp-w", [4, 23], [[1, 0, 0], [1, 0, 0]], PLAIN)),
    run("a dual without windows", "check dpcp-w", "invalid dualsize t2\n", 1, PLAIN, cert=certificate("dpcp-w", [4, 23], [[1, 0, 0], [1, 0]], PLAIN)),
    run("a window without the higher task's bound", "check dpcp-w", "invalid small t2\n", 1, CLOSE, cert=certificate("dpcp-w", [4, 21], [[1, 0, 0], [0, 0, 1]], CLOSE)),
    run("a window without the jitter", "check dpcp-w", "invalid small t2\n", 1, LATE, cert=certificate("dpcp-w", [4, 21], [[1, 0, 0], [0, 0, 1]], LATE)),
    run("a window without the lower request", "check dpcp-w", "invalid small t2\n", 1, LOWEST,
        cert=certificate("dpcp-w", [7, 25, 33], [[0, 0, 0, 0, 4], [0, 4, 0, 0, 0, 1], [0, 1, 0, 0, 1, 0]], LOWEST)),
    run("a certificate of another set", "check dpcp-w", "invalid otherset\n", 1, PLAIN, cert=tied(PLAIN_CERTIFICATE, PAIR)),
    run("no home before the certificate", "check dpcp-w", "refused set nohome resource 1\n", 3, HOMELESS, cert="{"),
    run("a certificate without a digest", "upgrade dpcp-w", PLAIN_CERTIFICATE, 0, PLAIN, old=old(PLAIN_CERTIFICATE)),
    run("the table with bounds", "report dpcp-w", PAIR_FULL_TABLE, cert=PAIR_CERTIFICATE),
    run("no table without homes", "report dpcp-w", "refused set nohome resource 1\n", 3, HOMELESS),
]

SCHEDULES = [
    run("what DPCP allows", "conform dpcp-w", "lawful 5\nt1 1 4 1\nt2 1 4 0\n", 0, HOME, jobs=HOME_JOBS, rows=HOME_ROWS),
    run("what DPCP's ceiling bars", "conform dpcp-w", "broken 2 grant\n", 1, HOME, jobs=HOME_JOBS, rows=HOME_ROWS.replace("1,,,2,2,", "1,,,2,2,1")),
    Case("the schedule that DPCP chooses", "simulate dpcp-w set jobs 5", AT_HOME, 0, {"set": PAIR, "jobs": PAIR_JOBS}),
    run("what was charged beside what is proved", "audit dpcp-w", "kept 5\nt1 4 6 1 2 0 1 0\nt2 4 6 0 2 0 0 0\n", 0, HOME,
        cert=certificate("dpcp-w", [6, 6], [[2, 0, 0], [1, 1, 0, 0, 0]], HOME), jobs=HOME_JOBS, rows=HOME_ROWS),
]

WORDS = [
    run("the word with a capital", "analyse dpcp-W", "refused words\n", 2),
    run("the word without its stroke", "check dpcpw", "refused words\n", 2, cert=PAIR_CERTIFICATE),
]

CASES = ANALYSES + CERTIFICATES + SCHEDULES + WORDS
