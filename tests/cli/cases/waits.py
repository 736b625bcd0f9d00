"""Windows of waits in the closer analysis of MPCP: bounds, certificates, and schedules that come up to what the rows allow."""
from bounds import audited, bounded
from setting import runs_on
from sets import certificate, resource, task, task_set


def three(*more, period=10, count=1, requests=("q", 1), **first):
    """Two tasks that come often and a lower one whose job takes long, each on a processor of its own. Each requests q."""
    tasks = (task("t1", 1, period, 3, requests, **first), task("t2", 2, 10, 3, ("q", 1)), task("t3", 3, 100, 20, ("q", 1, count)))
    return task_set(3 + len(more), [resource("q")], *tasks, *more)


# t3's one request is granted after 2 ticks, in which one request of each higher task runs: ceil((2 + 4) / 10) and ceil((2 + 5) / 10). While its
# job runs, each makes four. Under MPCP that is 20 + 4 + 4, and with windows 20 + 1 + 1.
PLAIN = three()
# Two jobs of t1 may run in 3 ticks, since its period is 5: ceil((3 + 4) / 5) + ceil((3 + 6) / 10) is 3.
CLOSE = three(period=5)
# Two jobs of t1 may run in 3 ticks, since the first of them came late: ceil((3 + 4 + 5) / 10) + ceil((3 + 6) / 10) is 3.
LATE = three(jitter=5)
# A request of 4 ticks of the lowest task may be held at the issue. Two jobs of each higher task may run in the 8 ticks of the wait: 4 +
# ceil((8 + 7) / 10) + ceil((8 + 9) / 10) is 8. And t4's request is granted after 5 ticks, with two of t1, two of t2 and one of t3.
LOWEST = three(task("t4", 4, 1000, 30, ("q", 4)))
# Five requests of t3 have two ticks each, in which five requests of each higher task run. That is more than these make in all.
OFTEN = three(count=5)
# The requests that t1 lists take 10 ticks a job, which is its period. So no number of ticks is enough for t3's wait.
LISTED = three(requests=("q", 1, 10))

# On processor 4, t5 may run its request of s while t4 holds q: t1 is the ceiling of both. So a wait of t3 lasts up to 2 + 3 + 1 + 1 ticks.
INSTEAD_OF_LOWER = task_set(
    4, [resource("q"), resource("s")], task("t1", 1, 20, 3, ("q", 1), ("s", 1)), task("t2", 2, 20, 3, ("q", 1)), task("t3", 3, 100, 20, ("q", 1)),
    task("t4", 4, 1000, 30, ("q", 2)), task("t5", 4, 1000, 30, ("s", 3)))


def beside(period, cost, count, *requests):
    """t3 waits for r, which t2 may hold. On t2's processor t4 may run its requests of q meanwhile: t1 is the ceiling of both."""
    return task_set(
        3, [resource("q"), resource("r")], task("t1", 1, 20, 3, ("r", 1), ("q", 1)), task("t2", 2, period, cost, ("r", 1, count)),
        task("t3", 3, 200, 40, ("r", 1)), task("t4", 2, 400, 13, *requests))


# In the 4 ticks of a wait t1 holds r for one tick, t2 for one, and t4 runs one request of 2 ticks in t2's place. So the bound of t3 is 40 + 4.
# With the row of direct waits alone it would be 40 + 1 + 1 + 3 * 2, since t2 holds r three times in 48 + 9 ticks. Under MPCP it is 40 + 4 + 4 + 4 * 2.
BESIDE = beside(20, 3, 1, ("q", 2, 4))
# t2 holds r three times a job, and t4 makes one request of 4 ticks. So a wait lasts up to 1 + 3 + 4 ticks, and not 1 + 3 + 3 * 4.
ONE_REQUEST = beside(25, 6, 3, ("q", 4))

# t4 waits for q and r, which t3 may hold. On t3's processor t5 may run u in place of both, and s in place of r alone: that processor sees t1 as
# the ceiling of q and u, t2 as that of s, and t4 as that of r. In t4's waits t1 holds q for one tick, and t3 each of the two. One request of u
# runs, which is all that t5 makes, and one of s: 40 + 1 + 2 + 1 + 3. Shared holdings alone would let two of s run, in the places of both.
BY_RESOURCE = task_set(
    3, [resource(name) for name in "qrsu"], task("t1", 3, 200, 5, ("q", 1), ("u", 1)), task("t2", 3, 210, 5, ("s", 1)),
    task("t3", 2, 30, 5, ("q", 1), ("r", 1)), task("t4", 1, 300, 40, ("q", 1), ("r", 1)), task("t5", 2, 400, 31, ("s", 3, 4), ("u", 1)))

# of each set: its bounds under MPCP, and those of the closer analysis
BOUNDS = {
    "one short request of a long job": (PLAIN, [4, 5, 28], [4, 5, 22]),
    "a higher job that was there at the issue": (CLOSE, [4, 6, 31], [4, 6, 23]),
    "a higher job that came late": (LATE, [4, 6, 28], [4, 6, 23]),
    "a lower holder": (LOWEST, [7, 9, 33, 41], [7, 9, 28, 35]),
    "more requests in the windows than in all": (OFTEN, [4, 5, 28], [4, 5, 28]),
    "a request that has no window": (LISTED, [6, 10, 40], [6, 6, 29]),
    "another request in a lower holder's place": (INSTEAD_OF_LOWER, [9, 9, 29, 40, 64], [9, 9, 27, 36, 61]),
    "other requests in higher holders' places": (BESIDE, [9, 9, 56, 21], [9, 9, 44, 21]),
    "one request in the places of three holders": (ONE_REQUEST, [9, 13, 57, 27], [9, 13, 48, 26]),
    "a request that runs in the place of one holder alone": (BY_RESOURCE, [9, 14, 17, 60, 44], [9, 14, 17, 47, 44]),
}

# Rows are of requests and of time for each other task, of lower holders, of away holdings for each other task, and of direct waits for each
# higher one. t1 has seven of them, t2 eight, and t3 eight.
FIRST_DUALS = [[0, 0, 0, 0, 1, 0, 0], [0, 0, 0, 0, 1, 0, 0, 1]]
WAITS = [0, 0, 0, 0, 0, 0, 1, 1]
PLAIN_CERTIFICATE = certificate("mpcp-c", [4, 5, 22], [*FIRST_DUALS, WAITS], PLAIN)
# the same of the set with a lowest task, whose request takes 4 ticks
LOWEST_DUALS = [[*[0] * 6, 4, *[0] * 3], [*[0] * 6, 4, *[0] * 3, 1], [*[0] * 6, 4, *[0] * 3, 1, 1], [*[0] * 9, 1, 1, 1]]

run = runs_on(PLAIN)

ANALYSES = [case for shows, (text, plain, closer) in BOUNDS.items() for case in (bounded(shows, "mpcp", plain, text), bounded(shows, "mpcp-c", closer, text))]

CERTIFICATES = [
    run("duals of rows of waits", "check mpcp-c", "valid\n", 0, cert=PLAIN_CERTIFICATE),
    run("not under MPCP", "check mpcp", "invalid dualsize t1\n", 1, cert=PLAIN_CERTIFICATE.replace("mpcp-c", "mpcp")),
    run("the bounds of MPCP, with duals that are 0 at waits", "check mpcp-c", "valid\n", 0,
        cert=certificate("mpcp-c", [4, 5, 28], [[0, 0, 0, 0, 1, 0, 0], [1, 0, 0, 0, 1, 0, 0, 0], [1, 1, 0, 0, 0, 0, 0, 0]], PLAIN)),
    run("a dual without waits", "check mpcp-c", "invalid dualsize t3\n", 1, cert=certificate("mpcp-c", [4, 5, 22], [*FIRST_DUALS, WAITS[:6]], PLAIN)),
    run("a bound below what the waits let be", "check mpcp-c", "invalid small t3\n", 1, cert=certificate("mpcp-c", [4, 5, 21], [*FIRST_DUALS, WAITS], PLAIN)),
    # without the bound of t1, and without its jitter, a window of 2 ticks would be enough
    run("a window without the higher task's bound", "check mpcp-c", "invalid small t3\n", 1, CLOSE,
        cert=certificate("mpcp-c", [4, 6, 22], [*FIRST_DUALS, WAITS], CLOSE)),
    run("a window without the jitter", "check mpcp-c", "invalid small t3\n", 1, LATE, cert=certificate("mpcp-c", [4, 6, 22], [*FIRST_DUALS, WAITS], LATE)),
    run("with it", "check mpcp-c", "valid\n", 0, LATE, cert=certificate("mpcp-c", [4, 6, 23], [*FIRST_DUALS, WAITS], LATE)),
    # without the lower holding a window of 3 ticks would be enough, with one request of t1
    run("a window without the lower holder", "check mpcp-c", "invalid small t3\n", 1, LOWEST, cert=certificate("mpcp-c", [7, 9, 27, 35], LOWEST_DUALS, LOWEST)),
    run("with it", "check mpcp-c", "valid\n", 0, LOWEST, cert=certificate("mpcp-c", [7, 9, 28, 35], LOWEST_DUALS, LOWEST)),
]

# In each of these t3, and in the last one t4, is blocked for as long as its value says, which is less than under MPCP.
SCHEDULES = [
    audited("direct waits", "mpcp-c", PLAIN, "t1,0,1 q:1 1\nt2,0,1 q:1 1\nt3,0,1 q:1 18\n",
            "1,1,2,3,\n1,1,,,1\n1,1,2,,2\n1,,2,3,3\n18,,,3,\n",
            "kept 22\nt1 3 4 0 1 0 0 0\nt2 4 5 1 2 1 0 0\nt3 22 22 2 2 2 0 0\n"),
    audited("shared holdings in waits", "mpcp-c", BESIDE, "t1,0,1 r:1 1\nt2,0,1 r:1 1\nt3,0,1 r:1 38\nt4,0,1 q:2\n",
            "1,1,2,3,,\n1,1,4,,,1\n1,1,4,,4,2\n1,,4,,4,2\n1,,2,,,2\n1,,2,3,,3\n38,,,3,,\n",
            "kept 44\nt1 3 9 0 6 0 0 0\nt2 6 9 3 6 1 0 2\nt3 44 44 4 4 2 2 0\nt4 4 21 0 2 0 0 0\n"),
    # a job of t3 holds q first, and its next one holds r. The request of s waits for t2's, and so it is granted when t3's of r is
    audited("holdings by resource in waits", "mpcp-c", BY_RESOURCE,
            "t1,0,1 q:1\nt2,29,1 s:1\nt3,0,1 q:1 1\nt3,30,1 r:1\nt4,0,1 q:1 26 r:1 11\nt5,0,1 u:1 25 s:3\n",
            "1,5,3,1,,,,\n1,,6,1,1,,,\n1,,6,,3,,,6\n1,,3,,3,,,\n1,5,3,,5,,,\n24,5,6,,,,,\n1,5,6,2,,,,\n1,5,4,2,,,2,\n3,,6,,,4,6,\n1,,4,,,4,,\n"
            "1,5,,,,5,,\n11,5,,,,,,\n",
            "kept 47\nt1 2 9 0 4 0 0 0\nt2 2 14 0 4 0 0 0\nt3 5 17 3 12 1 0 4\nt4 47 47 7 7 3 4 0\nt5 34 44 0 3 0 0 0\n"),
]

CASES = ANALYSES + CERTIFICATES + SCHEDULES
