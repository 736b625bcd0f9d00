"""The rounds of an analysis: the units that they take, solutions that are taken over, and stops of several tasks in one round."""
import re

from setting import Case
from sets import FIVE, PAIR, SIX, certificate, digest_of, resource, task, task_set

MOST = 1_000_000
ALONE = task_set(1, [], task("t1", 1, 4, 1), task("t2", 1, 6, 2), task("t3", 1, 20, 3))
# a task that leaves one tick in each of its periods, and one that requests nothing either
MANY = task_set(1, [], task("t1", 1, 1000, 999), task("t2", 1, 10**9, 1500))
# two tasks without room for the lower one
FULL = task_set(1, [], task("t1", 1, 2, 1), task("t2", 1, 2, 2))
# a task below another that requests nothing, and a long third one elsewhere, of which two jobs come to count for the second
LONGER = task_set(2, [resource("q")], task("t1", 1, 10, 2), task("t2", 1, 20, 4, ("q", 2)), task("t3", 2, 20, 10, ("q", 3)))


def wide(before=0, behind=0):
    """Five tasks of which the first has a program that is too wide. On a sixth processor stand two tasks without room for the lower one, and so many of
    them come before the five or behind."""
    late = [task("high", 6, 2, 1), task("low", 6, 2, 2)]
    return task_set(
        6 if before or behind else 5,
        [resource(f"q{k}") for k in range(4)],
        *late[:before],
        task("first", 1, 10**9, 10, ("q0", 1), ("q1", 1), ("q2", 1), ("q3", 1)),
        task("second", 2, 10**9, 300000001, ("q0", 268435456), ("q1", 300000000)),
        task("third", 3, 10**9, 300000001, ("q0", 129140163), ("q2", 300000000)),
        task("fourth", 4, 10**9, 300000001, ("q0", 244140625), ("q3", 300000000)),
        task("fifth", 5, 10**9, 2000, ("q0", 1000)),
        *late[:behind],
    )


def twenty(cost):
    """Twenty tasks, each on a processor of its own, that request each of four resources. The first one has this cost."""
    requests = [(f"r{q}", 1) for q in range(4)]
    others = (task(f"t{k}", k, 1000, 40, *requests) for k in range(2, 21))
    return task_set(20, [resource(f"r{q}") for q in range(4)], task("t1", 1, 1000, cost, *requests), *others)


def bounded(shows, protocol, set, units, bounds, duals, one_less=True):
    """The bounds that so many units are enough for; with one less there is no answer."""
    says = certificate(protocol, bounds, duals, set)
    enough = Case(f"{shows}: {units} units", f"analyse {protocol} set {units}", says, 0, {"set": set})
    return [enough, *([short(shows, protocol, set, units - 1)] if one_less else [])]


def short(shows, protocol, set, units):
    return Case(f"{shows}: {units} units are too few", f"analyse {protocol} set {units}", "allowance\n", 6, {"set": set})


def stopped(shows, set, says, units=MOST):
    return Case(shows, f"analyse mpcp set {units}", f"{says}\n", {"wide": 5, "allowance": 6}.get(says.split()[0], 1), {"set": set})


# the vectors 1 2 3, 1 3 6, 1 3 9 and 1 3 10 take a unit for each program; those of MANY are 1500 + 999 k with k jobs of the first task, one or two
# more in each round
UNITS = [
    *bounded("four rounds of three tasks", "fmlp+", ALONE, 12, [1, 3, 10], [[], [], []]),
    *bounded("more than a thousand rounds", "fmlp+", MANY, 3000, [999, 1500000], [[], []], one_less=False),
    short("more than a thousand rounds", "fmlp+", MANY, 2500),
    *bounded("a tie of ratios falls to the first row", "fmlp+", PAIR, 8, [5, 5], [[2, 0, 0, 0], [1, 0, 0, 0]]),
    *bounded("requests run at their home", "dpcp", PAIR, MOST, [5, 5], [[2, 0, 0], [1, 0]], one_less=False),
    *bounded("two jobs of the first task", "fmlp+", FIVE, 18, [4, 11, 7], [[2, 0, 0], [3, 0, 0, 0], [2, 0, 0, 0]], one_less=False),
    *bounded("two rounds of 5 + 4 + 3 units", "mpcp", SIX, 24, [8, 8, 7], [(3, [0, 4, 0, 1, 0, 6, 0]), [1, 1, 2, 0, 0, 0], [1, 3, 0, 0]]),
    # the vectors 2 4 10, 4 9 12 and 4 11 12: in the second round the first task's solution alone is taken over, in the third all are
    *bounded("what is taken over counts its units", "fmlp+", LONGER, 18, [4, 11, 12], [[2, 0, 0], [0, 0, 3, 0], [0, 0, 2, 0]]),
    Case("a task without room", f"analyse fmlp+ set {MOST}", "not shown t2 3 2\n", 1, {"set": FULL}),
]

# the first stop in the order of the tasks is answered, though the programs of these rounds are solved side by side
STOPS = [
    stopped("a program that is too wide", wide(), "wide first"),
    stopped("a late task before it", wide(before=2), "not shown low 3 2"),
    stopped("a late task behind it", wide(behind=2), "wide first"),
    stopped("one unit, which the task before it takes", wide(before=1), "allowance", 1),
    stopped("two units, of which one is left for it", wide(before=1), "allowance", 2),
    stopped("a wide program of the second thread", wide(before=1), "wide first"),
]

# each request waits for one of each other task: 40 + 4 * 19, and 1000 + 4 * 19
TWENTY = re.compile(rf'{{"bounds":\[{",".join(20 * ["116"])}\],"duals":.*,"protocol":"fmlp\+","set":"{digest_of(twenty(40))}","verdict":"schedulable","version":2}}\n')
THREADS = [
    Case("a round of several threads", f"analyse fmlp+ set {MOST}", TWENTY, 0, {"set": twenty(40)}),
    Case("a late task before nineteen others", f"analyse fmlp+ set {MOST}", "not shown t1 1076 1000\n", 1, {"set": twenty(1000)}),
    # each of the twenty programs has columns that block, so its run takes two units or more
    short("a round of several threads", "fmlp+", twenty(40), 39),
]

CASES = UNITS + STOPS + THREADS
