"""The command `analyse`: its verdicts, its stops, and sets that are refused."""
from setting import Case
from sets import FIVE, GREATEST, HOMELESS, NAMES, PAIR, PAIR_CERTIFICATE, SIX, SIX_CERTIFICATE, WIDE, certificate, pair, resource, task, task_set, tied


def analysed(shows, words, says, text, status=0):
    """A certificate that is given is taken as one of this set."""
    return Case(shows, words, tied(says, text), status, {"set": text})


def refused(shows, reason, text, protocol="fmlp+"):
    return Case(shows, f"analyse {protocol} set", f"refused set {reason}\n", 3, {"set": text})


def many(tasks=1, resources=0, processors=1, requests=0):
    """A set of tasks without requests, but for one that names one resource so often."""
    listed = [task(f"t{k}", 1, 10**9, 1) for k in range(tasks)]
    listed[0]["requests"] = [{"resource": "r0", "count": 1, "length": 1}] * requests
    return task_set(processors, [resource(f"r{k}") for k in range(resources)], *listed)


def late(jitter, second=None):
    """A task whose jobs are released up to so many ticks after they arrive, and a lower one."""
    return task_set(1, [], task("t1", 1, 10, 2, jitter=jitter), {**task("t2", 1, 20, 5), **(second or {})})


LONG = task_set(1, [], task("t1", 1, 1000, 999), task("t2", 1, 10**9, 1500))

VERDICTS = [
    analysed("the least bounds under FMLP+", "analyse fmlp+ set", PAIR_CERTIFICATE, PAIR),
    analysed("the same under DPCP", "analyse dpcp set", certificate("dpcp", [5, 5], [[2, 0, 0], [1, 0]]), PAIR),
    analysed("a bound at its deadline", "analyse mpcp set", certificate("mpcp", [5, 5], [[2, 0, 0], [1, 0]]), pair(first={"deadline": 5})),
    analysed("a value above its deadline", "analyse mpcp set", "not shown t1 5 4\n", pair(first={"deadline": 4}), 1),
    analysed("a dual over the denominator 3", "analyse mpcp set", SIX_CERTIFICATE, SIX),
    analysed("waiting that lets a higher task come twice", "analyse fmlp+ set", certificate("fmlp+", [4, 11, 7], [[2, 0, 0], [3, 0, 0, 0], [2, 0, 0, 0]]), FIVE),
    analysed("a higher task that comes late, so that two of its jobs come close", "analyse fmlp+ set", certificate("fmlp+", [2, 9], [[], []]), late(4)),
    analysed("the units of the three rounds that it takes", "analyse fmlp+ set 6", certificate("fmlp+", [2, 9], [[], []]), late(4)),
    analysed("one unit fewer", "analyse fmlp+ set 5", "allowance\n", late(4), 6),
    analysed("the same without jitter", "analyse fmlp+ set", certificate("fmlp+", [2, 7], [[], []]), late(0)),
    analysed("the greatest jitter that leaves room for the cost", "analyse fmlp+ set", certificate("fmlp+", [2, 9], [[], []]), late(8)),
    analysed("a value above the deadline less the jitter", "analyse fmlp+ set", "not shown t2 9 8\n", late(4, {"jitter": 12}), 1),
    analysed("a program too wide", "analyse mpcp set", "wide t1\n", WIDE, 5),
    analysed("the units that two rounds take", "analyse fmlp+ set 8", PAIR_CERTIFICATE, PAIR),
    analysed("one unit too few", "analyse fmlp+ set 7", "allowance\n", PAIR, 6),
    analysed("the greatest allowance", "analyse fmlp+ set 1000000000", PAIR_CERTIFICATE, PAIR),
    analysed("no home is needed under MPCP", "analyse mpcp set", certificate("mpcp", [5, 5], [[2, 0, 0], [1, 0]]), HOMELESS),
    # after k jobs of t1 the bound of t2 is 1500 + 999 k, so it stands still at 1,500 jobs, one or two more in each round
    analysed("more than a thousand rounds", "analyse fmlp+ set", certificate("fmlp+", [999, 1500000], [[], []]), LONG),
    # each of the first task's four requests waits for one of each of the seven other tasks that share its resources, a tick each
    analysed("a set with as much of all as a set may have", "analyse fmlp+ set", f"not shown {NAMES[0]} 1000000028 1000000000\n", GREATEST, 1),
    analysed("64 tasks without requests", "analyse fmlp+ set", certificate("fmlp+", list(range(1, 65)), 64 * [[]]), many(tasks=64)),
]

SETS = [
    refused("a member that isn't listed", "shape task 1", pair(first={"prio": 1})),
    refused("no task", "notask", task_set(1, [])),
    refused("65 processors", "size processors", many(processors=65)),
    refused("65 tasks", "size tasks", many(tasks=65)),
    refused("33 resources", "size resources", many(resources=33)),
    refused("257 requests", "size requests", many(resources=1, requests=257)),
    refused("a name with a space", "name resource 1", pair([resource("a b")])),
    refused("two tasks of one name", "twicename task 2", pair(second={"name": "t1"})),
    refused("a processor that isn't there", "processor task 2", pair(second={"processor": 3})),
    refused("the period of the first task before the cost of the second", "period task 1", pair(first={"period": 0}, second={"cost": 0})),
    refused("a deadline above the period", "deadline task 1", pair(first={"deadline": 11})),
    refused("a cost above the deadline", "cost task 2", pair(second={"cost": 11})),
    refused("a local limit above the cost", "local task 2", pair(second={"local": 5})),
    refused("a resource that isn't there", "resource request 1 1", pair([resource("r")])),
    refused("a resource named twice", "twicerequest request 1 2", pair(first={"requests": 2 * [{"resource": "q", "count": 1, "length": 1}]})),
    refused("a count of 1001", "count request 1 1", pair(first={"requests": [{"resource": "q", "count": 1001, "length": 1}]})),
    refused("a length equal to the cost", "length request 1 1", pair(first={"requests": [{"resource": "q", "count": 1, "length": 3}]})),
    refused("a home that isn't there", "home resource 1", pair([resource("q", 3)])),
    refused("a jitter above the deadline less the cost", "jitter task 1", late(9)),
    refused("a home before a jitter", "home resource 1", pair([resource("q", 3)], {"jitter": 8})),
    refused("a jitter that is no whole number", "shape task 1", late("4")),
    refused("no home under DPCP", "nohome resource 1", HOMELESS, "dpcp"),
]

CASES = VERDICTS + SETS
