"""Inputs that several cases share, and what is written of them."""
import hashlib
import json
import re


def resource(name, home=None):
    return {"name": name} if home is None else {"name": name, "home": home}


def task(name, processor, period, cost, *requests, **more):
    """A task; a request is a resource and a length, or a resource, a length and a count."""
    listed = [{"resource": one[0], "count": one[2] if len(one) > 2 else 1, "length": one[1]} for one in requests]
    return {"name": name, "processor": processor, "period": period, "cost": cost, "requests": listed, **more}


def set_of(processors, resources, *tasks):
    return {"processors": processors, "resources": resources, "tasks": list(tasks)}


def task_set(processors, resources, *tasks):
    """The text of the set."""
    return json.dumps(set_of(processors, resources, *tasks)) + "\n"


def digest_of(text):
    """What `sha256sum` prints of a file with this text."""
    return hashlib.sha256(text if isinstance(text, bytes) else text.encode()).hexdigest()


def tied(text, of):
    """The certificate with the digest of another set's text."""
    return re.sub('"set":"[0-9a-f]{64}"', f'"set":"{digest_of(of)}"', text)


def old(text):
    """The certificate as it was before it had a digest."""
    return re.sub('"set":"[0-9a-f]{64}",', "", text).replace('"version":2', '"version":1')


def certificate(protocol, bounds, duals, of=None):
    """The text of a certificate; a dual is a list of numerators over 1, or a denominator and such a list. It is of the pair, or of the set
    whose text is given."""
    whole = [dual if isinstance(dual, tuple) else (1, dual) for dual in duals]
    written = {
        "bounds": bounds,
        "duals": [{"den": den, "num": num} for den, num in whole],
        "protocol": protocol,
        "set": digest_of(PAIR if of is None else of),
        "verdict": "schedulable",
        "version": 2,
    }
    return json.dumps(written, separators=(",", ":")) + "\n"


def pair(resources=None, first=None, second=None):
    """Two tasks on two processors that share the resource q, or the same with some members changed."""
    one = {**task("t1", 1, 10, 3, ("q", 1)), **(first or {})}
    two = {**task("t2", 2, 10, 4, ("q", 2)), **(second or {})}
    return task_set(2, [resource("q", 2)] if resources is None else resources, one, two)


PAIR = pair()
HOMELESS = pair([resource("q")])
PAIR_CERTIFICATE = certificate("fmlp+", [5, 5], [[2, 0, 0, 0], [1, 0, 0, 0]])
OLD_PAIR_CERTIFICATE = old(PAIR_CERTIFICATE)
PAIR_JOBS = "task,release,script\nt1,0,1 q:1 1\nt2,0,1 q:2 1\n"
PAIR_ROWS = "ticks,P1,P2,q\n1,1,2,\n2,,2,2\n1,1,2,1\n1,1,,\n"
PAIR_MEASURED = "lawful 5\nt1 1 5 2\nt2 1 4 0\n"
PAIR_AUDITED = "kept 5\nt1 5 5 2 2 2 0 0\nt2 4 5 0 1 0 0 0\n"
PAIR_SIMULATED = "ticks,P1,P2,q\n1,1,2,\n1,1,,1\n1,1,2,2\n1,,2,2\n1,,2,\n"


def step(number, value, *num, den=1):
    """A step of a refusal: its task, counted from 1, the task's next bound, and a point's numerators over a denominator."""
    return {"point": {"den": den, "num": list(num)}, "task": number, "value": value}


def refusal(protocol, of, *steps):
    """The text of a refusal of the set whose text is given."""
    written = {"protocol": protocol, "set": digest_of(of), "steps": list(steps), "verdict": "notshown", "version": 1}
    return json.dumps(written, separators=(",", ":")) + "\n"


SHORT = pair(first={"deadline": 4})
SHORT_REFUSAL = refusal("mpcp", SHORT, step(1, 5, 1))

HEADER = "task                            cpu     period   deadline       cost      local\n"
PAIR_TABLE = (
    HEADER
    + "t1                                1         10         10          3          3\n"
    + "t2                                2         10         10          4          4\n"
    + "load 1 300000\nload 2 400000\n"
)
PAIR_FULL_TABLE = (
    "task                            cpu     period   deadline       cost      local      bound   blocking      slack\n"
    "t1                                1         10         10          3          3          5          2          5\n"
    "t2                                2         10         10          4          4          5          1          5\n"
    "load 1 300000\nload 2 400000\n"
)

# t1 may be released up to 4 ticks after it arrives, so that two of its jobs may come 6 ticks apart
LATE = task_set(1, [], task("t1", 1, 10, 2, jitter=4), task("t2", 1, 20, 5))
LATE_CERTIFICATE = certificate("fmlp+", [2, 9], [[], []], LATE)
LATE_JOBS = "task,arrival,release,script\nt1,0,4,2\nt1,10,10,2\nt2,4,4,5\n"
LATE_ROWS = "ticks,P1\n4,\n2,1\n4,3\n2,2\n1,3\n"
LATE_MEASURED = "lawful 13\nt1 2 2 0\nt2 1 9 0\n"

# each of eight generated sets, one of each step, is schedulable under each protocol
STUDIED = "step mpcp fmlp+ dpcp\n" + "".join(f"{step} 1 1 1\n" for step in range(1, 9)) + "stopped 0\n"

# two resources of one home, on a processor without tasks
HOME = task_set(3, [resource("a", 3), resource("b", 3)], task("t1", 1, 20, 4, ("a", 1), ("b", 1)), task("t2", 2, 20, 4, ("a", 2)))
HOME_JOBS = "task,release,script\nt1,1,1 b:1 1\nt2,0,1 a:2 1\n"
HOME_ROWS = "ticks,P1,P2,P3,a,b\n1,,2,,,\n1,1,,2,2,\n1,,,2,2,\n1,,2,1,,1\n1,1,,,,\n"

FIVE = task_set(2, [resource("q")], task("t1", 1, 10, 2), task("t2", 1, 20, 4, ("q", 2)), task("t3", 2, 20, 5, ("q", 3)))

SIX = task_set(
    3,
    [resource("q1"), resource("q2")],
    task("t1", 1, 100, 4, ("q1", 1), ("q2", 1)),
    task("t2", 2, 100, 4, ("q1", 3), ("q2", 2)),
    task("t3", 3, 100, 3, ("q1", 2)),
)
SIX_CERTIFICATE = certificate("mpcp", [8, 8, 7], [(3, [0, 4, 0, 1, 0, 6, 0]), [1, 1, 2, 0, 0, 0], [1, 3, 0, 0]], SIX)

# the program of t1 has one optimum, at a point whose least common denominator passes 64 bits
WIDE = task_set(
    5,
    [resource(f"q{k}") for k in range(1, 5)],
    task("t1", 1, 10**9, 10, ("q1", 1), ("q2", 1), ("q3", 1), ("q4", 1)),
    task("t2", 2, 10**9, 300000001, ("q1", 268435456), ("q2", 300000000)),
    task("t3", 3, 10**9, 300000001, ("q1", 129140163), ("q3", 300000000)),
    task("t4", 4, 10**9, 300000001, ("q1", 244140625), ("q4", 300000000)),
    task("t5", 5, 10**9, 2000, ("q1", 1000)),
)

# as many processors, tasks, resources and requests as a set may have, with the longest names
NAMES = [f"{k:_>32}" for k in range(64)]
GREATEST = task_set(
    64,
    [resource(f"{k:.>32}", k + 1) for k in range(32)],
    *(task(NAMES[k], k + 1, 10**9, 10**9, *((f"{q % 32:.>32}", 1, 1) for q in range(4 * k, 4 * k + 4))) for k in range(64)),
)
