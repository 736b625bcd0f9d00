"""The commands `refute` and `confirm`."""
from setting import Case
from sets import HOMELESS, PAIR, PAIR_CERTIFICATE, SIX, SHORT, SHORT_REFUSAL, digest_of, pair, refusal, resource, step, task, task_set, tied

GREATEST = 2**63 - 1
BOTH_LATE = pair(second={"deadline": 4})
FIVE_SHORT = task_set(2, [resource("q")], task("t1", 1, 10, 2), {**task("t2", 1, 20, 4, ("q", 2)), "deadline": 10}, task("t3", 2, 20, 5, ("q", 3)))
FIVE_REFUSAL = refusal("fmlp+", FIVE_SHORT, step(1, 4, 1), step(2, 9, 1), step(3, 7, 1), step(2, 11, 1))
HOMELESS_SHORT = pair([resource("q")], {"deadline": 4})
# of the first task 4 + 4 is more than its deadline of 7; its best point is 2/3, 1 and 1/3
SIX_SHORT = SIX.replace('"period": 100, "cost": 4', '"period": 100, "deadline": 7, "cost": 4', 1)
# the first task is released up to 6 ticks after its arrival, so that 4 are left before its deadline
FIRST_LATE = pair(first={"jitter": 6})
FULL = task_set(1, [], *(task(f"t{i}", 1, 100, 30) for i in range(4)))


def refuted(shows, says, set, protocol="mpcp", status=0, more=""):
    return Case(shows, f"refute {protocol} set{more}", says, status, {"set": set})


def confirmed(shows, says, text, set=SHORT, protocol="mpcp"):
    status = 3 if says.startswith("refused ") else 1 if says.startswith("invalid ") else 0
    return Case(shows, f"confirm {protocol} set cert", says + "\n", status, {"set": set, "cert": text})


def changed(old, new):
    return SHORT_REFUSAL.replace(old, new, 1)


REFUTED = [
    refuted("a set of which one task is late", SHORT_REFUSAL, SHORT),
    refuted("a step for each value that rises", FIVE_REFUSAL, FIVE_SHORT, "fmlp+"),
    refuted("a step of a task before the one that is late", refusal("fmlp+", BOTH_LATE, step(1, 5, 1), step(2, 5, 1)), BOTH_LATE, "fmlp+"),
    refuted("a point over the denominator 3", refusal("mpcp", SIX_SHORT, step(1, 8, 2, 3, 1, den=3)), SIX_SHORT),
    refuted("a set without homes", refusal("mpcp", HOMELESS_SHORT, step(1, 5, 1)), HOMELESS_SHORT),
    refuted("a set that is schedulable has none", "schedulable\n", PAIR, "fmlp+", 1),
    refuted("two rounds of two programs, each with one exchange", "schedulable\n", PAIR, "fmlp+", 1, " 8"),
    refuted("one unit fewer", "allowance\n", PAIR, "fmlp+", 6, " 7"),
    refuted("tasks that request nothing", refusal("fmlp+", FULL, step(2, 60), step(3, 90), step(4, 120)), FULL, "fmlp+"),
    refuted("one unit is too few for two tasks", "allowance\n", PAIR, "fmlp+", 6, " 1"),
    refuted("an allowance of 0 has no form", "refused words\n", PAIR, "fmlp+", 2, " 0"),
    refuted("the set is refused as for an analysis", "refused set nohome resource 1\n", HOMELESS, "dpcp", 3),
]

CONFIRMED = [
    confirmed("what was written", "confirmed", SHORT_REFUSAL),
    confirmed("four steps", "confirmed", FIVE_REFUSAL, FIVE_SHORT, "fmlp+"),
    confirmed("members in another order, with spaces", "confirmed",
              f'{{ "version": 1, "verdict": "notshown", "steps": [{{"value": 5, "task": 1, "point": {{"num": [1], "den": 1}}}}], "set": "{digest_of(SHORT)}", "protocol": "mpcp" }}'),
    confirmed("the same point over another denominator", "confirmed", refusal("mpcp", SHORT, step(1, 5, 3, den=3))),
    confirmed("the same over the greatest one", "confirmed", refusal("mpcp", SHORT, step(1, 5, GREATEST, den=GREATEST))),
    confirmed("half of it", "invalid step 1 low", refusal("mpcp", SHORT, step(1, 5, 1, den=2))),
    confirmed("the greatest value", "invalid step 1 low", refusal("mpcp", SHORT, step(1, 2**64 - 1, 1))),
    confirmed("a value that doesn't rise", "invalid step 2 rising", refusal("mpcp", SHORT, step(1, 4, 1), step(1, 4, 1))),
    confirmed("a value that rises twice", "confirmed", refusal("mpcp", SHORT, step(1, 4, 1), step(1, 5, 1))),
    confirmed("no number", "invalid step 1 size", refusal("mpcp", SHORT, step(1, 5))),
    confirmed("a value that only the bounds of the steps before it show", "invalid step 2 low", refusal("fmlp+", FIVE_SHORT, step(1, 4, 1), step(2, 11, 1)), FIVE_SHORT, "fmlp+"),
    confirmed("three of the four steps", "invalid open", refusal("fmlp+", FIVE_SHORT, step(1, 4, 1), step(2, 9, 1), step(3, 7, 1)), FIVE_SHORT, "fmlp+"),
    confirmed("a value above the deadline less the jitter", "confirmed", refusal("mpcp", FIRST_LATE, step(1, 5, 1)), FIRST_LATE),
    confirmed("a value at the deadline less the jitter", "invalid open", refusal("mpcp", FIRST_LATE, step(1, 4, 1)), FIRST_LATE),
    confirmed("a point that breaks a row", "invalid step 1 row 1", refusal("mpcp", SHORT, step(1, 5, 2))),
    confirmed("a value above what the point shows", "invalid step 1 low", refusal("mpcp", SHORT, step(1, 6, 1))),
    confirmed("a value that passes nothing", "invalid open", refusal("mpcp", SHORT, step(1, 4, 1))),
    confirmed("a value that isn't above the cost", "invalid step 1 rising", refusal("mpcp", SHORT, step(1, 3, 1))),
    confirmed("a step behind the last", "invalid step 2 after", refusal("mpcp", SHORT, step(1, 5, 1), step(1, 5, 1))),
    confirmed("no step", "invalid open", refusal("mpcp", SHORT)),
    confirmed("no task 0", "invalid step 1 task", refusal("mpcp", SHORT, step(0, 5, 1))),
    confirmed("no task 3", "invalid step 1 task", refusal("mpcp", SHORT, step(3, 5, 1))),
    confirmed("a number too many", "invalid step 1 size", refusal("mpcp", SHORT, step(1, 5, 1, 0))),
    confirmed("the greatest numbers", "invalid step 1 low", refusal("mpcp", SHORT, step(1, 2**64 - 1, 1, den=2**63 - 1))),
    confirmed("the greatest number over 1", "invalid step 1 row 1", refusal("mpcp", SHORT, step(1, 5, 2**63 - 1))),
    confirmed("a step that isn't one at its own vector", "invalid step 1 low", refusal("fmlp+", FIVE_SHORT, step(2, 11, 1)), FIVE_SHORT, "fmlp+"),
    confirmed("a refusal of another set", "invalid otherset", SHORT_REFUSAL, PAIR),
    confirmed("of the same set with a space more", "invalid otherset", SHORT_REFUSAL, SHORT + " "),
    confirmed("another set's before one with a fault", "invalid otherset", tied(refusal("mpcp", SHORT), PAIR)),
    confirmed("the set that is schedulable", "invalid open", tied(SHORT_REFUSAL, PAIR), PAIR),
    confirmed("no JSON", "refused cert notjson", "{"),
    confirmed("a certificate", "refused cert shape", PAIR_CERTIFICATE, PAIR, "fmlp+"),
    confirmed("another version", "refused cert shape", changed('"version":1', '"version":2')),
    confirmed("another verdict", "refused cert shape", changed("notshown", "schedulable")),
    confirmed("a member that isn't listed", "refused cert shape", changed('"version"', '"sets":1,"version"')),
    confirmed("a denominator of 0", "refused cert shape", changed('"den":1', '"den":0')),
    confirmed("a number of 2^63", "refused cert shape", changed("[1]", "[9223372036854775808]")),
    confirmed("a value of 2^64", "refused cert shape", changed('"value":5', '"value":18446744073709551616')),
    confirmed("a refusal for another protocol", "refused cert otherprotocol", SHORT_REFUSAL, protocol="fmlp+"),
    confirmed("the set is read first", "refused set nohome resource 1", "{", HOMELESS, "dpcp"),
    Case("a refusal that isn't there", "confirm mpcp set none", "refused cert absent\n", 3, {"set": SHORT}),
    Case("no refusal is no form", "confirm mpcp set", "refused words\n", 2, {"set": SHORT}),
]

CASES = REFUTED + CONFIRMED
