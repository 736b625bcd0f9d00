"""The command `settle`: where `analyse` or `refute` has an answer it is the same one, and where they are wide a search settles the set."""
import re

from setting import FULL, TOP, Case, Folder, Room, Saved
from sets import FIVE, HOME, HOMELESS, PAIR, PAIR_CERTIFICATE, SHORT, SHORT_REFUSAL, SIX, WIDE, digest_of, pair, refusal, resource, step, task, task_set

WORDS = ("mpcp", "fmlp+", "dpcp", "dflp", "dpcp-w", "spin", "mpcp-c", "fmlp+-c", "dpcp-c", "dflp-c", "spin-c")
SHIPPED = (TOP / "examples" / "wide.json").read_text()
PLANT = (TOP / "examples" / "plant.json").read_text()
# the first task is late
HOME_SHORT = pair(first={"deadline": 4})
# lengths of which no two share a divisor, and what is left of a cost beside another request
LENGTHS = (4194304, 4782969, 9765625)
LEFT = (1234567, 765431, 4999991)
# six lengths whose reciprocals come to a thousandth, but for a trillionth
NEAR = (4999, 5003, 5009, 6007, 4275, 20535676)

# The least bounds of the sets below are those of the rounds in exact fractions of any size. So are the blocking of the first task of each, and the
# best points and duals that comments speak of.
SHIPPED_BOUNDS = {
    "mpcp": [24617120, 26689594, 26689594],
    "fmlp+": [27889594, 26189594, 26289594],
    "dpcp": [27889594, 26689594, 26689594],
    "dflp": [27889594, 26489594, 26289594],
    "dpcp-w": [27889594, 26489594, 26489594],
    "spin": [27889594, 26189594, 26289594],
    "mpcp-c": [24617120, 26289594, 26489594],
    "fmlp+-c": [27889594, 26189594, 26289594],
    "dpcp-c": [27889594, 26489594, 26489594],
    "dflp-c": [27889594, 26489594, 26289594],
    "spin-c": [27889594, 26189594, 26289594],
}


def halves(deadline=10**9):
    """A set whose first task has one best point under MPCP, which is worth whole ticks and has a least common denominator of 68 bits. Its requests
    meet two of each length, whose shares are one together."""
    tasks = [(length, left) for length, rest in zip(LENGTHS, LEFT) for left in (rest, length - rest)]
    others = (task(f"t{k}", k, 10**9, 10**7 + left, ("q1", length), (f"q{k}", 10**7)) for k, (length, left) in enumerate(tasks, 2))
    own = [("q1", 1, 4), *((f"q{k}", 1) for k in range(2, 8))]
    resources = [resource(f"q{k}") for k in range(1, 8)]
    return task_set(8, resources, task("t1", 1, 10**9, 20, *own, deadline=deadline), *others, task("t8", 8, 10**9, 2001, ("q1", 1000, 2)))


HALVES_BOUNDS = {
    "mpcp": [78743918, 21000197, 26919671, 28919669, 36954745, 42720167, 42486810, 37487801],
    "fmlp+": [78744918, 44527061, 46252231, 43469260, 46721367, 42721164, 42486807, 37487799],
    "spin": [78744918, 44527061, 46252231, 43469260, 46721367, 42721164, 42486807, 37487799],
    "mpcp-c": [78743918, 21000195, 26919670, 28919669, 36954745, 42720167, 42486810, 37487801],
}


def whole_costs(deadline=10**6):
    """A set whose first task waits for eight others. Each requests a resource of its own twice, and has the cost for less than both requests. So at
    each best point the two are its cost over its length. The lengths are different primes, and none divides its cost. So the least common
    denominator has 65 bits."""
    lengths = (257, 263, 269, 271, 277, 281, 283, 293)
    others = (task(f"t{k}", k, 10**6, length + 100 + k, (f"q{k}", length, 2)) for k, length in enumerate(lengths, 2))
    own = [(f"q{k}", 1, 2) for k in range(2, 10)]
    return task_set(9, [resource(f"q{k}") for k in range(2, 10)], task("t1", 1, 10**6, 20, *own, deadline=deadline), *others)


# t1 is blocked for 3038 ticks, all costs of the others together, and lasts 20 itself
WHOLE_COSTS_BOUNDS = [3058, 361, 368, 375, 378, 385, 390, 393, 404]


def nearly_whole(deadline=10**9):
    """A set whose first task is blocked for a trillionth of a tick less than 600001005 under MPCP. The only best dual has a least common
    denominator of 80 bits and a number of 300000000. Rounded up it comes to 600001005."""
    others = (task(f"t{k}", k, 10**9, 50000001, ("q1", length), (f"q{k}", 50000000)) for k, length in enumerate(NEAR, 2))
    own = [(f"q{k}", 1) for k in range(1, 8)]
    last = task("t8", 8, 10**9, 2000, ("q1", 1000)), task("t9", 9, 10**9, 300000010, ("q9", 300000000))
    return task_set(9, [resource(f"q{k}") for k in (*range(1, 8), 9)], task("t1", 1, 10**9, 20, *own, ("q9", 1), deadline=deadline), *others, *last)


# under FMLP+ each program ends, and t1's point has no form
MIXED = task_set(
    2,
    [resource("q1"), resource("q2")],
    task("t1", 1, 40000, 436, ("q2", 401, 2), ("q1", 19, 2)),
    task("t2", 2, 40000, 702, ("q1", 271), ("q2", 701)),
    task("t3", 2, 50000, 464, ("q2", 283, 2)),
    task("t4", 1, 50000, 2527, ("q1", 467, 2), ("q2", 953, 2)),
    task("t5", 1, 200000, 2610, ("q2", 773, 2), ("q1", 601, 2)),
    task("t6", 2, 1000000, 2097, ("q1", 509), ("q2", 937, 2)),
    task("t7", 1, 1000000, 1380, ("q2", 797, 2), deadline=9136),
    task("t8", 2, 1000000, 1064, ("q1", 991), ("q2", 409)),
)

# The walk ends in its first round, at t7. So t7 needs no other step. Six tasks give steps before it. The point is t7's best one, in fractions.
MIXED_REFUSAL = refusal("fmlp+", MIXED, step(7, 11057, 81138647, 49886957, 133032976, 0, 162277294, 81138647, 14481959, den=81138647))


def same(shows, command, protocol, text):
    """The bytes that another command writes."""
    status = 1 if command == "refute" else 0
    return Case(f"{shows}, {protocol}", f"settle {protocol} set", Saved("other"), status, {"set": text}, before=((f"{command} {protocol} set", "other"),))


def bounded(shows, protocol, text, bounds):
    """The least bounds, in a certificate that `check` finds valid."""
    written = re.compile(re.escape(f'{{"bounds":{bounds},'.replace(" ", "")) + rf'"duals":.*,"protocol":"{re.escape(protocol)}","set":"{digest_of(text)}","verdict":"schedulable","version":2}}\n')
    return [
        Case(f"{shows}, {protocol}", f"settle {protocol} set", written, 0, {"set": text}),
        Case(f"{shows}, checked, {protocol}", f"check {protocol} set cert", "valid\n", 0, {"set": text}, before=((f"settle {protocol} set", "cert"),)),
    ]


def refused(shows, protocol, text, analysed="wide t1\n"):
    """A refusal that `confirm` confirms, of a set that `refute` is too wide for."""
    return [
        Case(f"{shows}, analysed", f"analyse {protocol} set", analysed, 5 if analysed.startswith("wide") else 1, {"set": text}),
        Case(f"{shows}, to be refuted", f"refute {protocol} set", "wide t1\n", 5, {"set": text}),
        Case(f"{shows}, confirmed", f"confirm {protocol} set cert", "confirmed\n", 0, {"set": text}, before=((f"settle {protocol} set", "cert", 1),)),
    ]


def unwritable(protocol, text, analysed):
    """No best point of the first task has 63 bits, though the analysis isn't wide."""
    return [
        Case(f"no best point has a form, analysed, {protocol}", f"analyse {protocol} set", analysed, 1, {"set": text}),
        Case(f"no best point has a form, to be refuted, {protocol}", f"refute {protocol} set", "wide t1\n", 5, {"set": text}),
        Case(f"no best point has a form, {protocol}", f"settle {protocol} set", "wide t1\n", 5, {"set": text}),
    ]


def steps_alone(protocol, text, *steps):
    """A refusal whose steps have these tasks and values, with any points."""
    each = ",".join(rf'\{{"point":\{{"den":\d+,"num":\[[\d,]*\]\}},"task":{number},"value":{value}\}}' for number, value in steps)
    return re.compile(rf'\{{"protocol":"{re.escape(protocol)}","set":"{digest_of(text)}","steps":\[{each}\],"verdict":"notshown","version":1\}}\n')


def ended(shows, words, says, status, text, **more):
    return Case(shows, f"settle {words}", says, status, {"set": text}, **more)


SAME = [
    *(same("what analyse writes", "analyse", word, text) for word in WORDS for text in (PAIR, PLANT)),
    *(same("what refute writes", "refute", word, HOME_SHORT) for word in WORDS),
    same("a point over the denominator 3", "refute", "mpcp", SIX.replace('"period": 100, "cost": 4', '"period": 100, "deadline": 7, "cost": 4', 1)),
    same("two resources of one home", "analyse", "dpcp-c", HOME),
    same("two tasks of one processor", "analyse", "spin-c", FIVE),
    same("whole blocking with a wide point", "analyse", "fmlp+", halves()),
    ended("the certificate itself", "fmlp+ set", PAIR_CERTIFICATE, 0, PAIR),
    ended("the refusal itself", "mpcp set", SHORT_REFUSAL, 1, SHORT),
]

WIDE_AND_SHOWN = [
    *(case for word in WORDS for case in bounded("the example", word, SHIPPED, SHIPPED_BOUNDS[word])),
    *(case for word, bounds in HALVES_BOUNDS.items() for case in bounded("whole blocking with a wide point", word, halves(), bounds)),
    Case("analyse is wide", "analyse mpcp set", "wide t1\n", 5, {"set": halves()}),
    Case("the table of its certificate", "report mpcp set cert", re.compile(r"task .*\nsteer .* 24617120 +22617120 +25382880\n(.*\n)*"), 0, {"set": SHIPPED},
         before=(("settle mpcp set", "cert"),)),
    Case("its certificate under another word", "check mpcp-c set cert", "refused cert otherprotocol\n", 3, {"set": SHIPPED}, before=(("settle mpcp set", "cert"),)),
    Case("its certificate and a set with a space more", "check mpcp other cert", "invalid otherset\n", 1, {"set": SHIPPED, "other": SHIPPED + " "},
         before=(("settle mpcp set", "cert"),)),
]

# With two ticks less than its bound the first task is refused by a point that is rounded down. With one less only the one best point will do, which
# has no form. The walk of WIDE gives six steps: t1 900001012, t2, t3, t4 and t5, and in the next round t1 1168435466.
WIDE_AND_NOT_SHOWN = [
    *refused("a program too wide", "mpcp", WIDE),
    *refused("two ticks below the bound", "mpcp", halves(78743916)),
    *refused("one tick below a bound that is nearly one more", "mpcp", nearly_whole(600001023)),
    *refused("a point too wide", "fmlp+", MIXED, "not shown t7 11057 9136\n"),
    *refused("a point too wide, under MPCP", "mpcp", MIXED, "not shown t7 11280 9136\n"),
    ended("without six steps that the last one doesn't need", "fmlp+ set", MIXED_REFUSAL, 1, MIXED),
    ended("with one step of six that the last one needs", "mpcp set", steps_alone("mpcp", WIDE, (1, 900001012), (1, 1168435466)), 1, WIDE),
]

NOT_SETTLED = [
    ended("the only best point has no form", "mpcp set", "wide t1\n", 5, halves(78743917)),
    ended("each dual that has a form comes to a tick more", "mpcp set", "wide t1\n", 5, nearly_whole()),
    *(case for word in ("fmlp+", "mpcp") for case in unwritable(word, whole_costs(3057), "not shown t1 3058 3057\n")),
    *bounded("a tick later", "fmlp+", whole_costs(3058), WHOLE_COSTS_BOUNDS),
]

ALLOWANCES = [
    ended("one unit is too few for two tasks", "fmlp+ set 1", "allowance\n", 6, PAIR),
    ended("one unit less than analyse takes", "fmlp+ set 7", "allowance\n", 6, PAIR),
    ended("as many as it takes", "fmlp+ set 8", PAIR_CERTIFICATE, 0, PAIR),
    ended("the greatest allowance", "fmlp+ set 1000000000", PAIR_CERTIFICATE, 0, PAIR),
    ended("too few for the rounds of a wide set", "mpcp set 17", "allowance\n", 6, halves()),
    Case("as many as show that it is wide", "analyse mpcp set 18", "wide t1\n", 5, {"set": halves()}),
    ended("are too few for the search", "mpcp set 18", "allowance\n", 6, halves()),
    Case("as many as show that it isn't shown", "analyse fmlp+ set 104", "not shown t7 11057 9136\n", 1, {"set": MIXED}),
    ended("are enough for the walk to a refusal", "fmlp+ set 104", MIXED_REFUSAL, 1, MIXED),
    ended("too few for the walk with rounded points", "mpcp set 149", "allowance\n", 6, halves(78743917)),
    ended("as many as it takes", "mpcp set 150", "wide t1\n", 5, halves(78743917)),
]

INPUTS = [
    ended("a set without homes", "dpcp set", "refused set nohome resource 1\n", 3, HOMELESS),
    ended("which needs none under another word", "mpcp set", re.compile(r'{"bounds":\[5,5\],.*}\n'), 0, HOMELESS),
    ended("no JSON", "mpcp set", "refused set notjson\n", 3, "{"),
    ended("no task", "mpcp set", "refused set notask\n", 3, '{"processors": 1, "tasks": []}'),
    ended("a cost above the deadline", "mpcp set", "refused set cost task 1\n", 3, pair(first={"deadline": 2})),
    Case("a set that isn't there", "settle mpcp none", "refused set absent\n", 3),
    Case("a folder", "settle mpcp set", "fault read set\n", 4, {"set": Folder()}),
]

OUTPUTS = [
    ended("a refusal to a full device", "mpcp set", "", 4, SHORT, out=FULL),
    ended("room for ten bytes of a refusal", "mpcp set", SHORT_REFUSAL[:10], 4, SHORT, out=Room(10)),
    ended("room for all of a refusal", "mpcp set", SHORT_REFUSAL, 1, SHORT, out=Room(len(SHORT_REFUSAL))),
    ended("what the search found, to a full device", "mpcp set", "", 4, SHIPPED, out=FULL),
]

FORMS = [
    ended("no set", "mpcp", "refused words\n", 2, PAIR),
    ended("no protocol", "set", "refused words\n", 2, PAIR),
    ended("an unknown protocol", "edf set", "refused words\n", 2, PAIR),
    ended("an allowance of 0", "mpcp set 0", "refused words\n", 2, PAIR),
    ended("an allowance above the greatest", "mpcp set 1000000001", "refused words\n", 2, PAIR),
    ended("an allowance that is no number", "mpcp set many", "refused words\n", 2, PAIR),
    ended("a word behind the allowance", "mpcp set 8 8", "refused words\n", 2, PAIR),
    Case("in capitals", "SETTLE mpcp set", "refused words\n", 2, {"set": PAIR}),
]

CASES = SAME + WIDE_AND_SHOWN + WIDE_AND_NOT_SHOWN + NOT_SETTLED + ALLOWANCES + INPUTS + OUTPUTS + FORMS
