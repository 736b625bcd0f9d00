"""The command `report`: tables."""
from setting import Case
from sets import GREATEST, HEADER, HOMELESS, NAMES, PAIR, PAIR_TABLE, pair, resource, task, task_set

GREATEST_TABLE = (
    HEADER
    + "".join(f"{NAMES[k]}{k + 1:3} 1000000000 1000000000 1000000000 1000000000\n" for k in range(64))
    + "".join(f"load {k} 1000000\n" for k in range(1, 65))
)

# 64 tasks that each take all of the last of 64 processors
CROWDED = task_set(64, [resource("q", 2)], *(task(f"t{k}", 64, 10**9, 10**9, ("q", 1)) for k in range(64)))
CROWDED_TABLE = (
    HEADER
    + "".join(f"{f't{k}':32} 64 1000000000 1000000000 1000000000 1000000000\n" for k in range(64))
    + "".join(f"load {k} 0\n" for k in range(1, 64))
    + "load 64 64000000\n"
)

CASES = [
    Case("a table of two tasks", "report fmlp+ set", PAIR_TABLE, 0, {"set": PAIR}),
    Case("the same whatever the protocol", "report dpcp set", PAIR_TABLE, 0, {"set": PAIR}),
    Case("the local limit and the deadline", "report mpcp set", PAIR_TABLE.replace("10          3          3", " 7          3          2"), 0,
         {"set": pair(first={"deadline": 7, "local": 2})}),
    Case("a set with as much of all as a set may have", "report fmlp+ set", GREATEST_TABLE, 0, {"set": GREATEST}),
    Case("64 tasks on one of 64 processors", "report fmlp+ set", CROWDED_TABLE, 0, {"set": CROWDED}),
    Case("no home under DPCP", "report dpcp set", "refused set nohome resource 1\n", 3, {"set": HOMELESS}),
    Case("of a member given twice the last counts", "report fmlp+ set", PAIR_TABLE, 0,
         {"set": PAIR.replace('"processors": 2', '"processors": 9, "processors": 2')}),
    Case("an escaped name", "report fmlp+ set", PAIR_TABLE, 0, {"set": PAIR.replace('"t1"', '"\\u00741"')}),
    Case("a byte order mark", "report fmlp+ set", "refused set notjson\n", 3, {"set": "\ufeff" + PAIR}),
    Case("a whole number with a fraction", "report fmlp+ set", "refused set shape root\n", 3,
         {"set": PAIR.replace('"processors": 2', '"processors": 2.0')}),
    Case("a byte that isn't UTF-8", "report fmlp+ set", "refused set notjson\n", 3, {"set": PAIR.encode().replace(b"t1", b"t\xff")}),
]
