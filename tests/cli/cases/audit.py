"""The command `audit`: a certificate and a schedule, side by side."""
from setting import Case
from sets import PAIR, PAIR_AUDITED, PAIR_CERTIFICATE, PAIR_JOBS, PAIR_ROWS, certificate, resource, task, task_set, tied

FILES = {"set": PAIR, "cert": PAIR_CERTIFICATE, "jobs": PAIR_JOBS, "rows": PAIR_ROWS}
AUDIT = "audit fmlp+ set cert jobs rows"
UNCOVERED = certificate("fmlp+", [5, 5], [[1, 0, 0, 0], [1, 0, 0, 0]])
UNTIED = tied(UNCOVERED, PAIR + " ")

CLASSED = task_set(3, [resource("q1", 3), resource("q2", 3)], task("t1", 1, 100, 3, ("q1", 1)), task("t2", 2, 100, 5, ("q2", 3)), task("t3", 1, 100, 3, ("q2", 1)))
CLASSES = {
    "set": CLASSED,
    "cert": certificate("dpcp", [3, 7, 10], [[], [1, 1, 0, 0, 0], [1, 3, 0, 0]], CLASSED),
    "jobs": "task,release,script\nt1,1,1 q1:1 1\nt2,0,1 q2:3 1\nt3,0,1 q2:1 1\n",
    "rows": "ticks,P1,P2,P3,q1,q2\n1,3,2,,,\n1,1,,2,,2\n1,,,1,1,2\n1,1,,2,,2\n1,,,2,,2\n1,,2,3,,3\n1,3,,,,\n",
}

CASES = [
    Case("bounds and charges of two jobs", AUDIT, PAIR_AUDITED, 0, FILES),
    Case("charges of two classes under DPCP", "audit dpcp set cert jobs rows", "kept 7\nt1 3 3 0 0 0 0 0\nt2 6 7 1 2 0 1 0\nt3 7 10 2 4 1 1 0\n", 0, CLASSES),
    Case("an invalid certificate before a broken schedule", AUDIT, "invalid cover t1 1\n", 1, {**FILES, "cert": UNCOVERED, "rows": "ticks,P1,P2,q\n1,2,1,\n"}),
    Case("another set's certificate before an invalid one", AUDIT, "invalid otherset\n", 1, {**FILES, "cert": UNTIED, "rows": "ticks,P1,P2,q\n1,2,1,\n"}),
    Case("a broken schedule", AUDIT, "broken 0 run\n", 1, {**FILES, "rows": "ticks,P1,P2,q\n1,2,1,\n"}),
    Case("every input is read before the work", AUDIT, "refused rows fields 0\n", 3, {**FILES, "cert": UNCOVERED, "rows": "ticks\n"}),
    Case("that of another set too", AUDIT, "refused rows fields 0\n", 3, {**FILES, "cert": UNTIED, "rows": "ticks\n"}),
    Case("a certificate before jobs", AUDIT, "refused cert absent\n", 3, {"set": PAIR}),
    Case("rows are lacking", "audit fmlp+ set cert jobs", "refused words\n", 2, FILES),
]
