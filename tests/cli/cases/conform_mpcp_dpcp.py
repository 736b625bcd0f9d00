"""The command `conform` under MPCP and DPCP."""
from setting import Case
from sets import HOME, HOMELESS, HOME_JOBS, HOME_ROWS, PAIR, PAIR_JOBS, PAIR_ROWS


def judged(shows, says, status, protocol, text, jobs, rows):
    return Case(shows, f"conform {protocol} set jobs rows", says, status, {"set": text, "jobs": jobs, "rows": rows})


CASES = [
    judged("MPCP grants to the higher task", "broken 1 grant\n", 1, "mpcp", PAIR, PAIR_JOBS, PAIR_ROWS),
    judged("the order that MPCP keeps", "lawful 5\nt1 1 3 0\nt2 1 5 1\n", 0, "mpcp", PAIR, PAIR_JOBS, "ticks,P1,P2,q\n1,1,2,\n1,1,,1\n1,1,2,2\n1,,2,2\n1,,2,\n"),
    judged("requests at their home", "lawful 5\nt1 1 4 1\nt2 1 4 0\n", 0, "dpcp", HOME, HOME_JOBS, HOME_ROWS),
    judged("a grant that the ceiling bars", "broken 2 grant\n", 1, "dpcp", HOME, HOME_JOBS, HOME_ROWS.replace("1,,,2,2,", "1,,,1,2,1")),
    judged("no home under DPCP", "refused set nohome resource 1\n", 3, "dpcp", HOMELESS, PAIR_JOBS, PAIR_ROWS),
]
