"""The command `simulate`: schedules that it makes."""
from setting import Case, Room
from sets import HOMELESS, PAIR, PAIR_JOBS, PAIR_SIMULATED

FILES = {"set": PAIR, "jobs": PAIR_JOBS}


def refused(shows, ticks):
    return Case(shows, f"simulate fmlp+ set jobs {ticks}", "refused words\n", 2, FILES)


CASES = [
    Case("a schedule under FMLP+", "simulate fmlp+ set jobs 5", PAIR_SIMULATED, 0, FILES),
    Case("the same under MPCP", "simulate mpcp set jobs 5", PAIR_SIMULATED, 0, FILES),
    Case("rows after the last job, which are joined", "simulate fmlp+ set jobs 1000", f"{PAIR_SIMULATED}995,,,\n", 0, FILES),
    Case("no job", "simulate fmlp+ set jobs 7", "ticks,P1,P2,q\n7,,,\n", 0, {**FILES, "jobs": "task,release,script\n"}),
    Case("jobs that are refused", "simulate fmlp+ set jobs 5", "refused jobs overbudget 1\n", 3, {**FILES, "jobs": "task,release,script\nt1,0,1 q:2 1\n"}),
    Case("no home under DPCP", "simulate dpcp set jobs 5", "refused set nohome resource 1\n", 3, {**FILES, "set": HOMELESS}),
    Case("room for the header alone", "simulate fmlp+ set jobs 5", PAIR_SIMULATED[:14], 4, FILES, Room(14)),
    refused("no tick", 0),
    refused("more ticks than there may be", 1000000001),
    refused("ticks with a leading zero", "05"),
]
