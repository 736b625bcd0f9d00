"""The command `conform`: lawful and broken schedules, and files of jobs and rows that are refused."""
from setting import Case
from sets import FIVE, LATE, LATE_JOBS, LATE_MEASURED, LATE_ROWS, PAIR, PAIR_JOBS, PAIR_MEASURED, PAIR_ROWS, task, task_set

JOBS = "task,release,script\n"
ROWS = "ticks,P1,P2,q\n"


# a task that may have a job at each tick
EACH_TICK = task_set(1, [], task("t1", 1, 1, 1))


def each_tick(jobs):
    return JOBS + "".join(f"t1,{release},1\n" for release in range(jobs))


def judged(shows, says, status=0, text=PAIR, jobs=PAIR_JOBS, rows=PAIR_ROWS, protocol="fmlp+"):
    return Case(shows, f"conform {protocol} set jobs rows", says, status, {"set": text, "jobs": jobs, "rows": rows})


def refused_jobs(shows, reason, lines):
    return judged(shows, f"refused jobs {reason}\n", 3, jobs=JOBS + lines)


def late_jobs(shows, reason, lines, header="task,arrival,release,script\n"):
    return judged(shows, f"refused jobs {reason}\n", 3, LATE, header + lines, LATE_ROWS)


def refused_rows(shows, reason, lines):
    return judged(shows, f"refused rows {reason}\n", 3, rows=ROWS + lines)


SCHEDULES = [
    judged("a lawful schedule and what is measured of it", PAIR_MEASURED),
    judged("a schedule of no job and no row", "lawful 0\nt1 0 - 0\nt2 0 - 0\n", jobs=JOBS, rows=ROWS),
    judged("no job, and a thousand empty rows", "lawful 1000\nt1 0 - 0\nt2 0 - 0\n", jobs=JOBS, rows=ROWS + "1000,,,\n"),
    judged("a job on another task's processor", "broken 0 run\n", 1, rows=ROWS + "1,2,1,\n"),
    judged("an idle processor", "broken 0 idle\n", 1, rows=ROWS + "1,,2,\n"),
    judged("a request that loses its resource", "broken 2 keep\n", 1, rows=ROWS + "1,1,2,\n1,,2,2\n1,1,,1\n"),
    judged("a resource that is held too long", "broken 3 grant\n", 1, rows=ROWS + "1,1,2,\n3,,2,2\n"),
    judged("a lower task before a higher one", "broken 0 priority\n", 1, FIVE, JOBS + "t1,0,2\nt2,0,1 q:2 1\n", ROWS + "1,2,,\n"),
]

JOB_FILES = [
    refused_jobs("a request longer than the set allows", "overbudget 1", "t1,0,1 q:2 1\n"),
    refused_jobs("a script of two requests in turn", "script 1", "t1,0,1 q:1 q:1\n"),
    refused_jobs("a job of no task", "unknownname 1", "t9,0,1\n"),
    refused_jobs("two jobs too close", "tooclose 2", "t1,0,1\nt1,9,1\n"),
    refused_jobs("a line of two fields", "fields 2", "t1,0,1\nt2,0\n"),
    refused_jobs("a release with a sign", "number 1", "t1,-1,1\n"),
    judged("a header that ends early", "refused jobs fields 0\n", 3, jobs="task,release,scr"),
    refused_jobs("a script that ends after a colon", "script 1", "t1,0,1 q:"),
    refused_jobs("a last line that ends early", "fields 2", "t1,0,1 q:1 1\nt2,0"),
    judged("as many jobs as there may be", "lawful 0\nt1 0 - 0\n", 0, EACH_TICK, each_tick(100_000), "ticks,P1\n"),
    judged("a job too many", "refused jobs toomany 100001\n", 3, EACH_TICK, each_tick(100_001), "ticks,P1\n"),
]

LATE_FILES = [
    judged("jobs that are released later than they arrive", LATE_MEASURED, 0, LATE, LATE_JOBS, LATE_ROWS),
    late_jobs("a release one tick above the jitter", "late 1", "t1,0,5,2\n"),
    late_jobs("a release before the arrival", "late 1", "t2,4,3,5\n"),
    late_jobs("a release after the arrival of a task without jitter", "late 1", "t2,4,5,5\n"),
    late_jobs("arrivals less than a period apart, though the releases aren't", "tooclose 2", "t1,0,0,2\nt1,9,10,2\n"),
    late_jobs("too close before too late", "tooclose 2", "t1,0,0,2\nt1,9,19,2\n"),
    late_jobs("too much before too close", "overbudget 2", "t1,0,0,2\nt1,9,19,3\n"),
    late_jobs("an arrival with a sign", "number 1", "t1,-1,0,2\n"),
    late_jobs("a line of the first header under the second one", "fields 1", "t1,0,2\n"),
    late_jobs("a line of the second header under the first one", "fields 1", "t1,0,0,2\n", JOBS),
    late_jobs("under the first header a job is released as it arrives", "tooclose 2", "t1,4,2\nt1,10,2\n", JOBS),
    late_jobs("the second header with two names exchanged", "fields 0", "t1,0,0,2\n", "task,release,arrival,script\n"),
]

ROW_FILES = [
    refused_rows("a line of three fields", "fields 1", "1,1,2\n"),
    refused_rows("rows that last 0 ticks", "number 2", "1,1,2,\n0,,2,2\n"),
    refused_rows("a job that isn't there", "unknownjob 1", "1,3,2,\n"),
    refused_rows("more ticks than rows may last", "toolong 2", "1,,,\n1000000000,,,\n"),
    judged("another header", "refused rows fields 0\n", 3, rows=PAIR_ROWS.replace(",q\n", ",r\n", 1)),
    judged("lines that end as on other systems", PAIR_MEASURED, rows=PAIR_ROWS.replace("\n", "\r\n"), jobs=PAIR_JOBS.replace("\n", "\r")),
]

# inputs are read in order, each only where the one before it is accepted
ORDER = [
    Case("the set is named before jobs and rows", "conform fmlp+ no nothing nowhere", "refused set absent\n", 3),
    Case("jobs that aren't there are named before rows", "conform fmlp+ set no nowhere", "refused jobs absent\n", 3, {"set": PAIR}),
    Case("one file for all three", "conform fmlp+ set set set", "refused jobs fields 0\n", 3, {"set": PAIR}),
]

CASES = SCHEDULES + JOB_FILES + LATE_FILES + ROW_FILES + ORDER
