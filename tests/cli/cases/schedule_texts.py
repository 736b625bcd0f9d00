"""Texts of jobs and of rows: the first line for which each is refused, and those that are read to their end."""
from setting import Case
from sets import PAIR_JOBS
from worked import FILES

PAIR = FILES["PAIR"]
# two tasks on one processor, of which the higher is released up to 4 ticks after it arrives
JITTER = """{"processors":1,"tasks":[
{"name":"t1","processor":1,"period":10,"cost":2,"jitter":4},
{"name":"t2","processor":1,"period":20,"cost":5}]}
"""
RELEASES, ARRIVALS = "task,release,script", "task,arrival,release,script"
ROWS = "ticks,P1,P2,q\n"
NOTHING_DONE = "t1 0 - 0\nt2 0 - 0\n"


def refused_jobs(set, text, reason):
    return Case(f"jobs that are refused: {text[:80]!r}", "conform fmlp+ set jobs rows", f"refused jobs {reason}\n", 3, {"set": set, "jobs": text, "rows": ""})


def read_jobs(set, text, rows, says):
    return Case(f"jobs that are read: {text[:80]!r}", "conform fmlp+ set jobs rows", says, 0, {"set": set, "jobs": text, "rows": rows})


def refused_rows(text, reason):
    return Case(f"rows that are refused: {text!r}", "conform fmlp+ set jobs rows", f"refused rows {reason}\n", 3, {"set": PAIR, "jobs": PAIR_JOBS, "rows": text})


# what follows the first header, and the line that is refused with its reason
OF_PAIR = [
    ("t1,0,1\r\nt2,0\r\n", "fields 2"),
    ("t1,0,1\n\n\nt2,0\n", "fields 2"),
    ("t1,0\n", "fields 1"),
    ("t1,0,1,1\n", "fields 1"),
    ("t1,0,1\nt2,0\n", "fields 2"),
    ("t1,01,1\n", "number 1"),
    ("t1,-1,1\n", "number 1"),
    ("t1,1000000001,1\n", "number 1"),
    ("t9,x,1\n", "number 1"),
    ('t1,0,1\nt2,"1\n0",1\n', "number 2"),
    ("t9,0,x\n", "unknownname 1"),
    ("t1 ,0,1\n", "unknownname 1"),
    ("t1,0,1 z:1\n", "unknownname 1"),
    ("t1,0,1 z:1 1 :1\n", "script 1"),
    ("t1,0,1 q:1:1\n", "script 1"),
    ("t1,0,\n", "script 1"),
    ("t1,0,q:1 1\n", "script 1"),
    ("t1,0,1 1\n", "script 1"),
    ("t1,0,1  q:1\n", "script 1"),
    ('t1,0,"1\nq:1"\n', "script 1"),
    ("t1,0,1 :1\n", "script 1"),
    (f"t1,0,1 {33 * 'r'}:1\n", "script 1"),
    ("t1,0,0\n", "script 1"),
    ("t1,0,4\n", "overbudget 1"),
    ("t1,0,1 q:1 1 q:1\n", "overbudget 1"),
    ("t1,0,1\nt1,9,1\n", "tooclose 2"),
    ("t1,0,1\n\nt1,9,4\n", "overbudget 2"),
]

# the same of the second header; of the last eleven the last line is refused for two reasons or more
OF_JITTER = [
    ("t1,0,5,2\n", "late 1"),
    ("t1,1,0,2\n", "late 1"),
    ("t2,4,5,5\n", "late 1"),
    ("t1,0,4,2\n\nt1,10,15,2\n", "late 2"),
    ("t1,0,0,2\nt1,9,10,2\n", "tooclose 2"),
    ("t1,0,2\n", "fields 1"),
    ("t1,0,0,2,2\n", "fields 1"),
    ("t1,0,4,2\nt1,10,2\n", "fields 2"),
    ("x,y\n", "fields 1"),
    ("x,y,0,2\n", "number 1"),
    ("x,0,y,2\n", "number 1"),
    ("t1,1000000001,0,2\n", "number 1"),
    ("t1,1000000000,1000000001,2\n", "number 1"),
    ("x,9,0,x\n", "unknownname 1"),
    ("t1,9,0,x\n", "script 1"),
    ("t1,9,0,3 q:1\n", "unknownname 1"),
    ("t1,9,0,3\n", "overbudget 1"),
    ("t1,0,0,2\nt1,9,19,3\n", "overbudget 2"),
    ("t1,0,0,2\nt1,9,19,2\n", "tooclose 2"),
]

# under the first header a job arrives as it is released
AS_RELEASED = [
    ("t1,4,2\nt1,10,2\n", "tooclose 2"),
    ("t1,0,4,2\n", "fields 1"),
    ("t1,4,2\nt1,14,14,2\n", "fields 2"),
    ("x,y,2\n", "number 1"),
]

NO_HEADERS = [
    "",
    "task,release,arrival,script",
    "task,arrived,release,script",
    "task,arrival,release",
    "task,arrival,script",
    "task,arrival,release,script,task",
    "task, arrival,release,script",
    "t1,0,4,2",
]

# as many jobs as a list takes, and one more, which is late too
TOO_MANY = ARRIVALS + "\n" + "".join(f"t1,{10 * j},{10 * j + 4},1\n" for j in range(100_000)) + "t1,1000000,1000005,1\n"

JOBS = [
    *(refused_jobs(PAIR, f"{RELEASES}\n{lines}", reason) for lines, reason in OF_PAIR),
    *(refused_jobs(PAIR, text, "fields 0") for text in ("", "task,release\n", "t1,0,1\n")),
    *(refused_jobs(JITTER, f"{ARRIVALS}\n{lines}", reason) for lines, reason in OF_JITTER),
    *(refused_jobs(JITTER, f"{RELEASES}\n{lines}", reason) for lines, reason in AS_RELEASED),
    *(refused_jobs(JITTER, f"{header}\n", "fields 0") for header in NO_HEADERS),
    refused_jobs(JITTER, TOO_MANY, "toomany 100001"),
    read_jobs(PAIR, f"{RELEASES}\n", ROWS, "lawful 0\n" + NOTHING_DONE),
    read_jobs(PAIR, '\n"task",release,"script"\n', ROWS, "lawful 0\n" + NOTHING_DONE),
    read_jobs(JITTER, '\n"task",arrival,release,"script"\n', "ticks,P1\n", "lawful 0\n" + NOTHING_DONE),
]

# what follows the header of rows, and the line that is refused with its reason
OF_ROWS = [
    ("1,1,2\n", "fields 1"),
    ("1,1,2,,\n", "fields 1"),
    ("1,x,2,\n", "number 1"),
    ("1,01,2,\n", "number 1"),
    ("1,3,x,\n", "number 1"),
    ("1, ,2,\n", "number 1"),
    ("0,1,2,\n", "number 1"),
    (",1,2,\n", "number 1"),
    ("1000000001,1,2,\n", "number 1"),
    ("1,0,2,\n", "unknownjob 1"),
    ("1,3,2,\n", "unknownjob 1"),
    ("1,,,3\n", "unknownjob 1"),
    (f"1,,,\n1,,{30 * '1'},\n", "unknownjob 2"),
    ("1,1,2,\n\n\n1,3,,\n", "unknownjob 2"),
    ("1000000000,1,2,\n1,1,2,\n", "toolong 2"),
    ("1000000000,1,2,\n\n1,1,2,\n", "toolong 2"),
    ("1000000000,1,2,\n1,1,3,\n", "unknownjob 2"),
]

ROW_FILES = [
    *(refused_rows(ROWS + lines, reason) for lines, reason in OF_ROWS),
    refused_rows("", "fields 0"),
    refused_rows("ticks,P1,P2\n", "fields 0"),
]

CASES = JOBS + ROW_FILES
