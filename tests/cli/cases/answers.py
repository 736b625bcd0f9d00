"""Worked answers beside those of each command: sets, words and places that no other file has."""
import json

from setting import Case
from sets import HOMELESS, PAIR, PAIR_CERTIFICATE, PAIR_JOBS, PAIR_ROWS, certificate, pair, task, task_set

ALL = {"set": PAIR, "cert": PAIR_CERTIFICATE, "jobs": PAIR_JOBS, "rows": PAIR_ROWS}
ALONE = task_set(1, [], task("t1", 1, 1, 1))
THREE = task_set(1, [], task("a", 1, 4, 1), task("b", 1, 6, 2), task("c", 1, 20, 3))
FULL = task_set(1, [], task("t1", 1, 2, 1), task("t2", 1, 2, 2))

# both requests are issued at tick 1, and the higher task's is served first, on the home of the resource
AT_HOME = "ticks,P1,P2,q\n1,1,2,\n1,,1,1\n1,1,2,2\n1,,2,2\n1,,2,\n"

# t1 leaves so little room that the bound of t2 grows by 31621 in each round, up to 31622 * 31622 ticks: 31,622 rounds; with 62
# tasks on processors of their own a round takes 64 units, so the rounds want over 2,000,000 units, and the allowance is 1,000,000
SLOW = task_set(64, [], task("t1", 1, 31622, 31621), task("t2", 1, 10**9, 31622), *(task(f"t{k}", k, 9, 1) for k in range(3, 65)))


def analysed(shows, says, text, status=0):
    return Case(shows, "analyse fmlp+ set", says, status, {"set": text})


def refused(shows, reason, text):
    return Case(shows, "report fmlp+ set", f"refused set {reason}\n", 3, {"set": text})


def without_form(shows, words):
    return Case(shows, words, "refused words\n", 2, ALL)


def with_member(text, of, which, **members):
    """A set in which one entry of a list has more members."""
    written = json.loads(text)
    written[of][which].update(members)
    return json.dumps(written)


ANALYSES = [
    analysed("one task that fills its processor", certificate("fmlp+", [1], [[]], ALONE), ALONE),
    analysed("three tasks on one processor", certificate("fmlp+", [1, 3, 10], [[], [], []], THREE), THREE),
    analysed("two tasks that want more than there is", "not shown t2 3 2\n", FULL, 1),
    analysed("rounds that want too many units", "allowance\n", SLOW, 6),
]

SETS = [
    refused("a period of 0", "period task 1", pair(first={"period": 0})),
    refused("a request without its length", "shape request 1 1", pair(first={"requests": [{"resource": "q", "count": 1, "size": 1}]})),
    refused("a task's name with a space", "name task 2", pair(second={"name": "t 2"})),
    refused("a resource with a member that isn't listed", "shape resource 1", with_member(PAIR, "resources", 0, at=1)),
    refused("a processor more than there are", "processor task 2", PAIR.replace('"processors": 2', '"processors": 1')),
    refused("a request of the second task", "resource request 2 1", pair(second={"requests": [{"resource": "r", "count": 1, "length": 2}]})),
    refused("two bytes that aren't UTF-8", "notjson", b"\xff\xfe"),
]

CERTIFICATES = [
    Case("a bound that is no number", "check fmlp+ set cert", "refused cert shape bounds\n", 3, {**ALL, "cert": PAIR_CERTIFICATE.replace("[5,5]", "[5,true]")}),
    Case("an object without members", "report fmlp+ set cert", "refused cert shape root\n", 3, {**ALL, "cert": "{}"}),
    Case("an object that doesn't end", "check fmlp+ set cert", "refused cert notjson\n", 3, {**ALL, "cert": "{"}),
    Case("a table of a certificate whose bound is too small", "report fmlp+ set cert", "invalid small t1\n", 1, {**ALL, "cert": PAIR_CERTIFICATE.replace("[5,5]", "[4,5]")}),
]

SCHEDULES = [
    Case("a schedule under DPCP", "simulate dpcp set jobs 5", AT_HOME, 0, ALL),
    Case("that it is lawful under DPCP", "conform dpcp set jobs rows", "lawful 5\nt1 1 3 0\nt2 1 5 1\n", 0, {**ALL, "rows": AT_HOME}),
    Case("a schedule of FMLP+ judged under DPCP", "conform dpcp set jobs rows", "broken 1 grant\n", 1, ALL),
    Case("jobs are read after the homes", "simulate dpcp set jobs 5", "refused jobs fields 0\n", 3, {**ALL, "jobs": "task\n"}),
    Case("homes are asked for before jobs", "conform dpcp set jobs rows", "refused set nohome resource 1\n", 3, {**ALL, "set": HOMELESS, "jobs": "task\n"}),
    Case("a release with a leading zero", "conform fmlp+ set jobs rows", "refused jobs number 1\n", 3, {**ALL, "jobs": "task,release,script\nt1,00,1\n"}),
    Case("an empty line isn't counted", "conform fmlp+ set jobs rows", "refused jobs fields 2\n", 3, {**ALL, "jobs": "task,release,script\nt1,0,1\n\nt2,0\n"}),
    Case("a holder that is no number", "conform fmlp+ set jobs rows", "refused rows number 1\n", 3, {**ALL, "rows": "ticks,P1,P2,q\n1,,,x\n"}),
    Case("a holder that isn't there", "conform fmlp+ set jobs rows", "refused rows unknownjob 1\n", 3, {**ALL, "rows": "ticks,P1,P2,q\n1,,,3\n"}),
    Case("a header that ends early", "conform fmlp+ set jobs rows", "refused rows fields 0\n", 3, {**ALL, "rows": "ticks,P1,P2\n"}),
]

WORDS = [
    without_form("a certificate is lacking", "check fmlp+ set"),
    without_form("a report in capitals", "report FMLP+ set"),
    without_form("a check under an unknown protocol", "check edf set cert"),
    without_form("an upgrade under an unknown protocol", "upgrade edf set cert"),
    without_form("an upgrade of no certificate", "upgrade fmlp+ set"),
    without_form("a judgement under an unknown protocol", "conform edf set jobs rows"),
    without_form("a simulation under an unknown protocol", "simulate edf set jobs 5"),
]

CASES = ANALYSES + SETS + CERTIFICATES + SCHEDULES + WORDS
