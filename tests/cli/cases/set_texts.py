"""Texts of sets: what is no JSON, the first object that has not its form, and the first thing in a set that no set may have."""
import json

from setting import Case
from sets import HEADER, resource

FINE = (10, 10, 4, 2)
NAME = "abcdefghijklmnopqrstuvwxyz_0.2-4"


def refused(shows, reason, text, protocol="fmlp+"):
    return Case(shows, f"report {protocol} set", f"refused set {reason}\n", 3, {"set": text})


def taken(shows, tasks, loads, text, protocol="fmlp+"):
    """A set whose table has these lines, a name, a processor and four numbers each, and these loads."""
    lines = "".join(f"{name:32}{processor:3}" + "".join(f"{number:11}" for number in numbers) + "\n" for name, processor, *numbers in tasks)
    return Case(shows, f"report {protocol} set", HEADER + lines + "".join(f"load {k} {load}\n" for k, load in enumerate(loads, 1)), 0, {"set": text})


def request(name, count, length, **more):
    return {"resource": name, "count": count, "length": length, **more}


def task(name, processor, numbers, *requests, **more):
    """A task with its period, deadline, cost and local limit."""
    return {"name": name, "processor": processor, **dict(zip(("period", "deadline", "cost", "local"), numbers)), "requests": list(requests), **more}


def set_of(processors, resources, *tasks):
    return json.dumps({"processors": processors, "resources": resources, "tasks": list(tasks)})


NO_JSON = [
    refused(f"no JSON: {text[:40]!r}", "notjson", text)
    for text in ("", " ", "{", "{} {}", "\ufeff{}", '{"processors":1,"tasks":[1e400]}', bytes([123, 34, 255, 34, 58, 49, 125]), 128 * "[" + 128 * "]")
]

# a text, and the first object in it that has not its form
FORMS = [
    ("[]", "root"),
    ("{}", "root"),
    (127 * "[" + 127 * "]", "root"),
    ('{"processors":1,"tasks":[],"prio":1}', "root"),
    ('{"processors":1,"tasks":[],"resources":null}', "root"),
    ('{"processors":1.0,"tasks":[]}', "root"),
    ('{"processors":1e3,"tasks":[]}', "root"),
    ('{"processors":-1,"tasks":[]}', "root"),
    ('{"processors":-0,"tasks":[]}', "root"),
    ('{"processors":18446744073709551616,"tasks":[]}', "root"),
    ('{"processors":1,"processors":"1","tasks":[]}', "root"),
    ('{"processors":1,"tasks":[1],"resources":["q"]}', "resource 1"),
    ('{"processors":1,"tasks":[],"resources":[{"name":"q","home":2},{"name":"r","home":null}]}', "resource 2"),
    ('{"processors":1,"tasks":[],"resources":[{"name":"q","at":1}]}', "resource 1"),
    ('{"processors":1,"tasks":[{"name":"a","processor":1,"period":9}]}', "task 1"),
    ('{"processors":1,"tasks":[{"name":"a","processor":1,"period":9,"cost":1,"deadline":null}]}', "task 1"),
    ('{"processors":1,"tasks":[{"name":"a","processor":1,"period":9,"cost":1,"prio":1}]}', "task 1"),
    ('{"processors":1,"tasks":[{"name":"a","processor":1,"period":9,"cost":1,"local":"1"}]}', "task 1"),
    ('{"processors":1,"tasks":[{"name":"a","processor":1,"period":9,"cost":1,"jitter":null}]}', "task 1"),
    ('{"processors":1,"tasks":[{"name":"a","processor":1,"period":9,"cost":1,"jitter":-1}]}', "task 1"),
    ('{"processors":1,"tasks":[{"name":"a","processor":1,"period":9,"cost":1,"requests":[{"resource":"q","count":1,"length":1,"home":1}]},{}]}', "request 1 1"),
    ('{"processors":1,"tasks":[{"name":"a","processor":1,"period":9,"cost":1,"requests":[{"resource":"q","count":1,"length":1},'
     '{"resource":1,"count":1,"length":1}]},{}]}', "request 1 2"),
    ('{"processors":1,"tasks":[{"name":"a","processor":1,"cost":1,"requests":[{}]},{}]}', "task 1"),
    ('{"processors":1,"tasks":[{"name":"a","processor":1,"period":0,"cost":1},{}]}', "task 2"),
]

# each has its form, and no task
EMPTY = ['{"processors":1,"tasks":[]}', '{"processors":"1","processors":1,"tasks":[]}', ' { "tasks" : [ ] , "processors" : 1 } ']

NAMES = [
    taken("a name of 32 bytes", [(NAME, 1, *FINE)], [400000, 0], set_of(2, [], task(NAME, 1, FINE))),
    refused("a name of 33 bytes", "name task 1", set_of(2, [], task(f"{NAME}5", 1, FINE))),
    refused("a resource's name before a task's", "name resource 2", set_of(2, [resource("r", 3), resource("")], task("", 1, FINE))),
    refused("a task's name before two resources of one", "name task 1", set_of(2, [resource("r", 3), resource("r")], task("", 1, FINE))),
    refused("two resources of one name before two tasks of one", "twicename resource 2",
            set_of(2, [resource("r", 3), resource("r")], task("t", 1, FINE), task("t", 1, FINE))),
    refused("two tasks of one name before a processor", "twicename task 2", set_of(2, [], task("t", 3, FINE), task("t", 1, FINE))),
    taken("a task and a resource of one name", [("t1", 64, *FINE)], [*(63 * [0]), 400000], set_of(64, [resource("r", 64), resource("t1", 1)], task("t1", 64, FINE))),
]

NUMBERS = [
    refused("no processor before a name", "size processors", set_of(0, [], task("", 1, FINE))),
    refused("65 processors before a name", "size processors", set_of(65, [], task("", 1, FINE))),
    refused("no task before no processor", "notask", set_of(0, [])),
    taken("the greatest period", [("t1", 1, *FINE), ("t2", 2, 10**9, 10**9, 1, 1)], [400000, 0], set_of(2, [], task("t1", 1, FINE), task("t2", 2, (10**9, 10**9, 1, 1)))),
    refused("a processor before a period", "processor task 2", set_of(2, [], task("t1", 1, (0, 0, 0, 0)), task("t2", 3, FINE))),
    refused("a period of 0 before a cost", "period task 1", set_of(2, [], task("t1", 1, (0, 10, 4, 2)), task("t2", 1, (10, 10, 0, 2)))),
    refused("a period above the greatest before a cost", "period task 2", set_of(2, [], task("t1", 1, (10, 10, 0, 2)), task("t2", 1, (10**9 + 1, 10, 4, 2)))),
    refused("a deadline before a cost", "deadline task 1", set_of(2, [], task("t1", 1, (10, 11, 0, 0)))),
    refused("a cost before a local limit", "cost task 1", set_of(2, [], task("t1", 1, (10, 3, 4, 0)))),
    refused("a local limit before a later one", "local task 1", set_of(2, [], task("t1", 1, (10, 10, 4, 5)), task("t2", 1, (10, 10, 4, 0)))),
    taken("a jitter of the deadline less the cost", [("t1", 1, 10, 10, 2, 2)], [200000], set_of(1, [], task("t1", 1, (10, 10, 2, 2), jitter=8))),
    refused("a jitter above that", "jitter task 1", set_of(1, [], task("t1", 1, (10, 10, 2, 2), jitter=9))),
]

RS = [resource("r"), resource("s", 2)]
REQUESTS = [
    taken("the greatest count", [("t1", 1, *FINE)], [400000, 0], set_of(2, RS, task("t1", 1, FINE, request("r", 1000, 3), request("s", 1, 1)))),
    refused("no resource before one that is named twice", "resource request 1 3",
            set_of(2, RS, task("t1", 1, FINE, request("r", 1, 1), request("r", 1, 1), request("x", 0, 0)))),
    refused("a resource that is named twice before a count", "twicerequest request 1 3",
            set_of(2, RS, task("t1", 1, FINE, request("s", 1, 1), request("r", 0, 9), request("s", 1, 1)))),
    refused("a count of 0 before a length", "count request 1 2", set_of(2, RS, task("t1", 1, FINE, request("r", 1, 4), request("s", 0, 1)))),
    refused("a count above the greatest", "count request 1 1", set_of(2, RS, task("t1", 1, FINE, request("r", 1001, 1)))),
    refused("a length that is the cost before one of 0", "length request 2 1",
            set_of(2, RS, task("t1", 1, FINE, request("r", 1, 3)), task("t2", 1, FINE, request("r", 1, 4), request("s", 1, 0)))),
]

HOMES = [
    refused("a home above the processors before one of 0", "home resource 2", set_of(2, [resource("r"), resource("s", 3), resource("q", 0)], task("t1", 1, FINE))),
    refused("a home of 0", "home resource 1", set_of(2, [resource("r", 0)], task("t1", 1, FINE))),
]


def sized(tasks, resources, requests):
    """So many tasks and resources, and so many requests of the first task, one of each resource."""
    first = task("t0", 1, FINE, *(request(f"r{j}", 1, 1) for j in range(requests)))
    return set_of(1, [resource(f"r{q}") for q in range(resources)], first, *(task(f"t{x}", 1, FINE) for x in range(1, tasks)))


SIZES = [
    taken("64 tasks, 32 resources and 32 requests", [(f"t{x}", 1, *FINE) for x in range(64)], [64 * 400000], sized(64, 32, 32)),
    refused("tasks before resources", "size tasks", sized(65, 33, 257)),
    refused("resources before requests", "size resources", sized(64, 33, 257)),
    refused("257 requests before a resource", "size requests", sized(64, 32, 257)),
    refused("256 requests, of which one is of no resource", "resource request 1 33", sized(64, 32, 256)),
]


def nine(resources, entries):
    """Eight tasks of 32 requests each, as many as a set may have in all, and a ninth with its own."""
    tasks = (task(f"t{x}", 1, (1000, 1000, 100, 100), *(request(f"r{q}", 1, 1) for q in range(32 if x < 8 else entries))) for x in range(9))
    return set_of(1, [resource(f"r{q}") for q in range(resources)], *tasks)


def one_unit(shows, says, status, text):
    """One unit is too few for any set of nine tasks that is taken."""
    return Case(shows, "analyse fmlp+ set 1", f"{says}\n", status, {"set": text})


NINE = [
    one_unit("256 requests of nine tasks", "allowance", 6, nine(32, 0)),
    one_unit("a request more", "refused set size requests", 3, nine(32, 1)),
    one_unit("a resource more", "refused set size resources", 3, nine(33, 0)),
    one_unit("a request and a resource more", "refused set size resources", 3, nine(33, 1)),
]


def with_jitter(jitter):
    return f'{{"processors":1,"tasks":[{{"name":"t","processor":1,"period":12,"deadline":10,"cost":3,"jitter":{jitter}}}]}}'


def with_resources(resources):
    return f'{{"processors":2,"tasks":[{{"name":"t","processor":1,"period":8,"cost":3}}],"resources":[{resources}]}}'


ALL_HOMES = '{"name":"q","home":2},{"name":"r","home":1}'
SOME_HOMES = '{"name":"q","home":2},{"name":"r"},{"name":"s"}'
ALONE = [("t", 1, 8, 8, 3, 3)], [375000, 0]

TEXTS = [
    *(refused(f"the form of {text[:70]}", f"shape {place}", text) for text, place in FORMS),
    *(refused(f"no task in {text}", "notask", text) for text in EMPTY),
    *(taken(f"a jitter of {jitter}", [("t", 1, 12, 10, 3, 3)], [250000], with_jitter(jitter)) for jitter in (0, 7)),
    refused("a jitter of 8", "jitter task 1", with_jitter(8)),
    taken("no resource needs no home", *ALONE, with_resources(""), "dpcp"),
    taken("each resource has its home", *ALONE, with_resources(ALL_HOMES), "dpcp"),
    refused("the second resource has no home", "nohome resource 2", with_resources(SOME_HOMES), "dpcp"),
    taken("MPCP asks for no home", *ALONE, with_resources(SOME_HOMES), "mpcp"),
    taken("nor does FMLP+", *ALONE, with_resources(SOME_HOMES), "fmlp+"),
]

CASES = NO_JSON + TEXTS + NAMES + NUMBERS + REQUESTS + HOMES + SIZES + NINE
