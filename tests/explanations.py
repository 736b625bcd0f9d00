"""What ./block says on standard error of words and inputs that the program refuses. The program's own answers are in tests/cli."""
import json
import os
import sys
from pathlib import Path
from typing import Any, Iterator

from block_script import LATER, TOP, Copy, Ran, unless

sys.path.insert(0, str(TOP / "tools" / "explain"))
import json_text  # noqa: E402

WORDS: list[tuple[list[str | bytes], list[str]]] = [
    ([], ["a command is missing: analyse, settle, refute, check, confirm, upgrade, report, conform, simulate, study and audit are there", "block --help lists the forms"]),
    (["solve"], ['"solve" is no command: analyse, settle, refute, check, confirm, upgrade, report, conform, simulate, study and audit are there', "block --help lists the forms"]),
    (["analyze", "fmlp+", "set"], ['"analyze" is no command; near to it is "analyse"', "the form is: block analyse PROTOCOL SET"]),
    (["Analyse", "fmlp+", "set", "8"], ['"Analyse" is no command; near to it is "analyse"', "the form is: block analyse PROTOCOL SET ALLOWANCE"]),
    (["sensitivty", "fmlp+", "set"], ['"sensitivty" is no command; near to it is "sensitivity"', "the form is: block sensitivity PROTOCOL SET"]),
    (["analyse"], ['PROTOCOL is missing behind "analyse"', "the form is: block analyse PROTOCOL SET"]),
    (["conform", "fmlp+", "set", "jobs"], ['ROWS is missing behind "jobs"', "the form is: block conform PROTOCOL SET JOBS ROWS"]),
    (["report", "fmlp+", "set", "cert", "more"], ['"more" is a word too many', "the form is: block report PROTOCOL SET CERT"]),
    (["check", "FMLP", "set", "cert"], ['"FMLP" is no protocol; near to it is "fmlp+"', "the form is: block check PROTOCOL SET CERT"]),
    (["check", "edf", "set", "cert"], ['"edf" is no protocol: mpcp, fmlp+, dpcp, dflp, dpcp-w, spin, fmlp+-c, spin-c, dpcp-c, dflp-c and mpcp-c are there', "the form is: block check PROTOCOL SET CERT"]),
    (["analyse", "set", "fmlp+"], ["the protocol comes right after the command", "the form is: block analyse PROTOCOL SET"]),
    (["analyse", "here"], ['a protocol is missing in front of "here": one of mpcp, fmlp+, dpcp, dflp, dpcp-w, spin, fmlp+-c, spin-c, dpcp-c, dflp-c and mpcp-c', "the form is: block analyse PROTOCOL SET"]),
    (["analyse", "fmlp+", "set", "08"], ['ALLOWANCE is "08", and should be a number from 1 to 1,000,000,000, in digits alone and without a leading 0', "the form is: block analyse PROTOCOL SET ALLOWANCE"]),
    (["simulate", "fmlp+", "set", "jobs", "0"], ['TICKS is "0", and should be a number from 1 to 1,000,000,000, in digits alone and without a leading 0', "the form is: block simulate PROTOCOL SET JOBS TICKS"]),
    (["study", "-1", "5"], ['SEED is "-1", and should be a number from 0 to 18,446,744,073,709,551,615, in digits alone and without a leading 0', "the form is: block study SEED SETS"]),
    (["study", "1", "1001"], ['SETS is "1001", and should be a number from 1 to 1,000, in digits alone and without a leading 0', "the form is: block study SEED SETS"]),
    (["report", "fmlp+", b"s\xff"], ['the word "s\\udcff" isn\'t UTF-8', "block --help lists the forms"]),
]

# a text that is no JSON, and the place and the rest of what is said of it
NO_JSON: list[tuple[str | bytes, int, int, str]] = [
    ("", 1, 1, "a value, and found the end of the file"),
    ("{", 1, 2, "a name between double quotes, or '}', and found the end of the file"),
    ("{} {}", 1, 4, "the end of the file, and found '{'"),
    ("\ufeff{}", 1, 1, "a value, and found a byte order mark"),
    ('{"tasks":[1e400]}', 1, 11, "a number within the range of a float, and found '1'"),
    ('{\n "processors": 1,\n}', 3, 1, "a name between double quotes (no comma stands before '}'), and found '}'"),
    ('{"tasks": [1,]}', 1, 14, "a value (no comma stands before ']'), and found ']'"),
    ('{"processors" 1}', 1, 15, "':', and found '1'"),
    ('{\n "name": "\u00e4" "tasks": []}', 2, 14, "',' or '}', and found '\"'"),
    ('{"tasks": [1 2]}', 1, 14, "',' or ']', and found '2'"),
    ("{'processors': 1}", 1, 2, "a name between double quotes, or '}', and found a single quote"),
    ('{"processors": 01}', 1, 16, "a number without a leading 0, and found '0'"),
    ('{"processors": 1.}', 1, 18, "a digit behind ., and found '}'"),
    ('{"processors": 1e-}', 1, 19, "a digit behind e-, and found '}'"),
    ('{"processors": -}', 1, 17, "a digit behind the sign, and found '}'"),
    ('{"processors": +1}', 1, 16, "a value, and found '+'"),
    ('{"processors": NaN}', 1, 16, "a value, and found 'N'"),
    ('{"processors": 1, // many\n"tasks": []}', 1, 19, "a name between double quotes (no comma stands before '}'), and found '/'"),
    ('{"name": "a\tb"}', 1, 12, r"a double quote, or an escape such as \n in place of a control character, and found the character U+0009"),
    ('{"name": "a', 1, 12, "a double quote that ends the text begun before, and found the end of the file"),
    (r'{"name": "\x"}', 1, 12, r"""one of " \ / b f n r t behind the backslash, or u and four hexadecimal digits, and found 'x'"""),
    (r'{"name": "\ud800"}', 1, 11, r"a whole pair of escapes \uD8.. \uDC.., and found '\'"),
    (128 * "[" + 128 * "]", 1, 128, "at most 127 open levels, and found '['"),
    (b'{"\xff": 1}', 1, 3, "UTF-8, and found the byte 0xFF"),
]
# texts that are JSON by all of these rules: the program finds another reason against each
JSON = ["[]", " {} ", '"\\ud83d\\ude00\\\\ud800"', "-0", "1e-400", 127 * "[" + 127 * "]", '{"a":1,"a":[{},[],{"b":null}],"c":-1.5E+3}', "true"]

TASK: dict[str, Any] = {"name": "a", "processor": 1, "period": 9, "cost": 2}


def set_of(*tasks: Any, **more: Any) -> str:
    return json.dumps({"processors": 1, "tasks": list(tasks), **more})


WHOLE = "a whole number, in digits alone"
PERIOD = "the least distance between the arrivals of two jobs"
COUNT = "a whole number from 0 to 18,446,744,073,709,551,615, in digits alone"
DIGEST = 64 * "a"
CERTIFICATE: dict[str, Any] = {"bounds": [2], "duals": [{"den": 1, "num": []}], "protocol": "fmlp+", "set": DIGEST, "verdict": "schedulable", "version": 2}
REFUSAL: dict[str, Any] = {"protocol": "fmlp+", "set": DIGEST, "steps": [], "verdict": "notshown", "version": 1}
SETS = [
    ("[]", "the set: it is a list, and should be an object"),
    (set_of(TASK, **{"$schema": "task-set.schema.json"}), 'the set: "$schema" may not be a member: GUIDE.md says how an editor is told the schema without it'),
    (set_of(TASK, resource=[]), 'the set: "resource" may not be a member; near to it is "resources"'),
    (set_of(TASK, resources=None), 'the set: "resources" is null, and should be a list: the resources that tasks share. No two have one name'),
    (set_of({**TASK, "period": 9.0}), f'task 1 (a): "period" is 9.0, and should be {WHOLE}: {PERIOD}'),
    (set_of(TASK, {**TASK, "period": "9"}), f'task 2 (a): "period" is "9", and should be {WHOLE}: {PERIOD}'),
    (set_of({"name": "a", "processor": 1, "cost": 2}), f'task 1 (a): "period" is missing, which is {WHOLE}: {PERIOD}'),
    (set_of({**TASK, "zzz": 9}), 'task 1 (a): "zzz" may not be a member; the members are "name", "processor", "period", "deadline", "cost", "local", "jitter", "requests"'),
    (set_of(TASK, "t"), 'task 2: it is "t", and should be an object'),
    (set_of({**TASK, "requests": [{"resource": "r", "count": 1, "length": 1}, {"resource": 1, "count": 1, "length": 1}]}),
     'task 1 (a), request 2: "resource" is 1, and should be a text between double quotes: the name of a resource of the set'),
    (set_of(TASK, resources=[{"name": "r", "home": True}]),
     'resource 1: "home" is true, and should be a whole number, in digits alone: the processor on which DPCP and the distributed FIFO protocol run the requests'
     " of this resource. Other protocols need none"),
    (set_of(TASK, processors=65), "the set has 65 processors, and may have from 1 to 64"),
    (set_of(*[TASK] * 65), "the set has 65 tasks, and may have at most 64"),
    (set_of(TASK, resources=[{"name": f"r{k}"} for k in range(33)]), "the set has 33 resources, and may have at most 32"),
    (set_of({**TASK, "requests": [{"resource": "r", "count": 1, "length": 1}] * 257}), "the set has 257 request entries over all tasks, and may have at most 256"),
]
CERTIFICATES = [
    ({**CERTIFICATE, "verdict": "Schedulable"}, 'the certificate: "verdict" is "Schedulable", and should be "schedulable"'),
    ({**CERTIFICATE, "set": "a"}, 'the certificate: "set" is "a", and should be a text of the form ^[0-9a-f]{64}$: the SHA-256 digest of the bytes of the set\'s file, in hexadecimal digits'),
    ({**CERTIFICATE, "bounds": [2, -1]}, f'"bounds", number 2: it is -1, and should be {COUNT}'),
    ({**CERTIFICATE, "duals": [{"den": 0, "num": []}]},
     'dual 1: "den" is 0, and should be a whole number from 1 to 9,223,372,036,854,775,807, in digits alone: the denominator of each number of the dual'),
    ({**CERTIFICATE, "duals": [{"den": 1, "num": [1, 0.5]}]}, 'dual 1, "num", number 2: it is 0.5, and should be a whole number from 0 to 9,223,372,036,854,775,807, in digits alone'),
]
REFUSALS = [
    ({**REFUSAL, "version": 2}, 'the refusal: "version" is 2, and should be 1'),
    ({**REFUSAL, "steps": [{"point": {"den": 1}, "task": 1, "value": 2}]},
     'the refusal, "steps", number 1, "point": "num" is missing, which is a list: a numerator for each column of the task\'s program'),
]


def told(ran: Ran, status: int, lines: list[str]) -> bool:
    """Did a run end so, with these lines of ./block and no others?"""
    return ran.status == status and ran.err == "".join(f"block: {line}\n" for line in lines)


def word_problems(copy: Copy) -> Iterator[str | None]:
    (copy.top / "here").touch()
    for words, lines in WORDS:
        ran = copy.run(*words)
        yield unless(told(ran, 2, lines) and ran.out == "refused words\n", f"what ./block says of the words {words}", ran)


def refused(copy: Copy, words: list[str], name: str, text: str | bytes) -> Ran:
    (copy.top / name).write_bytes(text if isinstance(text, bytes) else text.encode())
    return copy.run(*words)


def json_problems(copy: Copy) -> Iterator[str | None]:
    """What is wrong with the places of what is no JSON, and whether the program calls the same texts so."""
    for text, line, column, rest in NO_JSON:
        ran = refused(copy, ["report", "fmlp+", "set"], "set", text)
        lines = [f"SET set, line {line}, column {column}: expected {rest}"]
        yield unless(told(ran, 3, lines) and ran.out == "refused set notjson\n", f"what ./block says of {text!r}", ran)
    for text in JSON:
        ran = refused(copy, ["report", "fmlp+", "set"], "set", text)
        yield unless(json_text.first_fault(text.encode()) is None and ran.out == "refused set shape root\n", f"what is JSON in {text!r}", ran)


def shape_problems(copy: Copy) -> Iterator[str | None]:
    """What is wrong with what is said of members, and of counts above a limit."""
    for text, line in SETS:
        ran = refused(copy, ["report", "fmlp+", "set"], "set", text)
        yield unless(told(ran, 3, [f"SET set, {line}"]), f"what ./block says of the set {text[:200]}", ran)
    (copy.top / "set").write_text(set_of(TASK))
    for command, table in (("check", CERTIFICATES), ("confirm", REFUSALS)):
        for value, line in table:
            ran = refused(copy, [command, "fmlp+", "set", "cert"], "cert", json.dumps(value))
            yield unless(told(ran, 3, [f"CERT cert, {line}"]), f"what ./block says of {json.dumps(value)}", ran)
    many = {**TASK, "a1": 1, "a2": 1, "a3": 1, "a4": 1, "a5": 1}
    ran = refused(copy, ["report", "fmlp+", "set"], "set", set_of(many))
    yield unless(ran.status == 3 and ran.err.count("\n") == 4, "./block says more than four lines", ran)


def file_problems(copy: Copy) -> Iterator[str | None]:
    """What is wrong with what is said of files that are missing, too long, or no files, and of other reasons."""
    (copy.top / "set").write_text(set_of(TASK))
    (copy.top / "jobs").write_text("task,release,script\nb,0,1\n")
    with (copy.top / "long").open("wb") as file:
        file.truncate(67_108_865)
    table = [
        (3, ["report", "fmlp+", "sett"], "SET sett: there is no such file; near to it is set"),
        (3, ["report", "fmlp+", "long"], "SET long: it has 67,108,865 bytes, and may have at most 67,108,864"),
        (4, ["report", "fmlp+", "tools"], "SET tools can't be read: it is a folder"),
        (4, ["check", "fmlp+", "set", "tools"], "CERT tools can't be read: it is a folder"),
        (3, ["simulate", "fmlp+", "set", "jobs", "8"],
         "JOBS jobs, line 1: the first field names no task of the set. Or the script names no resource of the set, which is tested after the next reason."
         " The fix: write the names as the set has them, without spaces around them"),
    ]
    for status, words, line in table:
        ran = copy.run(*words)
        yield unless(told(ran, status, [line]), f"what ./block says of {words}", ran)
    if os.geteuid():
        (copy.top / "set").chmod(0)
        ran = copy.run("report", "fmlp+", "set")
        yield unless(ran.status == 4 and "you may not read it: its rights are ----------" in ran.err, "what ./block says of a file without rights", ran)


def silent_problems(copy: Copy) -> Iterator[str | None]:
    """What is wrong where there is nothing to say, and where no Python is there."""
    (copy.top / "set").write_text(set_of(TASK))
    ran = copy.run("report", "fmlp+", "set")
    yield unless(ran.status == 0 and not ran.err, "./block says something of an answer", ran)
    python = copy.file("bin/python3", "#!/bin/sh\nexit 127\n", LATER)
    lines = [copy.run("report", "fmlp+", "set", "a", "b").err.count("\n"), copy.run("report", "fmlp+", "none").err]
    python.unlink()
    yield unless(lines == [16, ""], "./block without Python says", lines)


def problems(folder: str | Path, program: Path) -> Iterator[str | None]:
    """What is wrong, or None, for each thing that is tried."""
    copy = Copy(Path(folder) / "explained", program)
    copy.file("crates/block_cli/out/block.built", "", LATER)
    for tried in (word_problems, json_problems, shape_problems, file_problems, silent_problems):
        yield from tried(copy)
