"""Texts of certificates and of refusals: the first cause for which each is refused."""
from setting import Case
from sets import OLD_PAIR_CERTIFICATE, PAIR, PAIR_CERTIFICATE, SHORT, SHORT_REFUSAL, tied

DIGEST = 32 * "ab"
OTHER = "a \\u00e4"
END = f'"protocol":"fmlp+","set":"{DIGEST}","verdict":"schedulable","version":2}}'


def refused(words, reason, text, set=PAIR):
    return Case(f"{words}: {text[:90]!r}", words, f"refused cert {reason}\n", 3, {"set": set, "cert": text})


# a certificate, and why it is refused
CAUSES = [
    ("", "notjson"),
    ("{", "notjson"),
    ('{"bounds":[5,5],"duals":[{"den":1,"num":', "notjson"),
    ("[]", "shape root"),
    ("null", "shape root"),
    ("{}", "shape root"),
    ('{"version":"1"}', "shape root"),
    ('{"version":1.0}', "shape root"),
    ('{"version":9}', "version"),
    ('{"version":2,"version":3}', "version"),
    ('{"version":2}', "shape root"),
    ('{"version":1}', "version"),
    ('{"bounds":[],"duals":[],"protocol":"fmlp+","verdict":"schedulable","version":9}', "version"),
    (f'{{"bounds":[],"duals":[],"protocol":"fmlp+","set":"{DIGEST}","sets":1,"verdict":"schedulable","version":2}}', "shape root"),
    (f'{{"bounds":[],"duals":null,{END}', "shape root"),
    (f'{{"bounds":["5"],"duals":[],"protocol":"pip","set":"{DIGEST[:-1]}B","verdict":"schedulable","version":2}}', "shape root"),
    (f'{{"bounds":["5"],"duals":[],"protocol":"fmlp+","set":"{DIGEST}","verdict":"Schedulable","version":2}}', "shape root"),
    ('{"bounds":["5"],"duals":[],"protocol":"fmlp+","verdict":"schedulable","version":2}', "shape root"),
    (f'{{"bounds":["5"],"duals":[],"protocol":"fmlp+","set":"{DIGEST[:-2]}","verdict":"schedulable","version":2}}', "shape root"),
    (f'{{"bounds":[5,-1],"duals":[{{}}],"protocol":"mpcp","set":"{DIGEST}","verdict":"schedulable","version":2}}', "shape bounds"),
    (f'{{"bounds":[18446744073709551616],"duals":[],{END}', "shape bounds"),
    (f'{{"bounds":[5,5],"duals":[{{"den":0,"num":[2,0]}},{{"den":1,"num":[1]}}],{END}', "shape dual 1"),
    (f'{{"bounds":[5,5],"duals":[{{"den":1,"num":[9223372036854775808,0]}},{{}}],{END}', "shape dual 1"),
    (f'{{"bounds":[5,5],"duals":[{{"den":1,"num":[]}},{{"den":9223372036854775808,"num":[]}}],{END.replace("fmlp+", "mpcp")}', "shape dual 2"),
    (f'{{"bounds":[5,5],"duals":[{{"den":1,"num":[]}},{{"den":1,"num":[],"set":1}}],{END}', "shape dual 2"),
    (f'{{"bounds":[5,5],"duals":[{{"den":1,"num":[]}},{{"den":1,"num":[0.5]}}],{END}', "shape dual 2"),
    (f'{{"bounds":[],"duals":[],{END.replace("fmlp+", "dpcp")}', "otherprotocol"),
    (f'{{"bounds":[],"duals":[],{END.replace("fmlp+", OTHER)}', "otherprotocol"),
]

CERTIFICATES = [
    *(refused("check fmlp+ set cert", reason, text) for text, reason in CAUSES),
    refused("check fmlp+ set cert", "version", OLD_PAIR_CERTIFICATE),
    refused("check mpcp set cert", "otherprotocol", PAIR_CERTIFICATE),
    refused("check dpcp set cert", "otherprotocol", PAIR_CERTIFICATE),
]

# a certificate of the version before, and why it is refused
OLD_CAUSES = [
    (tied(PAIR_CERTIFICATE, "").replace('"version":2', '"version":1'), "shape root"),
    ('{"version":"1"}', "shape root"),
    (f'{{"bounds":[],"duals":[],"protocol":"fmlp+","set":"{DIGEST}","verdict":"schedulable","version":1}}', "shape root"),
    ('{"bounds":[],"duals":[{"den":0,"num":[]}],"protocol":"pip","verdict":"schedulable","version":1}', "shape dual 1"),
    ('{"bounds":[],"duals":[],"protocol":"pip","verdict":"schedulable","version":1}', "otherprotocol"),
    (PAIR_CERTIFICATE, "version"),
]

UPGRADES = [
    Case("upgrade fmlp+ set cert: the version before gets its digest", "upgrade fmlp+ set cert", PAIR_CERTIFICATE, 0, {"set": PAIR, "cert": OLD_PAIR_CERTIFICATE}),
    *(refused("upgrade fmlp+ set cert", reason, text) for text, reason in OLD_CAUSES),
    refused("upgrade mpcp set cert", "otherprotocol", OLD_PAIR_CERTIFICATE),
]


def of_dpcp(steps, **members):
    """The text of a refusal for DPCP with these steps, and other members where they are given."""
    given = {"protocol": '"dpcp"', "set": f'"{DIGEST}"', "steps": steps, "verdict": '"notshown"', "version": "1", **members}
    return "{" + ",".join(f'"{name}":{value}' for name, value in given.items() if value) + "}"


NO_JSON = ["", "{", "\ufeff{}", "[1e400]", of_dpcp("[]", protocol='"mpcp"') + ",", b'"\xff"']

# each is for another protocol than `mpcp` too, or names none: the form is tried first
NO_FORM = [
    "null",
    "[]",
    "{}",
    of_dpcp("[]", version=""),
    of_dpcp("[]", version="2"),
    of_dpcp("[]", version="1.0"),
    of_dpcp("[]", verdict='"schedulable"'),
    of_dpcp("[]", set=f'"A{DIGEST[1:]}"'),
    of_dpcp("[]", set=f'"{DIGEST[2:]}"'),
    of_dpcp("null"),
    of_dpcp("[]", protocol="7"),
    of_dpcp("[]", bounds="[]"),
]

# each stands in a list of steps behind one that has its form
NO_STEPS = [
    "7",
    "[]",
    "{}",
    '{"point":{"den":1,"num":[1]},"task":1}',
    '{"point":{"den":1,"num":[1]},"value":5}',
    '{"task":1,"value":5}',
    '{"cost":3,"point":{"den":1,"num":[1]},"task":1,"value":5}',
    '{"point":{"den":1,"num":[1]},"task":-1,"value":5}',
    '{"point":{"den":1,"num":[1]},"task":1,"value":18446744073709551616}',
    '{"point":[1],"task":1,"value":5}',
    '{"point":{"den":0,"num":[1]},"task":1,"value":5}',
    '{"point":{"den":1,"num":[9223372036854775808]},"task":1,"value":5}',
    '{"point":{"den":9223372036854775808,"num":[1]},"task":1,"value":5}',
    '{"point":{"den":1,"num":[0.5]},"task":1,"value":5}',
]

OTHER_PROTOCOLS = [
    refused("confirm mpcp set cert", "otherprotocol", of_dpcp("[]", protocol=f'"{OTHER}"'), SHORT),
    *(refused(f"confirm {word} set cert", "otherprotocol", SHORT_REFUSAL, SHORT) for word in ("fmlp+", "spin")),
]

REFUSALS = [
    *(refused("confirm mpcp set cert", "notjson", text, SHORT) for text in NO_JSON),
    *(refused("confirm mpcp set cert", "shape", text, SHORT) for text in NO_FORM),
    *(refused("confirm mpcp set cert", "shape", of_dpcp(f'[{{"point":{{"den":1,"num":[]}},"task":1,"value":5}},{one}]'), SHORT) for one in NO_STEPS),
]

CASES = CERTIFICATES + UPGRADES + REFUSALS + OTHER_PROTOCOLS
