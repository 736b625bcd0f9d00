"""The commands `check`, `upgrade`, and `report` with a certificate."""
from setting import Case
from sets import FIVE, HEADER, HOMELESS, LATE, LATE_CERTIFICATE, OLD_PAIR_CERTIFICATE, PAIR, PAIR_CERTIFICATE, PAIR_FULL_TABLE, SIX, SIX_CERTIFICATE, certificate, digest_of, old, tied


def checked(shows, says, cert, set=PAIR, protocol="fmlp+", command="check"):
    status = 3 if says.startswith("refused ") else 1 if says.startswith("invalid ") else 0
    return Case(shows, f"{command} {protocol} set cert", says + "\n" if not says.endswith("\n") else says, status, {"set": set, "cert": cert})


def changed(old, new):
    return PAIR_CERTIFICATE.replace(old, new, 1)


LATE_TABLE = (
    HEADER[:-1] + "      bound   blocking      slack\n"
    + "t1                                1         10         10          2          2          2          0          4\n"
    + "t2                                1         20         20          5          5          9          0         11\n"
    + "load 1 450000\n"
)

CERTIFICATES = [
    checked("the certificate of the analysis", "valid", PAIR_CERTIFICATE),
    checked("the same under DPCP", "valid", certificate("dpcp", [5, 5], [[2, 0, 0], [1, 0]]), protocol="dpcp"),
    checked("a dual over the denominator 3", "valid", SIX_CERTIFICATE, SIX, "mpcp"),
    checked("a set of three tasks", "valid", certificate("fmlp+", [4, 11, 7], [[2, 0, 0], [3, 0, 0, 0], [2, 0, 0, 0]], FIVE), FIVE),
    checked("greater bounds with other duals", "valid", certificate("fmlp+", [6, 5], [[0, 0, 2, 0], [0, 0, 1, 0]])),
    checked("members in another order, with spaces", "valid",
            f'{{ "version": 2, "verdict": "schedulable", "set": "{digest_of(PAIR)}", "protocol": "fmlp+", "duals": '
            '[{"num": [2, 0, 0, 0], "den": 1}, {"num": [1, 0, 0, 0], "den": 1}], "bounds": [5, 5] }'),
    checked("a greater bound in whose window two jobs of the other run", "invalid small t1", certificate("fmlp+", [6, 5], [[2, 0, 0, 0], [0, 0, 1, 0]])),
    checked("a bound one below the least", "invalid small t2", certificate("fmlp+", [5, 4], [[2, 0, 0, 0], [1, 0, 0, 0]])),
    checked("a column that isn't covered", "invalid cover t1 1", certificate("fmlp+", [5, 5], [[1, 0, 0, 0], [1, 0, 0, 0]])),
    checked("a numerator too few", "invalid dualsize t1", certificate("fmlp+", [5, 5], [[2, 0, 0], [1, 0, 0, 0]])),
    checked("a bound above its deadline", "invalid bound t1", certificate("fmlp+", [11, 5], [[2, 0, 0, 0], [1, 0, 0, 0]])),
    checked("bound and jitter together at the deadline", "valid", certificate("fmlp+", [6, 11], [[], []], LATE), LATE),
    checked("bound and jitter together above the deadline", "invalid bound t1", certificate("fmlp+", [7, 11], [[], []], LATE), LATE),
    checked("the greatest bound with a jitter", "invalid bound t1", certificate("fmlp+", [2**64 - 1, 9], [[], []], LATE), LATE),
    checked("a bound that counts the higher task's jobs without its jitter", "invalid small t2", certificate("fmlp+", [2, 7], [[], []], LATE), LATE),
    checked("one bound", "invalid size", certificate("fmlp+", [5], [[2, 0, 0, 0], [1, 0, 0, 0]])),
    checked("one dual", "invalid size", certificate("fmlp+", [5, 5], [[2, 0, 0, 0]])),
    checked("the last task's dual before the first task's column", "invalid dualsize t2", certificate("fmlp+", [4, 5], [[1, 0, 0, 0], [1, 0, 0]])),
    checked("the last task's bound before the first task's dual", "invalid bound t2", certificate("fmlp+", [5, 11], [[2, 0, 0], [1, 0, 0, 0]])),
    checked("a later task's column before an earlier task's bound", "invalid cover t2 1", certificate("fmlp+", [4, 5], [[2, 0, 0, 0], [0, 0, 0, 0]])),
    checked("bounds of 0", "invalid small t1", certificate("fmlp+", [0, 0], [[2, 0, 0, 0], [1, 0, 0, 0]])),
    checked("the greatest bounds that can be written", "invalid bound t1", certificate("fmlp+", [2**64 - 1, 2**64 - 1], [[2, 0, 0, 0], [1, 0, 0, 0]])),
    checked("the greatest numbers of a dual", "invalid small t1", certificate("fmlp+", [5, 5], [(2**63 - 1, [2**63 - 1] * 4), [1, 0, 0, 0]])),
    checked("the greatest numerators over 1", "invalid small t1", certificate("fmlp+", [5, 5], 2 * [[2**63 - 1] * 4])),
    checked("the greatest denominator", "invalid cover t1 1", certificate("fmlp+", [5, 5], [(2**63 - 1, [2, 0, 0, 0]), [1, 0, 0, 0]])),
    checked("a certificate of another set", "invalid otherset", PAIR_CERTIFICATE, FIVE),
    checked("of the same set with a space more", "invalid otherset", PAIR_CERTIFICATE, PAIR + " "),
    checked("another set's before one that isn't valid", "invalid otherset", tied(certificate("fmlp+", [5], [[]]), FIVE)),
    checked("the digest of another set with this set's sizes", "invalid size", tied(PAIR_CERTIFICATE, FIVE), FIVE),
    checked("a certificate for another protocol", "refused cert otherprotocol", PAIR_CERTIFICATE, protocol="mpcp"),
    checked("another version", "refused cert version", changed('"version":2', '"version":9')),
    checked("the version before", "refused cert version", OLD_PAIR_CERTIFICATE),
    checked("a version that is no whole number", "refused cert shape root", changed('"version":2', '"version":2.0')),
    checked("a protocol that nobody knows", "refused cert otherprotocol", changed('"fmlp+"', '"pip"')),
    checked("no digest", "refused cert shape root", OLD_PAIR_CERTIFICATE.replace('"version":1', '"version":2')),
    checked("a digest of 63 digits", "refused cert shape root", changed(digest_of(PAIR), digest_of(PAIR)[1:])),
    checked("a digest in capitals", "refused cert shape root", changed(digest_of(PAIR), digest_of(PAIR).upper())),
    checked("a digest that is a number", "refused cert shape root", changed(f'"{digest_of(PAIR)}"', "5")),
    checked("another verdict", "refused cert shape root", changed("schedulable", "shown")),
    checked("a member that isn't listed", "refused cert shape root", changed('"version"', '"sets":1,"version"')),
    checked("a bound of 2^64", "refused cert shape bounds", certificate("fmlp+", [2**64, 5], [[2, 0, 0, 0], [1, 0, 0, 0]])),
    checked("a bound that is no whole number", "refused cert shape bounds", changed("[5,5]", "[5,-5]")),
    checked("a denominator of 0", "refused cert shape dual 2", changed('{"den":1,"num":[1', '{"den":0,"num":[1')),
    checked("a denominator of 2^63", "refused cert shape dual 1", certificate("fmlp+", [5, 5], [(2**63, [2, 0, 0, 0]), [1, 0, 0, 0]])),
    checked("a numerator of 2^63", "refused cert shape dual 1", changed("[2,0", "[9223372036854775808,0")),
    checked("the set is read first", "refused set nohome resource 1", "{", HOMELESS, "dpcp"),
    checked("the table with bounds, blocking and slack", PAIR_FULL_TABLE, PAIR_CERTIFICATE, command="report"),
    checked("a slack that the jitter takes from", LATE_TABLE, LATE_CERTIFICATE, LATE, command="report"),
    checked("no table of a certificate that isn't valid", "invalid small t2", certificate("fmlp+", [5, 4], [[2, 0, 0, 0], [1, 0, 0, 0]]), command="report"),
    checked("nor of one that is refused", "refused cert otherprotocol", PAIR_CERTIFICATE, protocol="mpcp", command="report"),
    checked("nor of another set's", "invalid otherset", PAIR_CERTIFICATE, FIVE, command="report"),
]

UPGRADES = [
    checked("a certificate gets the digest of its set", PAIR_CERTIFICATE, OLD_PAIR_CERTIFICATE, command="upgrade"),
    checked("of the bytes as they are", tied(PAIR_CERTIFICATE, PAIR + " "), OLD_PAIR_CERTIFICATE, PAIR + " ", command="upgrade"),
    checked("a dual over the denominator 3", SIX_CERTIFICATE, old(SIX_CERTIFICATE), SIX, "mpcp", "upgrade"),
    checked("one that isn't valid gets none", "invalid small t2", old(certificate("fmlp+", [5, 4], [[2, 0, 0, 0], [1, 0, 0, 0]])), command="upgrade"),
    checked("nor one of another set", "invalid size", OLD_PAIR_CERTIFICATE, FIVE, command="upgrade"),
    checked("nor one that has a digest", "refused cert version", PAIR_CERTIFICATE, command="upgrade"),
    checked("a digest in the version before", "refused cert shape root", PAIR_CERTIFICATE.replace('"version":2', '"version":1'), command="upgrade"),
    checked("a protocol that nobody knows", "refused cert otherprotocol", OLD_PAIR_CERTIFICATE.replace("fmlp+", "pip"), command="upgrade"),
]

CASES = CERTIFICATES + UPGRADES
