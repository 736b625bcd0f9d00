"""The command `study`: counts over generated sets."""
import re

from setting import Case
from sets import STUDIED


def counted(rows, stopped=0):
    return "step mpcp fmlp+ dpcp\n" + "".join(f"{step} {a} {b} {c}\n" for step, (a, b, c) in enumerate(rows, 1)) + f"stopped {stopped}\n"


def refused(shows, words):
    return Case(shows, words, "refused words\n", 2)


# ten lines, with no count above the number of sets
ANY_OF_ONE = re.compile(r"step mpcp fmlp\+ dpcp\n" + "".join(rf"{step} [01] [01] [01]\n" for step in range(1, 9)) + r"stopped \d+\n")
ANY_OF_HUNDRED = re.compile(
    r"step mpcp fmlp\+ dpcp\n" + "".join(rf"{step}( (\d\d?|100)){{3}}\n" for step in range(1, 9)) + r"stopped \d+\n"
)

CASES = [
    Case("one set of each step", "study 1 1", STUDIED),
    Case("the greatest seed", "study 18446744073709551615 3", counted(7 * [(3, 3, 3)] + [(1, 1, 1)])),
    Case("some of these sets aren't schedulable", "study 24 12", counted(6 * [(12, 12, 12)] + [(10, 11, 10), (7, 7, 6)])),
    Case("the first seed", "study 0 1", ANY_OF_ONE),
    Case("a hundred sets of each step", "study 5 100", ANY_OF_HUNDRED),
    refused("no set", "study 1 0"),
    refused("more sets than there may be", "study 0 1001"),
    refused("a seed of 65 bits", "study 18446744073709551616 1"),
    refused("a seed with a leading zero", "study 00 1"),
    refused("a seed alone", "study 1"),
]
