"""Words that have no form."""
from setting import Case
from sets import PAIR, PAIR_JOBS, PAIR_ROWS

FILES = {"set": PAIR, "jobs": PAIR_JOBS, "rows": PAIR_ROWS}


def refused(shows, words):
    return Case(shows, words, "refused words\n", 2, FILES)


CASES = [
    refused("no word at all", ""),
    refused("an empty word", [""]),
    refused("an unknown command", "analyze fmlp+ set"),
    refused("a command with an end of line", ["analyse\n", "fmlp+", "set"]),
    refused("help is no form", "--help"),
    refused("a command alone", "analyse"),
    refused("a set is lacking", "analyse fmlp+"),
    refused("an unknown protocol", "analyse edf set"),
    refused("a protocol in capitals", "analyse MPCP set"),
    refused("a word too many after the allowance", "analyse fmlp+ set 8 8"),
    refused("an allowance of 0", "analyse fmlp+ set 0"),
    refused("an allowance with a leading zero", "analyse fmlp+ set 08"),
    refused("an allowance with a sign", "analyse fmlp+ set +8"),
    refused("an allowance above the greatest", "analyse fmlp+ set 1000000001"),
    refused("an allowance of 30 digits", "analyse fmlp+ set 100000000000000000000000000000"),
    refused("an allowance that is no number", "analyse fmlp+ set many"),
    refused("a report of no set", "report fmlp+"),
    refused("a report with five words", "report fmlp+ set set set"),
    refused("rows are lacking", "conform fmlp+ set jobs"),
    refused("a word too many after the rows", "conform fmlp+ set jobs rows rows"),
    refused("two hundred words", "analyse fmlp+ set" + 197 * " set"),
    refused("a word that isn't UTF-8", [b"\xff"]),
    refused("a path that isn't UTF-8", ["analyse", "fmlp+", b"s\xff"]),
    refused("a word that isn't UTF-8 after a whole form", ["report", "fmlp+", "set", b"\xc3"]),
]
