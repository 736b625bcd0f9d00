"""The sets, jobs and rows of `crates/worked_sets/src/files.rt`, which crates of cases read too: each constant under its name."""
import re

from setting import TOP

CONSTANT = re.compile(r'pub const (\w+): &str =\s*(?:r#"(.*?)"#|"((?:[^"\\]|\\.)*)");', re.S)
ESCAPES = {"n": "\n", '"': '"', "\\": "\\"}


def text_of(raw, escaped):
    """The text that a constant of Rust stands for, of which one of the two forms is given."""
    return raw if escaped is None else re.sub(r"\\(.)", lambda found: ESCAPES[found[1]], escaped)


FILES = {name: text_of(raw, escaped) for name, raw, escaped in (one.group(1, 2, 3) for one in CONSTANT.finditer((TOP / "crates/worked_sets/src/files.rt").read_text()))}
