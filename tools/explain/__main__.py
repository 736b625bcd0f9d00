"""Says on standard output why the program refused its words or an input, in lines that begin with the name of a command.

    python3 tools/explain NAME DOCUMENTS STATUS ANSWER WORDS..

NAME is the command that the user typed, as `block`; DOCUMENTS the folder with the guide and the JSON Schemas; STATUS and ANSWER are what the
program ended with and wrote; WORDS are those that it was given. ./block calls this and shows the lines on standard error. It reads the
inputs again, proves nothing, and changes no answer. It ends with status 1 and writes nothing where it has nothing to say.
"""
import re
import sys
from pathlib import Path
from typing import Iterator

sys.path.insert(0, str(Path(__file__).resolve().parent))

import inputs  # noqa: E402
import words as word_forms  # noqa: E402

WRONG_WORDS, REFUSED, FAULT = 2, 3, 4


def word_lines(given: list[str], documents: Path, name: str) -> Iterator[str]:
    """What is wrong with the words, and the one form that was meant."""
    wrong = word_forms.wrong_words(given, word_forms.guide_in(documents))
    if wrong:
        yield wrong.why
        yield f"the form is: {name} {' '.join(wrong.form)}" if wrong.form else f"{name} --help lists the forms"


def lines_of(name: str, documents: Path, status: int, answer: str, given: list[str]) -> list[str]:
    """What may help after an answer."""
    if status == WRONG_WORDS:
        return list(word_lines(given, documents, name))
    refused = re.match(r"refused (set|cert|jobs|rows) (\S.*)", answer)
    if status == REFUSED and refused:
        return list(inputs.refusal_lines(given, refused[1], refused[2].split(), documents))
    if status == FAULT:
        return list(inputs.unread_lines(given))
    return []


def main() -> int:
    name, documents, status, answer, *given = sys.argv[1:]
    try:
        lines = lines_of(name, Path(documents), int(status), answer, given)
    except (OSError, ValueError, LookupError, TypeError, RecursionError):
        # the input changed since, or isn't what the answer says: what is said then would mislead
        return 1
    for line in lines:
        print(f"{name}: {line}".encode("utf-8", "backslashreplace").decode("utf-8"))
    return 0 if lines else 1


if __name__ == "__main__":
    sys.exit(main())
