"""Ways to bend a text at random, which fuzz.py and tests share."""
import re

NUMBERS = [0, 1, 2, 9, 10, 31, 32, 33, 63, 64, 65, 255, 256, 257, 999, 1000, 1001, 10**5, 10**9 - 1, 10**9, 10**9 + 1, 2**31, 2**32 - 1, 2**32]
NUMBERS += [2**53, 2**63 - 1, 2**63, 2**64 - 1, 2**64, 10**30]
PIECES = [b'""', b"null", b"true", b"-1", b"-0", b"1.0", b"1e3", b"1e400", b"01", b"[]", b"{}", b"[[", b"}}", b'{"', b",", b":", b"\n", b"\r", b"\r\n", b'"']
PIECES += [b"\xef\xbb\xbf", b"\xff", b"\x00", b"\\u0000", b"\\ud800", b" ", b"\t", b"t1", b"control", b"bus", b":1", b"P1", b"ticks", b"task", b"[" * 130, b"1," * 200]


def other_number(text, rng):
    """A number of the text becomes another one."""
    found = list(re.finditer(rb"[0-9]+", text))
    if not found:
        return text
    at = rng.choice(found)
    near = [str(max(0, int(at[0]) + step)) for step in (-1, 1)] if len(at[0]) < 30 else []
    number = rng.choice([*near, str(rng.choice(NUMBERS)), str(rng.choice(NUMBERS))])
    return text[: at.start()] + number.encode() + text[at.end() :]


def other_word(text, rng):
    """A word of the text becomes another word of it."""
    found = list(re.finditer(rb'"?[A-Za-z_][A-Za-z0-9_.+-]*"?', text))
    if not found:
        return text
    at, by = rng.choice(found), rng.choice(found)
    return text[: at.start()] + by[0] + text[at.end() :]


def other_byte(text, rng):
    at = rng.randrange(len(text) + 1)
    return text[:at] + bytes([rng.choice([rng.randrange(256), *b'0123456789",:{}[]\n'])]) + text[at + rng.randrange(2) :]


def without_slice(text, rng):
    start = rng.randrange(len(text) + 1)
    return text[:start] + text[start + rng.choice([1, 1, 2, 5, 20, 200]) :]


def with_slice_again(text, rng):
    start = rng.randrange(len(text) + 1)
    part = text[start : start + rng.choice([1, 3, 10, 40, 200])]
    at = rng.choice([start, rng.randrange(len(text) + 1)])
    return text[:at] + part * rng.choice([1, 1, 2, 30]) + text[at:]


def with_piece(text, rng):
    at = rng.randrange(len(text) + 1)
    return text[:at] + rng.choice(PIECES) + text[at:]


def with_other_lines(text, rng):
    """Two lines change places, or one comes again or goes."""
    lines = text.splitlines(keepends=True)
    if len(lines) < 2:
        return text
    a, b = rng.randrange(len(lines)), rng.randrange(len(lines))
    way = rng.randrange(3)
    if way == 0:
        lines[a], lines[b] = lines[b], lines[a]
    elif way == 1:
        lines.insert(a, lines[b])
    else:
        del lines[a]
    return b"".join(lines)


def cut(text, rng):
    return text[: rng.randrange(len(text) + 1)]


# what leaves the form as it is, and what may break it
MILD = [other_number, other_number, other_number, other_word, with_other_lines]
ROUGH = [other_byte, without_slice, with_slice_again, with_piece, cut]
