"""Blocking programs as lines of a text: the form of bench/programs.txt.

A line is a program: the costs, then for each row, after a semicolon, its limit and its coefficients, each as COLUMN:NUMBER with columns
counted from 0. Lines that begin with # are comments.
"""


def as_line(costs, rows):
    """The line of a program; a row is its limit and its coefficients, each a column and a number."""
    parts = [f"{limit} " + " ".join(f"{column}:{number}" for column, number in entries) for limit, entries in rows]
    return "; ".join([" ".join(map(str, costs)), *parts])


def read(path):
    """The programs of a file: costs, and rows as (limit, {column: coefficient})."""
    programs = []
    for line in path.read_text().splitlines():
        if not line or line.startswith("#"):
            continue
        costs, *rows = line.split(";")
        parsed = []
        for row in rows:
            limit, *entries = row.split()
            parsed.append((int(limit), dict(tuple(map(int, entry.split(":"))) for entry in entries)))
        programs.append(([int(cost) for cost in costs.split()], parsed))
    return programs
