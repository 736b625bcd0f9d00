"""Pieces of an HTML page that stands alone."""
from __future__ import annotations

import html
import re
from dataclasses import dataclass
from typing import Optional, Sequence, Union


@dataclass(frozen=True)
class Beside:
    """A number of a cell, with a word beside it."""

    number: int
    word: str


# what a cell of a table holds: a text, a number, a number with a word beside it, or HTML in a list
Cell = Union[str, int, Beside, list[str]]


def escaped(text: object) -> str:
    """A text as HTML shows it."""
    return html.escape(str(text))


def element(name: str, inside: str = "", **attributes: object) -> str:
    """An element around what is HTML already. An underscore in an attribute's name stands for a hyphen, one at its end for nothing."""
    given = "".join(f' {key.rstrip("_").replace("_", "-")}="{escaped(value)}"' for key, value in attributes.items() if value is not None)
    return f"<{name}{given}>{inside}</{name}>"


def marked(text: str) -> str:
    """A line of Markdown: words in backticks are code, words between two stars are strong."""
    parts = re.split(r"`([^`]*)`", text)
    said = [element("code", escaped(part)) if number % 2 else escaped(part) for number, part in enumerate(parts)]
    return re.sub(r"\*\*(.+?)\*\*", r"<strong>\1</strong>", "".join(said))


def paragraph(text: str, **attributes: object) -> str:
    """A paragraph of a line of Markdown."""
    return element("p", marked(text), **attributes)


def listed(lines: Sequence[str]) -> str:
    """A list with a point for each line."""
    return element("ul", "".join(element("li", marked(line)) for line in lines))


def section(title: str, *parts: str) -> str:
    """A section with a title, to which the contents lead."""
    name = re.sub(r"[^a-z]+", "-", title.lower()).strip("-")
    return element("section", element("h2", escaped(title)) + "".join(parts), id=name)


def contents(body: str) -> str:
    """The list of the sections of a body."""
    found = re.findall(r'<section[^>]* id="([^"]*)"[^>]*><h2>(.*?)</h2>', body)
    links = "".join(element("li", element("a", title, href=f"#{name}")) for name, title in found)
    return element("nav", element("ol", links), aria_label="Contents")


def figure(drawing: str, words: str) -> str:
    """A picture with words below it."""
    return element("figure", drawing + element("figcaption", marked(words)))


def is_number(value: Cell) -> bool:
    """Whether a cell stands on the right."""
    return isinstance(value, (int, Beside)) or isinstance(value, str) and value.endswith(" %")


def table(heads: Sequence[str], rows: Sequence[Sequence[Cell]], words: Optional[str] = None) -> str:
    """A table whose first cell of each row names the row. Columns of numbers stand on the right; a cell that is a list is HTML already."""

    def cell(value: Cell, place: int) -> str:
        inside = value[0] if isinstance(value, list) else escaped(value)
        if isinstance(value, Beside):
            inside = escaped(value.number) + element("span", escaped(value.word), class_="time")
        return element("td" if place else "th", inside, class_="number" if sides[place] else None, scope=None if place else "row")

    sides = [any(is_number(row[place]) for row in rows) for place in range(len(heads))]
    top = "".join(element("th", marked(head), scope="col", class_="number" if side else None) for head, side in zip(heads, sides))
    body = "".join(element("tr", "".join(cell(value, place) for place, value in enumerate(row))) for row in rows)
    made = element("table", element("thead", element("tr", top)) + element("tbody", body))
    return element("div", made + (paragraph(words, class_="source") if words else ""), class_="table")


def as_cells(line: str) -> list[str]:
    """The cells of a line of a Markdown table."""
    return [cell.strip() for cell in line.strip().strip("|").split("|")]


def block_of(block: str) -> str:
    """A block of Markdown: a quotation, a table, a list or a paragraph, or a paragraph with a list behind it."""
    lines = block.splitlines()
    if lines[-1].startswith("- "):
        first = next(number for number, line in enumerate(lines) if line.startswith("- "))
        return (paragraph(" ".join(lines[:first])) if first else "") + listed([line.removeprefix("- ") for line in lines[first:]])
    if lines[0].startswith("> "):
        return element("blockquote", paragraph(" ".join(line.removeprefix("> ") for line in lines)))
    if lines[0].startswith("|"):
        return table(as_cells(lines[0]), [[[marked(cell)] for cell in as_cells(line)] for line in lines[2:]])
    return paragraph(" ".join(lines))


def section_of(text: str, title: str) -> Optional[str]:
    """The section of a Markdown text with this title, as HTML without the title and without sections of its own, or None where there is none."""
    found = re.search(rf"^###? {re.escape(title)}\n(.*?)(?=^###? |\Z)", text, re.M | re.S)
    return "".join(block_of(block) for block in re.split(r"\n{2,}", found[1].strip())) if found else None


def page(title: str, style: str, body: str) -> str:
    """The whole page."""
    head = f'<meta charset="utf-8"><meta name="viewport" content="width=device-width, initial-scale=1"><title>{escaped(title)}</title><style>{style}</style>'
    return f'<!DOCTYPE html>\n<html lang="en"><head>{head}</head>\n<body><main>\n{body}\n</main></body></html>\n'
