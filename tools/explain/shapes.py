"""Which member of an object hasn't its form, and what it should be, by the JSON Schemas of docs/schema."""
import difflib
import json
import re
from dataclasses import dataclass
from pathlib import Path
from typing import Any, Iterator

MOST_SHOWN = 40
WHOLE = re.compile(r"0|[1-9][0-9]*")
WORD_LIMIT = 2**64


class Number(str):
    """A number as it is written: 1.0 and -0 are no whole numbers, though they have the value of one."""

    def is_whole(self) -> bool:
        return WHOLE.fullmatch(self) is not None and int(self) < WORD_LIMIT


def value_of(text: str) -> Any:
    """The value of a JSON text, with its numbers as they are written. Of a member that is given twice the last one counts."""
    return json.loads(text, parse_int=Number, parse_float=Number)


def shown(value: Any) -> str:
    """A value in few words."""
    if isinstance(value, Number):
        return value if len(value) <= MOST_SHOWN else f"{value[:MOST_SHOWN]}.."
    if isinstance(value, list):
        return "a list"
    if isinstance(value, dict):
        return "an object"
    text = json.dumps(value, ensure_ascii=False)
    return text if len(text) <= MOST_SHOWN else f'{text[:MOST_SHOWN]}.."'


@dataclass(frozen=True)
class Form:
    """What a schema says of a value. `in_full` asks for ranges and patterns too, which of a set are tried behind its form."""

    schema: dict[str, Any]
    whole: dict[str, Any]
    in_full: bool

    def of(self, schema: dict[str, Any]) -> "Form":
        """The form that a part of the same schema describes, with what it refers to put in its place."""
        merged: dict[str, Any] = {}
        for part in (*schema.get("allOf", ()), schema):
            target = part.get("$ref", "").rpartition("/")[2]
            merged |= self.of(self.whole["definitions"][target]).schema if target else {}
            merged |= {key: value for key, value in part.items() if key not in ("$ref", "allOf")}
        return Form(merged, self.whole, self.in_full)

    def member(self, name: str) -> "Form":
        return self.of(self.schema["properties"][name])

    def items(self) -> "Form":
        return self.of(self.schema["items"])

    def kind(self) -> str:
        return self.schema.get("type") or ("integer" if isinstance(self.schema.get("const"), int) else "string")

    def bounds(self) -> tuple[int, int]:
        """The least and the greatest whole number of this form."""
        least, most = self.schema.get("minimum", 0), self.schema.get("maximum", WORD_LIMIT - 1)
        return self.schema.get("const", least), self.schema.get("const", most)

    def words(self) -> str:
        """What a value of this form is."""
        if self.in_full and "const" in self.schema:
            return json.dumps(self.schema["const"])
        if self.kind() == "integer":
            least, most = self.bounds()
            return f"a whole number from {least:,} to {most:,}, in digits alone" if self.in_full else "a whole number, in digits alone"
        if self.in_full and "pattern" in self.schema:
            return f"a text of the form {self.schema['pattern']}"
        return {"array": "a list", "object": "an object"}.get(self.kind(), "a text between double quotes")

    def means(self) -> str:
        """What the schema says of its meaning, as the end of a sentence."""
        meaning = self.schema.get("description", "").rstrip(".")
        return f": {meaning[0].lower()}{meaning[1:]}" if meaning else ""

    def is_met(self, value: Any) -> bool:
        """Is the value of this form, its parts left aside?"""
        kind = self.kind()
        if kind == "integer":
            least, most = self.bounds()
            return isinstance(value, Number) and value.is_whole() and (not self.in_full or least <= int(value) <= most)
        if kind == "string":
            return isinstance(value, str) and not isinstance(value, Number) and (not self.in_full or self.is_spelled(value))
        return isinstance(value, list if kind == "array" else dict)

    def is_spelled(self, text: str) -> bool:
        return text == self.schema.get("const", text) and re.search(self.schema.get("pattern", ""), text) is not None


def near(word: str, words: list[str]) -> str:
    """The one of the words that another is like, or "" where none is."""
    found = difflib.get_close_matches(word.lower(), [other.lower() for other in words], 1, 0.6)
    return next((other for other in words if found and other.lower() == found[0]), "")


def unlisted(name: str, form: Form) -> str:
    """What is wrong with a member that the form doesn't list."""
    if name == "$schema":
        return '"$schema" may not be a member: GUIDE.md says how an editor is told the schema without it'
    like = near(name, list(form.schema["properties"]))
    listed = ", ".join(f'"{other}"' for other in form.schema["properties"])
    return f'"{name}" may not be a member; ' + (f'near to it is "{like}"' if like else f"the members are {listed}")


def wrong_members(value: dict[str, Any], form: Form) -> Iterator[str]:
    """What is wrong with the members of an object, in the order of the form."""
    for name in value:
        if name not in form.schema["properties"]:
            yield unlisted(name, form)
    for name in form.schema["properties"]:
        member = form.member(name)
        if name not in value and name in form.schema["required"]:
            yield f'"{name}" is missing, which is {member.words()}{member.means()}'
        elif name in value and not member.is_met(value[name]):
            yield f'"{name}" is {shown(value[name])}, and should be {member.words()}{member.means()}'


def wrong_parts(value: Any, form: Form, place: str, deep: bool = True) -> Iterator[str]:
    """What is wrong with a value, and where it is deep with its parts, each with its place."""
    if not form.is_met(value):
        yield f"{place}: it is {shown(value)}, and should be {form.words()}"
    elif isinstance(value, dict):
        yield from (f"{place}: {line}" for line in wrong_members(value, form))
        for name in form.schema["properties"] if deep else ():
            if isinstance(value.get(name), (dict, list)) and form.member(name).is_met(value[name]):
                yield from wrong_parts(value[name], form.member(name), f'{place}, "{name}"')
    elif isinstance(value, list) and deep:
        for number, part in enumerate(value, 1):
            yield from wrong_parts(part, form.items(), f"{place}, number {number}")


def form_in(path: Path, in_full: bool) -> Form:
    schema = json.loads(path.read_text(encoding="utf-8"))
    return Form(schema, schema, in_full)


def in_set(value: Any, place: list[str], schemas: Path) -> Iterator[str]:
    """What is wrong at a place of a set."""
    form = form_in(schemas / "task-set.schema.json", False)
    numbers = [int(word) - 1 for word in place[1:]]
    where = " ".join(place)
    if place[0] == "resource":
        form, value = form.member("resources").items(), value["resources"][numbers[0]]
    elif place[0] in ("task", "request"):
        form, value = form.member("tasks").items(), value["tasks"][numbers[0]]
        where = f"task {place[1]}{named(value)}"
    if place[0] == "request":
        form, value = form.member("requests").items(), value["requests"][numbers[1]]
        where += f", request {place[2]}"
    yield from wrong_parts(value, form, "the set" if where == "root" else where, deep=False)


def named(value: Any) -> str:
    """The name of an object that has one, in brackets."""
    return f' ({value["name"]})' if isinstance(value, dict) and isinstance(value.get("name"), str) else ""


def certificate_form(schemas: Path, command: str) -> Form:
    """The form of a certificate. Its version and its protocol are tried elsewhere, and one of version 1 has no digest."""
    form = form_in(schemas / "certificate.schema.json", True)
    properties = dict(form.schema["properties"], version={"type": "integer"}, protocol={"type": "string"})
    if command == "upgrade":
        del properties["set"]
    required = [name for name in form.schema["required"] if name in properties]
    return Form(dict(form.schema, properties=properties, required=required), form.whole, True)


def in_certificate(value: Any, place: list[str], schemas: Path, command: str) -> Iterator[str]:
    """What is wrong at a place of a certificate."""
    form = certificate_form(schemas, command)
    if place[0] == "bounds":
        yield from wrong_parts(value["bounds"], form.member("bounds"), '"bounds"')
    elif place[0] == "dual":
        number = int(place[1])
        yield from wrong_parts(value["duals"][number - 1], form.member("duals").items(), f"dual {number}")
    else:
        yield from wrong_parts(value, form, "the certificate", deep=False)


def in_refusal(value: Any, schemas: Path) -> Iterator[str]:
    """What is wrong with a certificate of refusal, whose form is judged as one."""
    form = form_in(schemas / "refusal.schema.json", True)
    form.schema["properties"]["protocol"] = {"type": "string"}
    yield from wrong_parts(value, form, "the refusal")
