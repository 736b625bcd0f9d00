"""Compares the JSON Schemas of docs/schema with the examples and with the sets of the table: they refuse nothing that the program takes."""
import json
import re

from setting import TOP

SCHEMAS = TOP / "docs" / "schema"


def schema(name):
    return json.loads((SCHEMAS / f"{name}.schema.json").read_text())


def parsed(text):
    try:
        return json.loads(text)
    except ValueError:
        return None


def kind_of(value):
    """The schema that a value has to meet, by its verdict."""
    return {None: "task-set", "notshown": "refusal"}.get(value.get("verdict"), "certificate")


def shown_certificates():
    """The certificates and refusals that the documents show."""
    for document in (TOP / "README.md", TOP / "docs" / "FORMATS.md", *sorted((TOP / "docs").glob("GUIDE*.md"))):
        for line in document.read_text().splitlines():
            if re.fullmatch(r'\{"(bounds|protocol)":.*\}', line):
                yield document.name, json.loads(line)


def examples():
    """Each JSON file among the examples but certificates of version 1, which have no schema."""
    for path in sorted((TOP / "examples").glob("*.json")):
        value = json.loads(path.read_text())
        if kind_of(value) != "certificate" or value["version"] != 1:
            yield path.name, value


def accepted_sets(cases):
    """The sets of the table that the program accepts."""
    for name, case in cases:
        text = case.files.get("set")
        value = parsed(text) if isinstance(text, str) else None
        says = case.says if isinstance(case.says, str) else ""
        if value is not None and not says.startswith(("refused set", "fault read set")):
            yield f"{name}: {case.shows}", value


def certificates_of(cases):
    """The certificates and refusals that the program is to write in the table."""
    for name, case in cases:
        if case.status in (0, 1) and isinstance(case.says, str) and case.says.startswith(('{"bounds"', '{"protocol"')):
            yield f"{name}: {case.shows}", json.loads(case.says)


def differences(cases):
    """What is wrong with the schemas, or None where there is no `jsonschema` to compare them with, and how many comparisons were made."""
    try:
        from jsonschema import Draft7Validator
    except ImportError:
        return None, 0
    validators = {name: Draft7Validator(schema(name)) for name in ("task-set", "certificate", "refusal")}
    for validator in validators.values():
        Draft7Validator.check_schema(validator.schema)
    written = (*examples(), *shown_certificates(), *certificates_of(cases))
    taken = [(name, kind_of(value), value) for name, value in written]
    taken += [(name, "task-set", value) for name, value in accepted_sets(cases)]
    errors = [(name, kind, next(validators[kind].iter_errors(value), None)) for name, kind, value in taken]
    found = [f"docs/schema/{kind}.schema.json refuses {name}: {error.message}" for name, kind, error in errors if error is not None]
    pair = json.loads((TOP / "examples" / "pair.json").read_text())
    for wrong in ({"processors": 2}, {**pair, "processor": 2}, {**pair, "processors": 0}, {**pair, "tasks": [{**pair["tasks"][0], "prio": 1}]}):
        if validators["task-set"].is_valid(wrong):
            found.append(f"docs/schema/task-set.schema.json takes {wrong}")
    return found, len(taken) + 4
