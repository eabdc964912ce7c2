"""What the programs write in JSON, by the schemas of docs/schemas: of each recording and text of examples/ each line is
as its schema says, and changed ones are not; and the recipes of docs/RECORDING.md for jq, where that is installed.

The schemas are read by a validator of their own words, and by python3-jsonschema too where that is installed.
"""
from __future__ import annotations

import copy
import functools
import json
import operator
import pathlib
import re
import shutil
import subprocess
import tempfile
from collections.abc import Callable, Iterator
from typing import Any

from checks import Checks
from programs import AUDIT, MATCH, TRANSFERS
from refusals import Rule
from repository import TOP

EXAMPLES, PAGE = TOP / "examples", TOP / "docs" / "RECORDING.md"
TYPES: dict[str, type | tuple[type, ...]] = {
    "object": dict, "array": list, "string": str, "integer": int, "number": (int, float), "null": type(None),
    "boolean": bool,
}
# The words of schemas that are known here; any other would be passed over.
WORDS = {
    "$schema", "$defs", "$ref", "title", "description", "type", "properties", "required", "additionalProperties",
    "enum", "pattern", "minimum", "maximum", "items", "maxItems", "anyOf",
}
Schema = dict[str, Any]


def has_type(value: object, wanted: str | list[str]) -> bool:
    names = [wanted] if isinstance(wanted, str) else wanted
    return any(isinstance(value, TYPES[name]) and isinstance(value, bool) == (name == "boolean") for name in names)


class Validator:
    """Says what in a value is not as a schema has it (JSON Schema, draft 2020-12, as far as WORDS goes)."""

    def __init__(self, schema: Schema) -> None:
        self.schema = schema

    def faults(self, value: object) -> list[str]:
        return list(self.within(value, self.schema, "$"))

    def within(self, value: object, schema: Schema, at: str) -> Iterator[str]:
        if unknown := schema.keys() - WORDS:
            yield f"{at}: the schema's words {sorted(unknown)} are not known"
        if "$ref" in schema:
            yield from self.within(value, self.schema["$defs"][schema["$ref"].rpartition("/")[2]], at)
        if "anyOf" in schema and all(list(self.within(value, one, at)) for one in schema["anyOf"]):
            yield f"{at}: none of its forms"
        if "enum" in schema and value not in schema["enum"]:
            yield f"{at}: {value!r} is none of {schema['enum']}"
        if "type" in schema and not has_type(value, schema["type"]):
            yield f"{at}: {value!r} is no {schema['type']}"
            return
        if isinstance(value, bool):
            return
        for kind, further in (
            (str, self.text), (int, self.number), (float, self.number), (list, self.items), (dict, self.object),
        ):
            if isinstance(value, kind):
                yield from further(value, schema, at)

    def text(self, value: Any, schema: Schema, at: str) -> Iterator[str]:
        if "pattern" in schema and not re.search(schema["pattern"], value):
            yield f"{at}: {value!r} has not the form {schema['pattern']}"

    def number(self, value: Any, schema: Schema, at: str) -> Iterator[str]:
        if not schema.get("minimum", value) <= value <= schema.get("maximum", value):
            yield f"{at}: {value} is out of range"

    def items(self, value: Any, schema: Schema, at: str) -> Iterator[str]:
        if len(value) > schema.get("maxItems", len(value)):
            yield f"{at}: it has {len(value)} items"
        for place, item in enumerate(value):
            yield from self.within(item, schema.get("items", {}), f"{at}[{place}]")

    def object(self, value: Any, schema: Schema, at: str) -> Iterator[str]:
        known = schema.get("properties", {})
        yield from (f"{at}: {name} is missing" for name in schema.get("required", ()) if name not in value)
        for name, one in value.items():
            if name in known:
                yield from self.within(one, known[name], f"{at}.{name}")
            elif schema.get("additionalProperties") is False:
                yield f"{at}: {name} has no place in it"


def other_validator(schema: Schema) -> Callable[[object], bool] | None:
    """That of python3-jsonschema, where it is installed."""
    try:
        import jsonschema
    except ImportError:
        return None
    jsonschema.Draft202012Validator.check_schema(schema)
    return lambda value: bool(jsonschema.Draft202012Validator(schema).is_valid(value))


def lines_of(*words: object, given: pathlib.Path | None = None) -> list[Any]:
    """The objects that a program writes."""
    text = given.read_bytes() if given else b""
    done = subprocess.run([str(word) for word in words], input=text, capture_output=True, timeout=120)
    return [json.loads(line) for line in done.stdout.splitlines()]


@functools.lru_cache(maxsize=None)
def written(program: str, transfers: str, match: str) -> dict[str, list[Any]]:
    """What the programs write in JSON of each example, by the name of its schema."""
    explain = TOP / "tools" / "tftp-explain", "--json", "--program", program, "--transfers", transfers
    found: dict[str, list[Any]] = {"check": [], "list": [], "explain": []}
    recordings, texts = sorted(EXAMPLES.glob("*.pcap")), sorted(EXAMPLES.glob("*.capture"))
    session = EXAMPLES / "loopback-session.pcap"
    for path in (*recordings, *texts):
        found["explain"] += lines_of(*explain, path) + lines_of(*explain, "--all", path)
    for command in ("check", "list"):
        found[command] = [it for path in recordings for it in lines_of(transfers, command, "--json", path)]
    found["explain"] += lines_of(*explain, "-", given=PAGE)
    report = TOP / "tools" / "tftp-report", "--format", "json", "--program", program, "--transfers", transfers
    extract = TOP / "tools" / "tftp-extract", "--json", "--partial", "--program", program, "--transfers", transfers
    found["report"] = [it for path in recordings for it in lines_of(*report, path)]
    with tempfile.TemporaryDirectory() as folder:
        found["extract"] = [it for path in recordings for it in lines_of(*extract, folder, path)]
    asked = ["--json", "--counts", "--transfer", "1"]
    found["match"] = [it for path in recordings for it in lines_of(match, *asked, path, path)]
    for text in texts:
        ends = (text, session) if b"\nend client\n" in text.read_bytes() else (session, text)
        found["match"] += lines_of(match, "--json", "--transfer", "2", *ends)
        found["match"] += lines_of(match, "--json", text, text)
    return found


def changed(value: dict[str, Any]) -> Iterator[tuple[str, dict[str, Any]]]:
    """Objects that no schema has: a field less, one more, and each field as what it is not."""
    for name, one in value.items():
        yield f"without {name}", {key: it for key, it in value.items() if key != name}
        yield f"{name} as a list in a list", {**value, name: [[one]]}
    yield "with another field", {**value, "further": 1}


class Schemas(Checks):
    """What the programs write, by the schemas."""

    needs = (AUDIT, TRANSFERS, MATCH)

    @staticmethod
    def written() -> dict[str, list[Any]]:
        return written(AUDIT.path, TRANSFERS.path, MATCH.path)

    def test_schemas(self) -> None:
        for name, values in self.written().items():
            self.try_schema(name, values)

    def try_schema(self, name: str, values: list[Any]) -> None:
        schema = json.loads((TOP / "docs" / "schemas" / f"{name}.schema.json").read_text())
        validator, other = Validator(schema), other_validator(schema)
        self.check(f"{name}, there are lines", len(values) > 10, len(values))
        for value in values:
            faults = validator.faults(value)
            self.check(f"{name}, {json.dumps(value)[:80]}", not faults and (other is None or other(value)), faults)
        passed = [why for why, value in changed(values[0]) if not validator.faults(value) or other and other(value)]
        self.check(f"{name}, what is changed is refused", not passed, passed)
        if other is None:
            self.leave(f"{name}, by another validator", "python3-jsonschema is not installed")

    def test_values(self) -> None:
        """Values deep in what is explained: each has its place in the schema."""
        schema = json.loads((TOP / "docs" / "schemas" / "explain.schema.json").read_text())
        validator = Validator(schema)
        one = next(it for it in self.written()["explain"] if it["what_if"] and it["what_if"]["left_out"])
        places: tuple[tuple[tuple[str | int, ...], object], ...] = (
            (("refused", "rule"), 28), (("refused", "payload"), "0"), (("refused", "way"), "up"),
            (("verdict",), "good"), (("what_if", "left_out", 0, "rule"), "26"), (("what_if", "without_them"), ""),
            (("told", 0, "words"), None),
        )
        for place, wrong in places:
            bad = copy.deepcopy(one)
            functools.reduce(operator.getitem, place[:-1], bad)[place[-1]] = wrong
            self.check(f"explain, {place} is {wrong!r}", bool(validator.faults(bad)))

    def test_places(self) -> None:
        """The places that there are, and how an ERROR is told between the ends."""
        schema = json.loads((TOP / "docs" / "schemas" / "check.schema.json").read_text())
        validator, aborted = Validator(schema), "aborted by client code 3"
        for place, is_one in (
            ("client", True), ("server", True), ("both", True), ("between", True), ("unknown", False)
        ):
            faults = validator.faults({**self.written()["check"][0], "place": place, "verdict": aborted})
            self.check(f"check, the place {place}", is_one == (not faults), faults)

    def test_recipes(self) -> None:
        """The commands of the page with jq, on a recording in which one of five is refused."""
        recipes = re.findall(r"(?m)^(tftp-\w+ [^\n]*\| jq [^\n]*)$", PAGE.read_text())
        self.check("there are recipes", len(recipes) >= 3, recipes)
        if not shutil.which("jq"):
            self.leave("the recipes", "jq is not installed")
            return
        explain = f"{TOP}/tools/tftp-explain --program {AUDIT.path} --transfers {TRANSFERS.path}"
        for recipe in recipes:
            command = recipe.replace("tftp-transfers", TRANSFERS.path).replace("tftp-explain", explain)
            command = command.replace("boot.pcap", str(EXAMPLES / "loopback-session.pcap"))
            done = subprocess.run(["sh", "-c", command], capture_output=True, text=True, timeout=120)
            # What is refused there came after an ERROR of the other end.
            is_test = "jq -s -e" in recipe
            wanted = 1 if is_test and "before_refusal" not in recipe else 0
            holds = done.returncode == wanted and not done.stderr
            holds = holds and (Rule.ACK_AHEAD.printed in done.stdout or is_test)
            self.check(recipe, holds, (done.stdout, done.stderr, done.returncode))


class Fields(Checks):
    """What the schemas say of their fields."""

    def test_fields(self) -> None:
        """Each field of each schema is described there."""
        for path in sorted((TOP / "docs" / "schemas").glob("*.json")):
            schema = json.loads(path.read_text())
            for tree in (schema, *schema.get("$defs", {}).values()):
                for name, field in tree.get("properties", {}).items():
                    self.check(f"{name} of {path.name} is described", bool(field.get("description")), field)
