"""Holds JSON to the schemas of docs/*.schema.json.

The words of JSON Schema that these use are read here. Where python3-jsonschema is installed, it is
asked too, and must say the same.
"""
from __future__ import annotations

import importlib
import importlib.util
import json
import re
from functools import lru_cache
from typing import Any, Callable

from harness import TOP, fail

TYPES: dict[str, Callable[[Any], bool]] = {
    "object": lambda value: isinstance(value, dict),
    "array": lambda value: isinstance(value, list),
    "string": lambda value: isinstance(value, str),
    "boolean": lambda value: isinstance(value, bool),
    "null": lambda value: value is None,
    "integer": lambda value: not isinstance(value, bool)
    and (isinstance(value, int) or isinstance(value, float) and value.is_integer()),
}
# The words that say nothing of a value.
NOTES = {"$schema", "$defs", "title", "description"}


class Schema:
    """A schema with what its references name."""

    def __init__(self, whole: dict[str, Any]) -> None:
        self.whole = whole
        self.words: dict[str, Callable[[Any, Any, dict[str, Any]], bool]] = {
            "$ref": lambda value, name, _: self.takes(value, self.named(name)),
            "type": lambda value, types, _: any(TYPES[one](value) for one in listed(types)),
            "enum": lambda value, known, _: any(are_same(value, one) for one in known),
            "const": lambda value, known, _: are_same(value, known),
            "anyOf": lambda value, schemas, _: any(self.takes(value, one) for one in schemas),
            "minimum": lambda value, least, _: bool(value >= least),
            "maximum": lambda value, most, _: bool(value <= most),
            "pattern": lambda value, pattern, _: bool(re.search(pattern, value)),
            "items": lambda value, schema, _: all(self.takes(one, schema) for one in value),
            "maxItems": lambda value, most, _: bool(len(value) <= most),
            "required": lambda value, names, _: all(name in value for name in names),
            "properties": lambda value, schemas, _: all(
                self.takes(value[name], schemas[name]) for name in value if name in schemas
            ),
            "additionalProperties": lambda value, _, whole: set(value) <= set(whole["properties"]),
        }

    def named(self, name: str) -> dict[str, Any]:
        """What a reference names."""
        found: dict[str, Any] = self.whole["$defs"][name.removeprefix("#/$defs/")]
        return found

    def takes(self, value: Any, schema: dict[str, Any]) -> bool:
        """Whether a value is as a schema wants it."""
        if "type" in schema and not self.words["type"](value, schema["type"], schema):
            return False
        words = [word for word in schema if word not in NOTES]
        return all(self.words[word](value, schema[word], schema) for word in words)


def are_same(value: Any, known: Any) -> bool:
    """Whether two values are the same; for Python 1 is true, and for JSON it isn't."""
    return isinstance(value, bool) == isinstance(known, bool) and bool(value == known)


def listed(types: Any) -> list[str]:
    """One or more types as a list."""
    return types if isinstance(types, list) else [types]


@lru_cache(maxsize=None)
def schema_of(name: str) -> Schema:
    """The schema of this name, which is a schema in the eyes of python3-jsonschema too."""
    path = TOP / f"docs/{name}.schema.json"
    return Schema(json.loads(path.read_text()))


@lru_cache(maxsize=None)
def library_of(name: str) -> Any:
    """What python3-jsonschema makes of the schema, or None where it isn't installed."""
    if not importlib.util.find_spec("jsonschema"):
        return None
    library: Any = importlib.import_module("jsonschema")
    whole = schema_of(name).whole
    library.Draft202012Validator.check_schema(whole)
    return library.Draft202012Validator(whole)


def valid(name: str, text: str | bytes) -> Any:
    """The value of a text in JSON, which must be as the schema of this name wants it."""
    value = json.loads(text)
    schema, library = schema_of(name), library_of(name)
    is_valid = schema.takes(value, schema.whole)
    if library is not None and library.is_valid(value) != is_valid:
        fail(f"python3-jsonschema takes another view of {name}", value)
    if not is_valid:
        fail(f"JSON isn't as docs/{name}.schema.json says", value)
    return value
