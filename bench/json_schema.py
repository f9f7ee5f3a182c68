"""A checker of JSON by docs/json.schema.json, for machines without `jsonschema`. It knows the words which that schema uses, and no other."""
import json
import os
import re

PATH = os.path.join(os.path.dirname(os.path.dirname(os.path.abspath(__file__))), "docs", "json.schema.json")
TYPES = {"object": dict, "array": list, "string": str, "boolean": bool, "integer": int, "null": type(None)}
NOTES = {"$schema", "$defs", "title", "description"}


def is_of_type(value, names):
    names = [names] if isinstance(names, str) else names
    return any(type(value) is TYPES[name] for name in names)


def is_same(value, wanted):
    """Whether two values without members are one: true is not 1."""
    return type(value) is type(wanted) and value == wanted


def of_object(check):
    """A word that says something of objects alone."""
    return lambda it, value, *rest: not isinstance(value, dict) or check(it, value, *rest)


def of_type(wanted, check):
    """A word that says something of values of a type alone."""
    return lambda it, value, *rest: type(value) is not wanted or check(it, value, *rest)


class Checker:
    """The schema, with what each of its words asks of a value."""

    def __init__(self, path=PATH):
        with open(path, encoding="utf-8") as file:
            self.schema = json.load(file)

    def is_valid(self, value, schema=None):
        """Whether a value is one of a schema: of the whole one, or of a part of it."""
        schema = self.schema if schema is None else schema
        if isinstance(schema, bool):
            return schema
        return all(word in NOTES or WORDS[word](self, value, asked, schema) for word, asked in schema.items())

    def part(self, name):
        """The schema of one of the definitions."""
        return self.schema["$defs"][name]

    def reference(self, value, target, _):
        return self.is_valid(value, self.part(target.removeprefix("#/$defs/")))

    def properties(self, value, asked, _):
        return all(name not in value or self.is_valid(value[name], schema) for name, schema in asked.items())


WORDS = {
    "$ref": Checker.reference,
    "type": lambda it, value, names, _: is_of_type(value, names),
    "const": lambda it, value, wanted, _: is_same(value, wanted),
    "enum": lambda it, value, wanted, _: any(is_same(value, one) for one in wanted),
    "anyOf": lambda it, value, schemas, _: any(it.is_valid(value, one) for one in schemas),
    "properties": of_object(Checker.properties),
    "required": of_object(lambda it, value, names, _: all(name in value for name in names)),
    "additionalProperties": of_object(lambda it, value, _, schema: all(name in schema["properties"] for name in value)),
    "maxProperties": of_object(lambda it, value, most, _: len(value) <= most),
    "items": of_type(list, lambda it, value, schema, _: all(it.is_valid(one, schema) for one in value)),
    "minItems": of_type(list, lambda it, value, least, _: len(value) >= least),
    "maxItems": of_type(list, lambda it, value, most, _: len(value) <= most),
    "uniqueItems": of_type(list, lambda it, value, _, __: len(value) == len(set(value))),
    "minimum": of_type(int, lambda it, value, least, _: value >= least),
    "maximum": of_type(int, lambda it, value, most, _: value <= most),
    "pattern": of_type(str, lambda it, value, pattern, _: bool(re.search(pattern, value))),
}
