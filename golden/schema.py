"""Checks values of JSON against a JSON Schema: just the keywords that docs/explain.schema.json uses, and no others.

`Schema(text)` takes the text of a schema, and raises `UnknownKeyword` where it has a keyword, a type or a reference that is not checked here.
Its `check(value)` raises `Misfit` where a value does not fit, and says where. A number with a point is no integer.
"""

import json
import re

TYPES = {"object": dict, "array": list, "string": str, "integer": int, "boolean": bool, "null": type(None)}


class UnknownKeyword(Exception):
    """A schema that asks for what is not checked here."""


class Misfit(Exception):
    """A value that does not fit: the place in the whole value, and what is wrong there."""

    def __init__(self, place, fault):
        super().__init__(f"{place or 'the value'}: {fault}")
        self.depth = len(re.findall(r"[.\[]", place))


def is_same(one, other):
    """Whether two values are equal. True is not 1."""
    return type(one) is type(other) and one == other


def is_of_type(value, wanted):
    """Whether a value is of a type. A truth value is no integer, though Python counts it as one."""
    return isinstance(value, TYPES[wanted]) and (wanted == "boolean" or not isinstance(value, bool))


# of each keyword, whether a value fits; most mean nothing to a value of another type
FITS = {
    "type": is_of_type,
    "const": is_same,
    "enum": lambda value, wanted: any(is_same(value, one) for one in wanted),
    "minimum": lambda value, least: not is_of_type(value, "integer") or value >= least,
    "maximum": lambda value, most: not is_of_type(value, "integer") or value <= most,
    "minLength": lambda value, least: not isinstance(value, str) or len(value) >= least,
    "maxLength": lambda value, most: not isinstance(value, str) or len(value) <= most,
    "pattern": lambda value, wanted: not isinstance(value, str) or re.search(re.sub(r"\$$", r"\\Z", wanted), value) is not None,
    "minItems": lambda value, least: not isinstance(value, list) or len(value) >= least,
    "maxItems": lambda value, most: not isinstance(value, list) or len(value) <= most,
    "required": lambda value, keys: not isinstance(value, dict) or set(keys) <= set(value),
}
KNOWN = {*FITS, "$schema", "$defs", "title", "description", "$ref", "oneOf", "items", "properties", "additionalProperties"}


class Schema:
    def __init__(self, text):
        self.whole = json.loads(text)
        self.parts = {f"#/$defs/{name}": part for name, part in self.whole.get("$defs", {}).items()}
        for part in (self.whole, *self.parts.values()):
            self.look_at(part)

    def look_at(self, schema):
        """Finds what is not checked here, also where no value leads."""
        values = {"$ref": list(self.parts), "type": list(TYPES), "additionalProperties": [False]}
        unknown = [word for word, said in schema.items() if word not in KNOWN or said not in values.get(word, [said])]
        if unknown:
            raise UnknownKeyword(", ".join(f"{word}: {schema[word]}" for word in unknown))
        for part in (*schema.get("oneOf", []), *schema.get("properties", {}).values(), *([schema["items"]] if "items" in schema else [])):
            self.look_at(part)

    def check(self, value):
        self.check_part(value, self.whole, "")

    def check_part(self, value, schema, place):
        for word in schema.keys() & FITS.keys():
            if not FITS[word](value, schema[word]):
                raise Misfit(place, f"{word} is {json.dumps(schema[word])[:80]}, and there is {json.dumps(value)[:80]}")
        if "$ref" in schema:
            self.check_part(value, self.parts[schema["$ref"]], place)
        faults = [self.fault_of(value, part, place) for part in schema.get("oneOf", [])]
        if faults and None not in faults:
            raise max(faults, key=lambda fault: fault.depth)
        if faults.count(None) > 1:
            raise Misfit(place, "more than one of oneOf fits")
        parts = schema.get("properties", {})
        for key in value if isinstance(value, dict) else ():
            if key in parts:
                self.check_part(value[key], parts[key], f"{place}.{key}")
            elif "additionalProperties" in schema:
                raise Misfit(place, f"{key} is no key of it")
        for at, item in enumerate(value if isinstance(value, list) and "items" in schema else ()):
            self.check_part(item, schema["items"], f"{place}[{at}]")

    def fault_of(self, value, schema, place):
        """Why a value does not fit, or None."""
        try:
            self.check_part(value, schema, place)
        except Misfit as fault:
            return fault
        return None
