"""Values against the schemas of share/schema: as far as these go, and by jsonschema where that is installed (Debian's
python3-jsonschema)."""
from __future__ import annotations

import json
import re
import subprocess
import sys
from functools import lru_cache
from pathlib import Path
from typing import Any

SCHEMAS = Path(__file__).resolve().parents[2] / "share" / "schema"
KINDS: dict[str, Any] = {
    "object": dict,
    "array": list,
    "string": str,
    "integer": int,
    "number": (int, float),
    "boolean": bool,
    "null": type(None),
}


def schema_of(name: str) -> dict[str, Any]:
    found: dict[str, Any] = json.loads((SCHEMAS / f"{name}.schema.json").read_text())
    return found


def is_of(schema: dict[str, Any], whole: dict[str, Any], value: Any, closed: bool = True) -> bool:
    """Whether a value is of a schema; where closed, it has no member that the schema does not name, though a member may
    come to a document."""
    if "$ref" in schema:
        return is_of(whole["$defs"][schema["$ref"].split("/")[-1]], whole, value, closed)
    if "anyOf" in schema:
        return any(is_of(each, whole, value, closed) for each in schema["anyOf"])
    if "const" in schema or "enum" in schema:
        return value in schema.get("enum", [schema.get("const")])
    names = schema["type"] if isinstance(schema["type"], list) else [schema["type"]]
    if not any(isinstance(value, KINDS[name]) and (not isinstance(value, bool) or name == "boolean") for name in names):
        return False
    if isinstance(value, str):
        return re.search(schema.get("pattern", ""), value) is not None
    if isinstance(value, (int, float)):
        return bool(schema.get("minimum", value) <= value <= schema.get("maximum", value))
    if isinstance(value, list):
        first = schema.get("prefixItems", [])
        parts = [*first, *[schema["items"]] * (len(value) - len(first))]
        return schema.get("minItems", 0) <= len(value) <= schema.get("maxItems", len(value)) and all(
            is_of(part, whole, each, closed) for part, each in zip(parts, value)
        )
    return not isinstance(value, dict) or has_members(schema, whole, value, closed)


def has_members(schema: dict[str, Any], whole: dict[str, Any], value: dict[str, Any], closed: bool) -> bool:
    parts, others = schema.get("properties", {}), schema.get("additionalProperties", not closed)
    return set(schema.get("required", [])) <= set(value) and all(
        is_of(parts[name], whole, each, closed)
        if name in parts
        else others is not False and (others is True or is_of(others, whole, each, closed))
        for name, each in value.items()
    )


VALIDATES = """
import json, sys
from jsonschema import Draft202012Validator as V
for name, schema, values in json.load(sys.stdin):
    V.check_schema(schema)
    for place, value in enumerate(values):
        print(*(f"{name}, value {place}: {fault.json_path}: {fault.message[:300]}" for fault in V(schema).iter_errors(value)), sep="\\n", end="")
"""
SYSTEM = "/usr/bin/python3"  # it has Debian's packages, which another Python does not find


@lru_cache(maxsize=None)
def validator() -> str | None:
    """A Python that has the package jsonschema, or None."""
    tried = (sys.executable, SYSTEM)
    return next(
        (
            python
            for python in tried
            if Path(python).exists()
            and subprocess.run(
                [python, "-c", "from jsonschema import Draft202012Validator"], capture_output=True
            ).returncode
            == 0
        ),
        None,
    )


def faults(given: list[tuple[str, dict[str, Any], list[Any]]]) -> str:
    """What jsonschema finds of schemas and of values of each; nothing where it is not here."""
    python = validator()
    if python is None:
        return ""
    ran = subprocess.run([python, "-c", VALIDATES], input=json.dumps(given), capture_output=True, text=True)
    return ran.stdout + (ran.stderr if ran.returncode else "")
