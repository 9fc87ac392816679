"""Checks the suite against its schema: the keywords that the schema uses, and no others. It also counts what the suite
has, and measures it.

    schema.py FOLDER
"""

from __future__ import annotations

import gzip
import json
import re
import sys
from collections import Counter
from pathlib import Path
from typing import Any

TYPES = {"object": dict, "array": list, "string": str, "integer": int, "boolean": bool}
KNOWN = {
    "$schema", "$ref", "$defs", "title", "description", "type", "required", "properties", "additionalProperties",
    "items", "minItems", "minimum", "enum", "pattern", "oneOf",
}  # fmt: skip
POSITIVE, NEGATIVE, BYTES, PACKED = 1500, 5000, 10_000_000, 1_500_000
MAIN = "25519_ChaChaPoly_SHA256"


class Schema:
    """A schema with its definitions."""

    def __init__(self, whole: dict) -> None:
        self.whole = whole

    def faults(self, value: Any, schema: dict, place: str) -> list[str]:
        """What is wrong with a value."""
        assert schema.keys() <= KNOWN, schema.keys() - KNOWN
        if "$ref" in schema:
            return self.faults(value, self.whole["$defs"][schema["$ref"].rsplit("/", 1)[1]], place)
        if "oneOf" in schema:
            found = [self.faults(value, it, place) for it in schema["oneOf"]]
            return [] if sum(not it for it in found) == 1 else min(found, key=len) or [f"{place}: more than one form"]
        if "enum" in schema and value not in schema["enum"]:
            return [f"{place}: {value!r} isn't one of {schema['enum']}"]
        if "type" in schema and not isinstance(value, TYPES[schema["type"]]):
            return [f"{place}: not of the type {schema['type']}"]
        return self.inside(value, schema, place)

    def inside(self, value: Any, schema: dict, place: str) -> list[str]:
        if isinstance(value, dict):
            return self.members(value, schema, place)
        if isinstance(value, list):
            few = [f"{place}: too few items"] if len(value) < schema.get("minItems", 0) else []
            return few + [
                it
                for at, item in enumerate(value)
                for it in self.faults(item, schema.get("items", {}), f"{place}[{at}]")
            ]
        if isinstance(value, str) and not re.search(schema.get("pattern", ""), value):
            return [f"{place}: {value[:80]!r} doesn't fit"]
        if isinstance(value, int) and value < schema.get("minimum", value):
            return [f"{place}: {value} is too small"]
        return []

    def members(self, value: dict, schema: dict, place: str) -> list[str]:
        named, more = schema.get("properties", {}), schema.get("additionalProperties", {})
        found = [f"{place}: {it} is missing" for it in schema.get("required", []) if it not in value]
        for key, item in value.items():
            if key not in named and more is False:
                found.append(f"{place}: there is no {key}")
            else:
                found += self.faults(item, named.get(key, more), f"{place}.{key}")
        return found


def counted(suite: dict, sizes: tuple[int, int], is_main: bool) -> list[str]:
    """What is wrong with the counts, the numbers of the tests, the flags and the sizes."""
    tests = [test for group in suite["testGroups"] for test in group["tests"]]
    results, flags = Counter(test["result"] for test in tests), {flag for test in tests for flag in test["flags"]}
    rules = {
        f"{results['valid']} tests are valid": not is_main or results["valid"] >= POSITIVE,
        f"{results['invalid']} tests are invalid": not is_main or results["invalid"] >= NEGATIVE,
        "two tests have a number": len({test["tcId"] for test in tests}) == len(tests),
        "a number is greater than lastTcId": all(1 <= test["tcId"] <= suite["lastTcId"] for test in tests),
        f"the number of tests isn't {len(tests)}": suite["numberOfTests"] == len(tests),
        "another suite in a name": all(is_of_suite(group, suite["suite"]) for group in suite["testGroups"]),
        "the flags aren't those of the notes": flags == suite["notes"].keys(),
        f"{sizes[0]} bytes": sizes[0] < BYTES,
        f"{sizes[1]} bytes by gzip": sizes[1] < PACKED,
        "invalid is where something is refused": all(
            is_consistent(test) for group in suite["testGroups"] for test in group["tests"]
            if group["type"] == "NoiseHandshake"
        ),
    }
    return [what for what, holds in rules.items() if not holds]


def is_of_suite(group: dict, suite: str) -> bool:
    return group.get("protocol", suite).endswith(suite)


def is_consistent(test: dict) -> bool:
    is_refused, is_optional = (any(it in step for step in test["steps"]) for it in ("refused", "optional"))
    result = "acceptable" if is_optional else "invalid" if is_refused else "valid"
    return test["result"] == result and (result == "invalid") == ("after" in test)


def main(words: list[str]) -> int:
    folder = Path(words[0])
    schema = json.loads((folder / "schema.json").read_text("ascii"))
    files = sorted(folder.glob("*_*_*.json"))  # as 25519_ChaChaPoly_SHA256.json
    sizes = sum(it.stat().st_size for it in files), sum(len(gzip.compress(it.read_bytes())) for it in files)
    faults, tests = [], 0
    for path in files:
        if path.stem.endswith("_shared"):
            continue
        suite = json.loads(path.read_text("ascii"))
        found = Schema(schema).faults(suite, schema, path.stem)
        found += [] if found else counted(suite, sizes, path.stem == MAIN)
        faults += [f"{path.stem}: {it}" for it in found]
        tests += suite["numberOfTests"]
    print("\n".join(f"schema: {it}" for it in faults[:20]), end="\n" if faults else "")
    print(f"schema: {tests} tests, {sizes[0]} bytes, {sizes[1]} by gzip, {len(faults)} faults")
    return int(bool(faults))


if __name__ == "__main__":
    sys.exit(main(sys.argv[1:]))
