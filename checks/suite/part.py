"""Prints each so-many-th group of the suite, and all of set-ups; tests keep their numbers: part.py SUITE.json EVERY.
Of the format that projects share likewise."""
import json
import sys

with open(sys.argv[1], encoding="ascii") as file:
    suite = json.load(file)
for key in ("testGroups", "vectors"):
    if key in suite:
        suite[key] = [
            it for at, it in enumerate(suite[key]) if at % int(sys.argv[2]) == 0 or it.get("type") == "NoiseStart"
        ]
json.dump(suite, sys.stdout)
