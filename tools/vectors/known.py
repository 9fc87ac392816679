#!/usr/bin/env python3
"""Compares what an implementation fails with the list of its known failures: these tests, and no others.

    known.py SUITE.json JUNIT.xml LIST            compares; the status is 1 if they differ
    known.py --write SUITE.json JUNIT.xml LIST    writes the list anew

A line of a list has a flag and the numbers of tests, as 3-5,8. examples/vectors-runners/known has lists.
"""

from __future__ import annotations

import json
import sys
import xml.etree.ElementTree as ElementTree
from pathlib import Path

# The flags by which failures are told apart: a test counts for the first that it has, or for its own first one.
CAUSES = (
    "EphemeralInPreMessageWithPsk", "Rekey", "RekeyAtZeroOmitted", "ReservedNonceUsed", "ReservedNonceRead",
    "NonceWraps", "LongMessageTaken", "RightAfterRefused", "WriteOutOfTurn", "ReadOutOfTurn",
)


def flags_of_tests(path: str) -> dict[int, list[str]]:
    groups = json.loads(Path(path).read_text("ascii"))["testGroups"]
    return {test["tcId"]: test["flags"] for group in groups for test in group["tests"]}


def cases(path: str) -> tuple[set[int], set[int]]:
    """The tests of a report, and those that failed."""
    rows = [(int(it.get("name", "").split(" ")[0]), it) for it in ElementTree.parse(path).getroot().iter("testcase")]
    return {number for number, _ in rows}, {number for number, it in rows if it.find("failure") is not None}


def in_ranges(numbers: list[int]) -> str:
    """Numbers as 3-5,8."""
    made: list[list[int]] = []
    for number in sorted(numbers):
        if made and made[-1][1] == number - 1:
            made[-1][1] = number
        else:
            made.append([number, number])
    return ",".join(str(first) if first == last else f"{first}-{last}" for first, last in made)


def of_ranges(text: str) -> set[int]:
    pairs = [it.split("-") for it in text.split(",")]
    return {number for pair in pairs for number in range(int(pair[0]), int(pair[-1]) + 1)}


def read_list(path: Path) -> dict[str, set[int]]:
    """The tests of a list, by what they fail for."""
    rows = [line.split(" ") for line in path.read_text("ascii").splitlines()]
    return {flag: of_ranges(numbers) for flag, numbers in rows}


def listed(failed: set[int], suite: str) -> str:
    """The list of these tests, by what they fail for."""
    flags, by_cause = flags_of_tests(suite), dict[str, list[int]]()
    for number in failed:
        cause = next((it for it in CAUSES if it in flags[number]), flags[number][0])
        by_cause.setdefault(cause, []).append(number)
    return "".join(f"{cause} {in_ranges(numbers)}\n" for cause, numbers in sorted(by_cause.items()))


def main(words: list[str]) -> int:
    is_write, words = "--write" in words, [it for it in words if it != "--write"]
    if len(words) != 3:
        print(__doc__, file=sys.stderr)
        return 2
    suite, junit, path = words
    run, failed = cases(junit)
    if is_write:
        Path(path).write_text(listed(failed, suite), encoding="ascii")
        return 0
    known = set[int]().union(*read_list(Path(path)).values())
    more, fewer = failed - known, known & run - failed
    for what, numbers in (("fails, and isn't listed", more), ("is listed, and doesn't fail", fewer)):
        if numbers:
            print(f"known: {what}: {in_ranges(list(numbers))}")
    print(f"known: {len(failed)} of {len(run)} tests fail, {len(more)} of them not listed")
    return int(bool(more or fewer))


if __name__ == "__main__":
    sys.exit(main(sys.argv[1:]))
