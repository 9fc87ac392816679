#!/usr/bin/env python3
"""Prints a test of the suite, by its number: its set-up and its steps, with all bytes, and what each of them is.

    case.py NUMBER
    case.py NUMBER STEP MESSAGE              where your MESSAGE differs
    case.py PROGRAM NUMBER [STEP MESSAGE]    the test as a vector file
    case.py PROGRAM PATTERN FOLDER           all tests of a pattern, as vector files

MESSAGE, hex digits, is what your implementation wrote in the step STEP. --suite FILE is another suite than
25519_ChaChaPoly_SHA256.

PROGRAM is the command `noise`, whose `test`, `explain`, `trace` and `compare` read vector files. A file has what the
tested party writes and gets, the public keys and DH results, and the right output; or your MESSAGE in the place of the
right one. PATTERN is a pattern's name with its psk indices, as XXpsk3: of each test of its groups NUMBER.vector is
written into FOLDER. A test with other nonces, or with bytes that no frame can carry, has no vector file.
"""

from __future__ import annotations

import argparse
import json
import shutil
import sys
from pathlib import Path
from typing import Any

import case_text

SUITE = Path(__file__).resolve().parent.parent.parent / "vectors" / "25519_ChaChaPoly_SHA256.json"


class Wrong(Exception):
    """What a word of the command line names isn't there."""


def groups_of(path: Path) -> list[dict[str, Any]]:
    try:
        return json.loads(path.read_text("ascii"))["testGroups"]
    except (OSError, ValueError, KeyError, TypeError) as error:
        raise Wrong(f"{path} is no suite: {error!r}") from None


def found(groups: list[dict[str, Any]], number: str) -> tuple[dict[str, Any], dict[str, Any]]:
    """The test with a number, and its group."""
    for group in groups:
        for test in group["tests"]:
            if str(test["tcId"]) == number:
                return group, test
    raise Wrong(f"there is no test {number}")


def written(test: dict[str, Any], words: list[str]) -> tuple[int, bytes]:
    """The number of a step that writes, and the message that was written there."""
    steps, number = test.get("steps", []), test["tcId"]
    if not words[0].isdecimal() or int(words[0]) >= len(steps):
        raise Wrong(f"test {number} has no step {words[0]}: it has {len(steps)}, from 0")
    step = steps[int(words[0])]
    if step["do"] != "write" or "refused" in step:
        raise Wrong(f"in step {words[0]} test {number} writes nothing that could be compared")
    try:
        return int(words[0]), bytes.fromhex(words[1])
    except ValueError:
        raise Wrong(f"MESSAGE isn't hex digits: {words[1][:40]}") from None


def vectors() -> Any:
    """What makes vector files."""
    try:
        import vector_file
    except ImportError as error:
        raise Wrong(f"a vector file needs python's cryptography: {error}; case.py NUMBER doesn't") from None
    return vector_file


def in_text(groups: list[dict[str, Any]], words: list[str]) -> str:
    group, test = found(groups, words[0])
    if len(words) == 3:
        return case_text.difference(group, test, *written(test, words[1:]))
    return case_text.text_of(group, test)


def one(groups: list[dict[str, Any]], words: list[str]) -> str:
    """A test as a vector file."""
    group, test = found(groups, words[1])
    yours = written(test, words[2:]) if words[2:] else None
    if not vectors().has_vector(test):
        raise Wrong("this test has no vector file")
    return vectors().vector_of(vectors().Command(words[0]), group, test, yours)


def write_all(groups: list[dict[str, Any]], program: str, pattern: str, folder: Path) -> str:
    """Writes the tests of a pattern, and says how many."""
    chosen = [
        (told, test)
        for told in groups
        if told.get("protocol", "").startswith(f"Noise_{pattern}_")
        for test in told["tests"]
    ]
    if not chosen:
        raise Wrong(f"the suite has no pattern {pattern}")
    folder.mkdir(exist_ok=True)
    some = [(told, test) for told, test in chosen if vectors().has_vector(test)]
    for told, test in some:
        text = vectors().vector_of(vectors().Command(program), told, test, None)
        (folder / f"{test['tcId']}.vector").write_text(text, "ascii")
    return f"{len(some)} vector files; {len(chosen) - len(some)} tests have none\n"


def output(groups: list[dict[str, Any]], words: list[str]) -> str:
    if words[0].isdecimal():
        return in_text(groups, words)
    if not shutil.which(words[0]):
        raise Wrong(f"there is no program {words[0]}; case.py NUMBER needs none")
    try:
        if len(words) == 3:
            return write_all(groups, words[0], words[1], Path(words[2]))
        return one(groups, words)
    except (OSError, vectors().Fault) as error:
        raise Wrong(str(error)) from None


def main() -> int:
    reader = argparse.ArgumentParser(
        usage="case.py [PROGRAM] NUMBER [STEP MESSAGE] [--suite FILE]", description=__doc__,
        formatter_class=argparse.RawDescriptionHelpFormatter,
    )
    reader.add_argument("words", nargs="+", help=argparse.SUPPRESS)
    reader.add_argument("--suite", metavar="FILE", type=Path, default=SUITE)
    said = reader.parse_args()
    if len(said.words) not in ((1, 3) if said.words[0].isdecimal() else (2, 3, 4)):
        reader.error("these words can't be read")
    try:
        sys.stdout.write(output(groups_of(said.suite), said.words))
    except Wrong as why:
        print(f"case: {why}", file=sys.stderr)
        return 1
    return 0


if __name__ == "__main__":
    sys.exit(main())
