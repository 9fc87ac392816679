"""Compares what a runner has printed, and its JUnit file, with the suite that it has run: the reports of all languages
have the same form.

    report.py SUITE.json REPORT JUNIT.xml [WORDS]    compares; WORDS are those of --only
    report.py --wrong SUITE.json EVERY               prints each so-many-th group, and the frames, with a wrong hash or
                                                     frame, and a right step of each third that has to be refused: so
                                                     that every runner has tests that fail
"""

from __future__ import annotations

import json
import re
import sys
import xml.etree.ElementTree as ElementTree
from collections import Counter
from pathlib import Path
from typing import Any

ACCEPTED, OTHERS = "accepted, and has to be refused", "other failures"
HEAD = f"{'flag':28} {'kind':7} {'passed':>7} {'failed':>7} {'not run':>7}"


def wrong(suite: dict[str, Any], every: int) -> dict[str, Any]:
    """A part of the suite in which something is wrong."""
    last = suite["testGroups"][-1]
    groups = [*suite["testGroups"][:-1:every], last]
    for number, group in enumerate(groups):
        if "hash" in group:
            group["hash"] = "00" * 32
        if number % 3 == 0 and "hash" in group:
            group["tests"][0]["steps"][0] |= {"refused": "tag", "at": "payload"}
    valid = next(test for test in last["tests"] if test["result"] == "valid")
    valid["frame"] = "ff" + valid["frame"][2:]
    return suite | {"testGroups": groups}


def pattern_of(group: dict[str, Any]) -> str:
    return group["protocol"].split("_")[1] if "protocol" in group else group["type"][5:].lower()


def table(lines: list[str], tests: list[tuple[str, dict]], notes: dict[str, dict]) -> tuple[list[str], Counter[str]]:
    """What is wrong with the lines of the flags, and how many tests failed by them."""
    flags = Counter(flag for _, test in tests for flag in test["flags"])
    faults, failed = ([] if lines[0] == HEAD else [f"the first line isn't: {HEAD}"]), Counter[str]()
    for flag, line in zip(flags, lines[1 : len(flags) + 1]):
        numbers = [int(it) for it in re.findall(r" +(\d+)(?= |$)", line[36:])]
        if (
            len(numbers) != 3
            or line != f"{flag:28} {notes[flag]['kind']:7} {numbers[0]:7} {numbers[1]:7} {numbers[2]:7}"
        ):
            faults.append(f"{flag}, a {notes[flag]['kind']}: the line is: {line}")
        elif sum(numbers) != flags[flag]:
            faults.append(f"{flag} has {flags[flag]} tests: {line}")
        else:
            failed[flag] = numbers[1]
    return faults, +failed


def listed(lines: list[str], tests: list[tuple[str, dict]]) -> tuple[list[str], Counter[str]]:
    """What is wrong with the lines of the tests that failed, and how many those are by flag."""
    faults, failed = [], Counter[str]()
    starts = {
        f"failed {it['tcId']}": (f"failed {it['tcId']} {pattern} {','.join(it['flags'])}: {it['comment']}: ", it)
        for pattern, it in tests
    }
    for line in (it for it in lines if it.startswith("failed ")):
        start, test = starts[" ".join(line.split(" ")[:2])]
        if not line.startswith(start) or line == start:
            faults.append(f"a failed test doesn't start with {start!r}: {line}")
        failed.update(test["flags"])
        failed["all"] += 1
    return faults, failed


def in_order(lines: list[str], tests: list[tuple[str, dict]]) -> list[str]:
    """What is wrong with the order of the tests that failed: those first that accept what has to be refused, each kind
    by the first flag, after a line with their number; and with what is said of a wrong hash."""
    flags = list(dict.fromkeys(flag for _, test in tests for flag in test["flags"]))
    place = {f"failed {test['tcId']}": (flags.index(test["flags"][0]), at) for at, (_, test) in enumerate(tests)}
    failed = [it for it in lines if it.startswith("failed ")]
    wanted = []
    for head in ACCEPTED, OTHERS:
        some = [it for it in failed if (" and has to be refused: " in it) == (head == ACCEPTED)]
        some.sort(key=lambda it: place[" ".join(it.split(" ")[:2])])
        wanted += [f"{head}: {len(some)}", *some] if some else []
    shown = [it for it in lines if it.startswith(("failed ", ACCEPTED, OTHERS))]
    faults = [] if shown == wanted else ["the tests that failed aren't in order, or their numbers aren't there"]
    faults += [
        f"not the hash, and what it is to be: {it}"
        for it in failed
        if ": hash: " in it and not re.search(r": step \d+: hash: [0-9a-f]{64} in place of 0{64}$", it)
    ]
    faults += [f"not where: {it}" for it in failed if it in wanted and re.search("refused: tag(?! at [a-z]+$)", it)]
    return faults


def passes(test: dict, case: ElementTree.Element) -> bool:
    """Whether a test of the wrong suite passes that can't: it has a wrong hash or frame, or a right message that is to
    be refused; or fails for another reason than this."""
    steps = test.get("steps", [{"do": "frame"}])
    is_planted = steps[0]["do"] == "write" and steps[0].get("refused") == "tag"
    is_wrong = is_planted or any(it["do"] == "hash" for it in steps) or test.get("frame", "").startswith("ff")
    failure = case.find("failure")
    if test["result"] != "valid" or not is_wrong or case.find("skipped") is not None:
        return False
    return failure is None or is_planted and "and has to be refused" not in failure.get("message", "")


def is_chosen(pattern: str, test: dict, words: list[str]) -> bool:
    return not words or any(it in {str(test["tcId"]), pattern, *test["flags"]} for it in words)


def main(words: list[str]) -> int:
    suite = json.loads(Path(words[-2] if words[0] == "--wrong" else words[0]).read_text("ascii"))
    if words[0] == "--wrong":
        json.dump(wrong(suite, int(words[-1])), sys.stdout)
        return 0
    lines = Path(words[1]).read_text("utf-8").splitlines()
    only = words[3].split(",") if len(words) > 3 else []
    tests = [(pattern_of(group), test) for group in suite["testGroups"] for test in group["tests"]]
    tests = [(pattern, test) for pattern, test in tests if is_chosen(pattern, test, only)]
    faults, counted = table(lines, tests, suite["notes"])
    more, named = listed(lines, tests)
    faults += more + in_order(lines, tests)
    whole, ended = named.pop("all", 0), re.fullmatch(r"(\d+) passed, (\d+) failed, (\d+) not run", lines[-1])
    if counted != named and not faults:
        faults.append(
            f"the flags of the tests that failed aren't those of the table: {named - counted}, {counted - named}"
        )
    if not ended or int(ended[2]) != whole or sum(map(int, ended.groups())) != len(tests):
        faults.append(f"{whole} of {len(tests)} tests failed, and the last line is: {lines[-1]}")
    cases = list(ElementTree.parse(words[2]).getroot().iter("testcase"))
    wanted = [f"{it['tcId']} {pattern}: {it['comment']}" for pattern, it in tests]
    faults += [
        f"JUnit's test is {it.get('name')}, in place of {name}"
        for it, name in zip(cases, wanted)
        if it.get("name") != name
    ]
    faults += [
        f"test {test['tcId']} passes, which is wrong"
        for it, (_, test) in zip(cases, tests)
        if passes(test, it)
    ]
    faults += [f"JUnit has {len(cases)} tests"] if len(cases) != len(tests) else []
    print(
        "\n".join(
            [
                *(f"report: {it}" for it in faults[:10]),
                f"report: {whole} of {len(tests)} tests fail, {len(faults)} lines aren't as they have to be",
            ]
        )
    )
    return int(bool(faults) or not whole)


if __name__ == "__main__":
    sys.exit(main(sys.argv[1:]))
