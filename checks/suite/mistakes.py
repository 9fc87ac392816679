"""Runs the suite with an implementation in Python that makes one mistake after another: it has to fail all tests of the
flag, and without a mistake to pass all tests of the suite. A flag that is no mistake has one that breaks it
(`mistaken.BREAKS`): so there is no test that can't fail.

    mistakes.py SUITE.json
"""

from __future__ import annotations

import json
import sys
from pathlib import Path
from typing import Any

TOP = Path(__file__).resolve().parent.parent.parent
sys.path[:0] = [str(TOP / "tools" / "vectors"), str(TOP / "examples" / "vectors-runners" / "python")]

import mistaken  # noqa: E402
import runner  # noqa: E402


def kind_of(mistake: str) -> Any:
    """A party with a mistake, as the runner wants it."""

    class Party(mistaken.Party):
        REFUSALS = (mistaken.Refused,)

        def __init__(self, setup: dict, role: str) -> None:
            if "what" in setup and not mistake:
                raise runner.NotSupported("this Noise doesn't look at set-ups: plain.py does")
            super().__init__(setup, role, mistake)

        @classmethod
        def bare(cls) -> Any:
            """A party without keys, for its frames alone."""
            party = cls.__new__(cls)
            party.mistake = mistake
            return party

        @staticmethod
        def place(_: Exception) -> None:
            return None

        frame = staticmethod(lambda message: mistaken.Party.frame(Party.bare(), message))
        unframe = staticmethod(lambda data: mistaken.Party.unframe(Party.bare(), data))

    return Party


# Flags of groups, whose tests of refusals a party fails that refuses nothing.
RIGHT = ("EphemeralInPreMessage", "EphemeralInPreMessageWithPsk", "Rekey", "LongName")
Tests = list[tuple[dict, dict]]


def failing(tests: Tests, mistake: str) -> list[dict]:
    """The tests that a party with a mistake fails."""
    kind = kind_of(mistake)
    return [test for group, test in tests if runner.outcome(group, test, kind)[0] == "failed"]


def passing(tests: Tests, flag: str) -> list[int]:
    """The tests of a flag that don't fail with its mistake. Of a flag that is none, those in which all is right have
    another."""
    of_case = mistaken.BREAKS.get(flag, "NameLowerCase")
    passed = []
    for is_right in (True, False):
        some = [it for it in tests if (it[1]["result"] == "valid") == is_right]
        if flag in mistaken.MISTAKES:
            mistake = flag
        elif is_right:
            mistake = "NameLowerCase" if of_case == "NothingRefused" else of_case
        else:
            mistake = "NothingRefused" if some and flag in RIGHT else of_case
        failed = {test["tcId"] for test in failing(some, mistake)}
        passed += [test["tcId"] for _, test in some if test["tcId"] not in failed]
    return passed


def without(step: dict) -> dict:
    return {key: value for key, value in step.items() if key != "optional"}


def with_zeros(groups: list[dict]) -> list[str]:
    """The tests in which more may be refused, with an implementation that refuses none of it, and goes on with zeros
    (12.1): all bytes have to be right."""
    agreement = mistaken.agreement

    def or_zeros(private: bytes, public: bytes) -> bytes:
        try:
            return agreement(private, public)
        except ValueError:
            return bytes(32)

    mistaken.agreement = or_zeros
    tests = [
        (group, test | {"steps": [without(step) for step in test["steps"]]})
        for group in groups
        for test in group["tests"]
        if test["result"] == "acceptable"
    ]
    wrong = failing(tests, "")
    mistaken.agreement = agreement
    return [f"test {it['tcId']} fails where zeros are taken" for it in wrong] + (
        [] if tests else ["no test is acceptable"]
    )


def refused_at_start(groups: list[dict]) -> list[str]:
    """The tests of keys that may be refused, and those in which all is right, with a party that refuses to start: that
    is right for the first alone."""

    class Party(kind_of("")):  # type: ignore[misc]
        def __init__(self, setup: dict, role: str) -> None:
            raise mistaken.Refused

    tests = [
        (group, test)
        for group in groups
        for test in group["tests"]
        if test["result"] in ("acceptable", "valid") and group["type"] == "NoiseHandshake"
    ]
    wrong = [
        test["tcId"]
        for group, test in tests
        if runner.outcome(group, test, Party)[0] != ("passed" if "optional" in test["steps"][0] else "failed")
    ]
    return [f"test {wrong[0]} and {len(wrong) - 1} more take a refused start for the other outcome"] if wrong else []


def main(words: list[str]) -> int:
    suite = json.loads(Path(words[0]).read_text("ascii"))
    groups = suite["testGroups"]
    every = [(group, test) for group in groups for test in group["tests"]]
    faults = with_zeros(groups) + refused_at_start(groups)
    faults += [f"test {it['tcId']} fails without a mistake" for it in failing(every, "")[:5]]
    tests_run = 0
    for flag in suite["notes"]:
        tests = [(group, test) for group, test in every if flag in test["flags"]]
        passed = passing(tests, flag)
        tests_run += len(tests)
        if passed or not tests:
            faults.append(f"{flag}: its mistake passes {len(passed)} of {len(tests)} tests: {passed[:5]}")
    print("\n".join(f"mistakes: {it}" for it in faults), end="\n" if faults else "")
    print(
        f"mistakes: of {len(suite['notes'])} flags {len(faults)} have a test that its mistake passes; "
        f"{tests_run} tests of a flag, {len(every)} without a mistake"
    )
    return int(bool(faults))


if __name__ == "__main__":
    sys.exit(main(sys.argv[1:]))
