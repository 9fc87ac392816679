#!/usr/bin/env python3
"""Runs the suite of test vectors with an implementation in Python.

PARTY is a module beside this file, as `party_yulimosar`, with a class `Party`: copy that file, and have it call your
implementation. --only runs a part: the tests that have one of the words, which are joined by commas, as number, pattern
or flag. The report has a line for each flag, and says whether the flag is of a kind of cases or of a mistake. Then come
the tests that failed: first those in which something was accepted that has to be refused. JUNIT.xml gets each test. The
status is 0 if no test failed, 1 if one did, and 2 if nothing was run.
"""

from __future__ import annotations

import argparse
import hashlib
import importlib
import json
import sys
import time
from collections import Counter
from typing import Any
from xml.sax.saxutils import quoteattr


Row = tuple[dict, str, str]  # a test, what came of it, and why
BETWEEN = 10  # seconds from one line of progress to the next


class NotSupported(Exception):
    """What the Noise doesn't claim to do: the test isn't run."""


class Failed(Exception):
    """What is wrong."""


def data_of(value: Any) -> bytes:
    return bytes.fromhex(value) if isinstance(value, str) else bytes.fromhex(value["byte"]) * value["count"]


class Run:
    """A test of a group, with the parties that take part in it."""

    def __init__(self, group: dict, test: dict, kind: Any) -> None:
        self.group, self.test, self.kind = group, test, kind
        self.parties: dict[str, Any] = {}
        self.written: dict[int, bytes] = {}

    def party(self, role: str) -> Any:
        if role not in self.parties:
            self.parties[role] = self.kind(self.group | {"prologue": data_of(self.group["prologue"])}, role)
        return self.parties[role]

    def received(self, step: dict) -> bytes:
        """The bytes that a step reads, with the step's change."""
        if "bytes" in step:
            data = data_of(step["bytes"])
        else:
            message = self.group["messages"][step["message"]]["message"]
            data = self.written[step["message"]] if isinstance(message, dict) else bytes.fromhex(message)
        data = data[: step.get("cut", len(data))] + bytes.fromhex(step.get("append", ""))
        if "xor" in step:
            at, mask = step["xor"]
            data = data[:at] + bytes([data[at] ^ mask]) + data[at + 1 :]
        return data

    def call(self, party: Any, step: dict) -> bytes | None:
        if step["do"] == "start":
            return None
        if step["do"] == "write":
            return party.write(
                data_of(step["payload"] if "payload" in step else self.group["messages"][step["message"]]["payload"])
            )
        if step["do"] == "read":
            return party.read(self.received(step))
        if step["do"] == "rekey":
            return party.rekey(step["direction"])
        if step["do"] == "nonce":
            return party.set_nonce(step["direction"], int(step["nonce"]))
        return party.hash() if step["do"] == "hash" else party.remote_static()

    def compare(self, step: dict, got: bytes | None) -> None:
        """Compares what a step gave with what the suite says."""
        message = self.group["messages"][step["message"]] if "message" in step else {}
        if step["do"] == "write":
            wanted = step["is"] if "is" in step else message["message"]
            self.written[step.get("message", -1)] = got
            if isinstance(wanted, dict):
                wanted, got = bytes.fromhex(wanted["sha256"]), hashlib.sha256(got).digest()
            else:
                wanted = bytes.fromhex(wanted)
        elif step["do"] == "read":
            wanted = data_of(step["payload"] if "payload" in step else message["payload"])
        else:
            known = self.group["hash"] if step["do"] == "hash" else step.get("is")
            wanted = bytes.fromhex(known) if known else None
        if got != wanted:
            raise Failed(f"{step['do']}: {(got or b'').hex()[:400]} in place of {(wanted or b'').hex()[:400]}")

    def step(self, step: dict) -> bool:
        """Takes a step; whether the test goes on after it."""
        try:
            party = self.party(step.get("role", self.test["role"]))
        except self.kind.REFUSALS as refusal:
            if "optional" in self.test["steps"][0]:
                return False
            raise Failed(f"the start was refused: {refusal!r}") from refusal
        try:
            got = self.call(party, step)
        except self.kind.REFUSALS as refusal:
            if "refused" not in step:
                if "optional" in step:
                    return False
                raise Failed(f"{step['do']} was refused: {refusal!r}") from refusal
            at = party.place(refusal)
            if at is not None and at != step.get("at", at):
                raise Failed(f"refused at {at}, in place of {step['at']}") from refusal
            return True
        if "refused" in step:
            raise Failed(
                f"{step['do']} was accepted, and has to be refused: {step['refused']}"
                + (f" at {step['at']}" if "at" in step else "")
            )
        self.compare(step, got)
        return True

    def run(self) -> bool:
        """Takes all steps; whether none was refused that may be."""
        for number, step in enumerate(self.test["steps"]):
            try:
                if not self.step(step):
                    return False
            except Failed as why:
                raise Failed(f"step {number}: {why}") from why
        return True


def run_start(test: dict, kind: Any) -> None:
    """A test of a set-up, which is that of the test: if it is wrong, the start or a later step has to be refused."""
    run = Run(test, test, kind)
    try:
        is_through = run.run()
    except Failed:
        if test["result"] != "invalid":
            raise
        is_through = True
    if is_through and test["result"] == "invalid":
        raise Failed(f"the set-up was taken, and has to be refused: {test['place']}")


def run_frame(test: dict, kind: Any) -> None:
    """A test of a frame: a whole one is the message with its length; of one that isn't whole nothing is read."""
    if not hasattr(kind, "frame"):
        raise NotSupported("frames are the caller's")
    message, frame = bytes.fromhex(test["message"]), bytes.fromhex(test["frame"])
    is_whole = test["result"] == "valid"
    if is_whole and kind.frame(message) != frame:
        raise Failed(f"the frame is {kind.frame(message).hex()[:80]}")
    if kind.unframe(frame) != (message if is_whole else None):
        raise Failed("another message is read from the frame")


def outcome(group: dict, test: dict, kind: Any) -> tuple[str, str]:
    """What comes of a test, `passed`, `failed` or `not run`, and why."""
    try:
        if group["type"] == "NoiseFrame":
            run_frame(test, kind)
        elif group["type"] == "NoiseStart":
            run_start(test, kind)
        else:
            Run(group, test, kind).run()
    except NotSupported as why:
        return "not run", str(why)
    except Failed as why:
        return "failed", str(why)
    except Exception as error:  # a crash, and no refusal
        return "failed", f"crashed: {error!r}"
    return "passed", ""


def pattern_name(group: dict) -> str:
    return group["protocol"].split("_")[1] if "protocol" in group else group["type"][5:].lower()


def failures(rows: list[Row]) -> list[str]:
    """The tests that failed, each kind of them by its first flag: those first that accept what has to be refused."""
    order = {flag: at for at, flag in enumerate(dict.fromkeys(flag for test, _, _ in rows for flag in test["flags"]))}
    failed = sorted((it for it in rows if it[1] == "failed"), key=lambda it: order[it[0]["flags"][0]])
    lines = []
    for is_accepted, head in (True, "accepted, and has to be refused"), (False, "other failures"):
        some = [it for it in failed if ("and has to be refused" in it[2]) == is_accepted]
        lines += [f"{head}: {len(some)}"] if some else []
        lines += [
            f"failed {test['tcId']} {test['pattern']} {','.join(test['flags'])}: {test['comment']}: {why}"
            for test, _, why in some
        ]
    return lines


def text_report(rows: list[Row], notes: dict[str, dict]) -> str:
    """A line for each flag, the tests that failed, and why some weren't run."""
    counts = Counter((flag, what) for test, what, _ in rows for flag in test["flags"])
    flags = dict.fromkeys(flag for test, _, _ in rows for flag in test["flags"])
    lines = [f"{'flag':28} {'kind':7} {'passed':>7} {'failed':>7} {'not run':>7}"]
    lines += [
        f"{it:28} {notes[it]['kind']:7} {counts[it, 'passed']:7} {counts[it, 'failed']:7} {counts[it, 'not run']:7}"
        for it in flags
    ]
    lines += failures(rows)
    lines += [
        f"not run {count}: {why}" for why, count in Counter(why for _, what, why in rows if what == "not run").items()
    ]
    total = Counter(what for _, what, _ in rows)
    return "\n".join([*lines, f"{total['passed']} passed, {total['failed']} failed, {total['not run']} not run"]) + "\n"


def name_of(test: dict) -> str:
    return f"{test['tcId']} {test['pattern']}: {test['comment']}"


def junit_report(name: str, rows: list[Row]) -> str:
    """JUnit's XML: a test case for each test, whose class is its first flag."""
    lines = []
    for test, what, why in rows:
        inside = {
            "passed": "", "failed": f"<failure message={quoteattr(why)}/>",
            "not run": f"<skipped message={quoteattr(why)}/>",
        }[what]
        names = f"classname={quoteattr(test['flags'][0])} name={quoteattr(name_of(test))}"
        lines.append(f"  <testcase {names}>{inside}</testcase>")
    total = Counter(what for _, what, _ in rows)
    head = (
        f"<testsuite name={quoteattr(name)} tests=\"{len(rows)}\" failures=\"{total['failed']}\" "
        f"skipped=\"{total['not run']}\">"
    )
    return "\n".join(['<?xml version="1.0" encoding="UTF-8"?>', head, *lines, "</testsuite>"]) + "\n"


def chosen(suite: dict, only: str) -> list[tuple[dict, dict]]:
    """The tests of the suite, each with its group: of those that `only` names, or all."""
    tests = [(group, test) for group in suite["testGroups"] for test in group["tests"]]
    if not only:
        return tests
    wanted, found = set(only.split(",")), set()
    some = []
    for group, test in tests:
        if has := wanted & {str(test["tcId"]), pattern_name(group), *test["flags"]}:
            some.append((group, test))
            found |= has
    if wanted != found:
        raise SystemExit(f"runner: no test has the number, pattern or flag {min(wanted - found)}")
    return some


def rows_of(tests: list[tuple[dict, dict]], kind: Any) -> list[Row]:
    """Runs the tests, and says on a terminal how far it is."""
    rows: list[Row] = []
    said = time.monotonic()
    for group, test in tests:
        rows.append((test | {"pattern": pattern_name(group)}, *outcome(group, test, kind)))
        if time.monotonic() - said > BETWEEN and sys.stderr.isatty():
            said = time.monotonic()
            failed = sum(what == "failed" for _, what, _ in rows)
            print(f"runner: {len(rows)} of {len(tests)} tests were run, {failed} failed", file=sys.stderr)
    return rows


def report(kind: Any, name: str, path: str, junit: str = "", only: str = "") -> int:
    """Runs the suite of a file, or the tests of `only`, and reports: the status is 0 if no test failed."""
    try:
        with open(path, encoding="ascii") as file:
            suite = json.load(file)
        tests = chosen(suite, only)
    except (OSError, ValueError, KeyError, SystemExit) as error:
        print(error if isinstance(error, SystemExit) else f"runner: {path}: no suite: {error!r}", file=sys.stderr)
        return 2
    rows = rows_of(tests, kind)
    sys.stdout.write(text_report(rows, suite["notes"]))
    if junit:
        with open(junit, "w", encoding="utf-8") as file:
            file.write(junit_report(name, rows))
    return int(any(what == "failed" for _, what, _ in rows))


def reader(usage: str, about: str | None, *first: str) -> argparse.ArgumentParser:
    """The reader of a runner's words: `first` come before the suite."""
    made = argparse.ArgumentParser(
        usage=usage, description=about, formatter_class=argparse.RawDescriptionHelpFormatter
    )
    for it in (*first, "suite"):
        made.add_argument(it, metavar={"suite": "SUITE.json"}.get(it, it.upper()))
    made.add_argument("junit", metavar="JUNIT.xml", nargs="?", default="")
    made.add_argument("--only", metavar="WORDS", default="", help="numbers of tests, patterns and flags, as XX,892")
    return made


def main() -> int:
    usage = "runner.py PARTY SUITE.json [JUNIT.xml] [--only WORDS]"
    said = reader(usage, __doc__, "party").parse_intermixed_args()
    return report(importlib.import_module(said.party).Party, said.party, said.suite, said.junit, said.only)


if __name__ == "__main__":
    sys.exit(importlib.import_module("runner").main())  # the same module that parties import
