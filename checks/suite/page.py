"""Compares the numbers of docs/VECTORS.md, vectors/README.md and docs/PROTOCOLS.md with the suite, with the mutants and
with the lists of known failures; table.py compares the table of the latter."""

from __future__ import annotations

import json
import re
import sys
from collections import Counter
from pathlib import Path

TOP = Path(__file__).resolve().parent.parent.parent
sys.path.insert(0, str(TOP / "tools" / "vectors"))

from known import read_list  # noqa: E402
from mutants_list import ESCAPES, MUTANTS  # noqa: E402

SUITE = TOP / "vectors" / "25519_ChaChaPoly_SHA256.json"
PAGE, PEERS, MADE = (
    (TOP / path).read_text("utf-8") for path in ("docs/VECTORS.md", "docs/PROTOCOLS.md", "vectors/README.md")
)
DISSONONCE = TOP / "examples" / "vectors-runners" / "known" / "dissononce-0.34.3.txt"


def of_the_report(tests: dict[int, tuple[str, dict]], notes: dict[str, dict]) -> list[str]:
    """What is wrong with the lines of dissononce's report that the page shows, and with what it says of them."""
    failed = set[int]().union(*read_list(DISSONONCE).values())
    shown, faults = re.findall(r"^    (\w+) +(case|mistake) +(\d+) +(\d+) +(\d+)$", PAGE, re.M), []
    for flag, kind, *numbers in shown:
        of_flag = {number for number, (_, test) in tests.items() if flag in test["flags"]}
        if (kind, *map(int, numbers)) != (notes[flag]["kind"], len(of_flag - failed), len(of_flag & failed), 0):
            faults.append(
                f"the page's line of {flag} isn't: {notes[flag]['kind']} {len(of_flag - failed)} "
                f"{len(of_flag & failed)} 0"
            )
    lines = re.findall(r"^    (failed (\d+) .*), \.\.\.$", PAGE, re.M)
    for line, number in lines:
        protocol, test = tests[int(number)]
        if not f"failed {number} {protocol.split('_')[1]} {','.join(test['flags'])}: {test['comment']}:".startswith(
            line
        ):
            faults.append(f"the page's line of test {number} isn't that of the suite")
    words = r"fails (\d+) tests of `(\w+)`, and all of them have also `(\w+)` or `(\w+)`"
    said = re.findall(words, PAGE.replace("\n", " "))
    for count, flag, *causes in said:
        of_flag = [test["flags"] for number, (_, test) in tests.items() if flag in test["flags"] and number in failed]
        explained = sum(any(cause in it for cause in causes) for it in of_flag)
        if len(of_flag) != int(count) or explained != len(of_flag):
            faults.append(f"{flag}: {len(of_flag)} tests fail, {explained} of them have {' or '.join(causes)}")
    return faults + ([] if shown and lines and said else ["the page shows no report"])


def main() -> int:
    suite = json.loads(SUITE.read_text("ascii"))
    groups = suite["testGroups"]
    tests = {test["tcId"]: (group.get("protocol", ""), test) for group in groups for test in group["tests"]}
    results = Counter(test["result"] for _, test in tests.values())
    faults = of_the_report(tests, suite["notes"])
    names = {protocol.split("_")[1] for protocol, _ in tests.values() if protocol}
    if f"one of the {len(names)} patterns" not in PAGE:
        faults.append(f"the page doesn't say: one of the {len(names)} patterns")
    words = (
        f"{len(tests):,} tests: {results['valid']:,} in which all is right, {results['invalid']:,} of refusals, "
        f"and {results['acceptable']} of"
    )
    if words not in PAGE.replace("\n", " "):
        faults.append(f"the page doesn't say: {words}")
    if f"Of {len(MUTANTS)} changes of its text, one at a time, the suite sees all but {len(ESCAPES)}" not in (
        MADE.replace("\n", " ")
    ):
        faults.append(f"vectors/README.md doesn't say: {len(MUTANTS)} changes, all but {len(ESCAPES)}")
    for section, number in re.findall(r"\b([A-Z]+(?:psk\d)?) \((\d+)\)", PAGE + PEERS):
        if f"Noise_{section}_" not in tests[int(number)][0]:
            faults.append(f"test {number} isn't of {section}")
    example = json.loads(
        re.sub(r'", "\.\."\]|"\.\."', '""', PAGE.split("```json\n")[1].split("```")[0].replace(', ".."]', "]"))
    )["tests"][0]
    if tests[example["tcId"]][1] != example:
        faults.append(f"test {example['tcId']} isn't as the page shows it")
    print("\n".join([*(f"page: {it}" for it in faults), f"page: {len(faults)} numbers of the pages are wrong"]))
    return int(bool(faults))


if __name__ == "__main__":
    sys.exit(main())
