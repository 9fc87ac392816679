"""Compares the table of docs/PROTOCOLS.md with the lists of known failures: of each implementation how many tests fail,
by flag. Each flag of a list has a row.

    table.py            compares
    table.py --write    puts the numbers of the lists into the table
"""

from __future__ import annotations

import re
import sys
from pathlib import Path

TOP = Path(__file__).resolve().parent.parent.parent
sys.path.insert(0, str(TOP / "tools" / "vectors"))

from known import read_list  # noqa: E402

PAGE, LISTS = TOP / "docs" / "PROTOCOLS.md", TOP / "examples" / "vectors-runners" / "known"
HEAD = re.compile(r"\| Flag \| (.*) \| What happens, for example \| Our reading \|")


def peers(text: str) -> list[str]:
    """The implementations of the table, each with its version."""
    found = HEAD.search(text)
    assert found, "the page has no table"
    return found[1].split(" | ")


def counts() -> dict[str, dict[str, int]]:
    """Of each implementation the failures by flag; a list is named as the implementation is, without slashes."""
    found = {}
    for path in sorted(LISTS.glob("*.txt")):
        name = path.stem.replace("_", "/").replace("-", " ")
        found[name] = {flag: len(numbers) for flag, numbers in read_list(path).items()}
    return found


def remade(text: str) -> tuple[str, set[str]]:
    """The page with the numbers of the lists, and the flags that have a row."""
    names, lists, flags = peers(text), counts(), set()
    assert set(names) == lists.keys(), (names, lists.keys())
    lines = text.splitlines()
    for at, line in enumerate(lines):
        cells = line.split(" | ")
        if found := re.fullmatch(r"\| `(\w+)`", cells[0]):
            flags.add(found[1])
            numbers = [str(lists[name].get(found[1], 0)) for name in names]
            lines[at] = " | ".join([cells[0], *numbers, *cells[1 + len(names) :]])
    return "\n".join(lines) + "\n", flags


def main(words: list[str]) -> int:
    text = PAGE.read_text("utf-8")
    made, flags = remade(text)
    failing = set[str]().union(*(it.keys() for it in counts().values()))
    faults = [f"{flag} has no row" for flag in sorted(failing - flags)]
    faults += [f"{flag} has a row, and no failure" for flag in sorted(flags - failing)]
    if "--write" in words:
        PAGE.write_text(made, "utf-8")
    elif made != text:
        faults.append("the numbers of docs/PROTOCOLS.md aren't those of the lists: checks/suite/table.py --write")
    print("\n".join([*(f"table: {it}" for it in faults), f"table: {len(flags)} flags, {len(faults)} faults"]))
    return int(bool(faults))


if __name__ == "__main__":
    sys.exit(main(sys.argv[1:]))
