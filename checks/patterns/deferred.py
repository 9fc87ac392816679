#!/usr/bin/env python3
"""Compares the deferred patterns of examples/patterns/ with the fundamental ones that the standard derives them from:
deferred.py PROGRAM. A `1` after the first letter moves se to the next message, one after the second letter es (7.6);
ss is left out then. `noise check` says whether the fundamental ones here are the standard's: it takes no other text
under such a name."""

import subprocess
import sys
from pathlib import Path

FOLDER = Path(__file__).resolve().parent.parent.parent / "examples/patterns"

# The interactive fundamental patterns (7.5) of which a DH can be deferred: who is known before, and the messages.
FUNDAMENTAL = {
    "NK": ("<-", "e, es/e, ee"), "NX": ("", "e/e, ee, s, es"),
    "XN": ("", "e/e, ee/s, se"), "XK": ("<-", "e, es/e, ee/s, se"), "XX": ("", "e/e, ee, s, es/s, se"),
    "KN": ("->", "e/e, ee, se"), "KK": ("-> <-", "e, es, ss/e, ee, se"), "KX": ("->", "e/e, ee, se, s, es"),
    "IN": ("", "e, s/e, ee, se"), "IK": ("<-", "e, es, s, ss/e, ee, se"), "IX": ("", "e, s/e, ee, se, s, es"),
}  # fmt: skip


def messages_of(base):
    return [it.split(", ") for it in FUNDAMENTAL[base][1].split("/")]


def text(base, name, messages):
    """A pattern's text: what is known before is that of the fundamental one."""
    before = [f"  {arrow} s" for arrow in FUNDAMENTAL[base][0].split()]
    lines = [f"  {('->', '<-')[number % 2]} {', '.join(tokens)}" for number, tokens in enumerate(messages)]
    return "".join(f"{it}\n" for it in [f"{name}:", *before, *(["  ..."] if before else []), *lines])


def deferred(base, moved):
    """The messages where these tokens come one message later: after those of a message that begins with e, else
    before."""
    messages = [[]]
    late = []
    for tokens in [*messages_of(base), []]:
        kept = [it for it in tokens if it not in (*moved, "ss")]
        messages.append([*kept, *late] if kept[:1] == ["e"] else [*late, *kept])
        late = [it for it in tokens if it in moved]
    return [it for it in messages if it]


def derived():
    """The name and the text of each deferred pattern."""
    for base in FUNDAMENTAL:
        tokens = {token for message in messages_of(base) for token in message}
        for first, second in (("1", ""), ("", "1"), ("1", "1")):
            moved = ["se"] * bool(first) + ["es"] * bool(second)
            if tokens.issuperset(moved):
                name = f"{base[0]}{first}{base[1]}{second}"
                yield name, text(base, name, deferred(base, moved))


def main():
    """Compares each, and returns the exit status."""
    faults = []
    for base in FUNDAMENTAL:
        ran = subprocess.run([sys.argv[1], "check", "-"], input=text(base, base, messages_of(base)), text=True,
                             stdout=subprocess.PIPE, check=False)
        if ran.stdout.splitlines()[:1] != [f"valid {base}"]:
            faults.append(f"{base} isn't the standard's: {ran.stdout}")
    wanted = dict(derived())
    found = {it.stem: it.read_text(encoding="ascii") for it in FOLDER.glob("[A-Z]*.pattern")}
    faults += [f"{name}.pattern isn't the one that is derived" for name in wanted if found.get(name) != wanted[name]]
    faults += [f"{name}.pattern is no deferred pattern" for name in found.keys() - wanted.keys()]
    print("".join(f"patterns: {it}\n" for it in faults), end="", file=sys.stderr)
    print(f"patterns: {len(wanted)} deferred patterns are derived from the fundamental ones")
    return int(bool(faults))


if __name__ == "__main__":
    sys.exit(main())
