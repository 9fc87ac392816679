#!/usr/bin/env python3
"""Runs a program on the cases of vectors/datagrams.json: datagrams.py FILE COMMAND... It gets a line for each case, as
`kind 8 33 3`, and prints what the rule gives."""

from __future__ import annotations

import json
import subprocess
import sys
from pathlib import Path
from typing import Any


def words(*values: Any) -> str:
    return " ".join("none" if it is None else str(it).lower() if isinstance(it, bool) else str(it) for it in values)


def lines(cases: dict[str, Any]) -> list[tuple[str, str]]:
    """Each line, and what has to come of it."""
    made = [
        (words("kind", it["firstByte"], it["length"], it["messages"]), it["kind"]) for it in cases["kinds"]
    ] + [(words("host", it["ip"]), it["host"]) for it in cases["hosts"]]
    for it in cases["cookies"]:
        line = words("cookie", it["secret"], it["ip"], it["port"], it["message"])
        made.append((line, words(it["address"], it["cookie"], it["reply"], it["again"])))
    made += [(words("reply", it["reply"], it["message"]), words(it["cookie"])) for it in cases["replies"]]
    it = cases["secrets"]
    steps = [word for step in it["steps"] for word in (step["milliseconds"], step["cookie"])]
    made.append((words("secrets", it["ip"], it["port"], it["message"], ",".join(it["secrets"]), *steps),
                 words(*(step["accepted"] for step in it["steps"]))))
    made += [(words("first", *list(it.values())[:-1]), it["does"]) for it in cases["firsts"]]
    made += [(words("send", *list(it.values())[:-1]), words(it["may"])) for it in cases["sends"]]
    rates = [word for it in cases["rates"] for word in (it["milliseconds"], it["host"], it["count"])]
    made.append((words("rates", *rates), words(*(it["begin"] for it in cases["rates"]))))
    for it in cases["givesWay"]:
        hosts = "".join(one["host"].upper() if one["done"] else one["host"] for one in it["begun"])
        made.append((words("givesWay", hosts), words(it["place"])))
    made += [(words("move", it["nonce"], it["newest"]), words(it["moves"])) for it in cases["moves"]]
    return made + [(words("index", it["lastMessage"]), it["index"]) for it in cases["indices"]]


def main(file: str, *command: str) -> int:
    wanted = lines(json.loads(Path(file).read_text("ascii")))
    said = subprocess.run(command, input="\n".join(line for line, _ in wanted), text=True, stdout=subprocess.PIPE)
    got = said.stdout.splitlines()
    faults = [f"{line[:100]}: {has}, and not {want}" for (line, want), has in zip(wanted, got) if has != want]
    if said.returncode or len(got) != len(wanted):
        faults.append(f"{len(got)} answers to {len(wanted)} lines")
    print("\n".join(f"datagrams: {it}" for it in faults), end="\n" if faults else "", file=sys.stderr)
    print(f"datagrams: {len(wanted)} cases, {len(faults)} faults")
    return int(bool(faults))


if __name__ == "__main__":
    sys.exit(main(*sys.argv[1:]))
