#!/usr/bin/env python3
"""Makes a file of another suite with a Noise that has it.

    others.py SUITE FOLDER SOURCE [CONFIRMED ..] -- PROGRAM [WORD ..]

SUITE is as 25519_AESGCM_SHA256; FOLDER has the suite of this repository, and gets SUITE.json. PROGRAM speaks the line
protocol of docs/VECTORS.md: what it writes becomes the expectations, and SOURCE is its name. CONFIRMED are the names of
implementations that pass the file: run it with them first. The file has the fundamental patterns, and those with one
psk: right conversations, and one changed tag of each message that has one.
"""

from __future__ import annotations

import json
import sys
from pathlib import Path
from typing import Any

import lines
from flags import notes
from group import draw
from make import LICENSE, NAME, Numbers, text_of
from mistaken import public_of
from patterns import LETTERS, ROLES, Protocol, protocol_of
from steps import ALSO

TRANSPORT = (0, 1, 17, 64)


def protocols(folder: Path) -> list[Protocol]:
    """The fundamental patterns, and those with one psk, as the suite has them."""
    found = {}
    for group in json.loads((folder / NAME).read_text("ascii"))["testGroups"]:
        flags = {flag for test in group["tests"] for flag in test["flags"]}
        kind = next((it for it in ("FundamentalPattern", "OnePsk") if it in flags), "")
        if kind and "DeferredPattern" not in flags:
            section = group["protocol"].split("_")[1]
            found.setdefault(section, protocol_of("\n".join([f"{section}:", *group["pattern"]]), kind))
    return [it for it in found.values() if it.is_fundamental]


def setup_of(suite: str, protocol: Protocol) -> dict[str, Any]:
    name = f"{suite}, {protocol.section}"
    keys = {role: {it: draw(32, name, role, it) for it in sorted(protocol.own(role))} for role in ROLES}
    made: dict[str, Any] = {
        "type": "NoiseHandshake", "protocol": f"Noise_{protocol.section}_{suite}", "pattern": list(protocol.lines),
        "prologue": draw(11, name, "prologue").hex(), "psks": [draw(32, name, "psk").hex()] * protocol.psks,
    }  # fmt: skip
    for role, theirs in zip(ROLES, ROLES[::-1]):
        made[role] = {it: key.hex() for it, key in keys[role].items()}
        made[role] |= {f"r{it}": public_of(keys[theirs][it]).hex() for it in protocol.before(theirs)}
    return made


def converse(setup: dict[str, Any], protocol: Protocol) -> None:
    """Has the program hold the conversation."""
    parties = {role: lines.Party(setup | {"prologue": bytes.fromhex(setup["prologue"])}, role) for role in ROLES}
    count = len(protocol.messages)
    setup["handshakeMessages"], setup["messages"] = count, []
    for number in range(count + len(TRANSPORT)):
        sender = ROLES[0 if protocol.is_one_way else number % 2]
        length = number + 2 if number < count else TRANSPORT[number - count]
        payload = draw(length, setup["protocol"], "payload", number)
        message = parties[sender].write(payload)
        assert parties[ROLES[1 - ROLES.index(sender)]].read(message) == payload, setup["protocol"]
        setup["messages"].append({"from": sender, "payload": payload.hex(), "message": message.hex()})
        if number == count - 1:
            hashes = {parties[role].hash() for role in ROLES}
            assert len(hashes) == 1, setup["protocol"]
            setup["hash"] = hashes.pop().hex()


def right(setup: dict[str, Any], role: str, until: int) -> list[dict[str, Any]]:
    made = []
    for number, message in enumerate(setup["messages"][:until]):
        made.append({"do": "write" if message["from"] == role else "read", "message": number})
        if number == setup["handshakeMessages"] - 1:
            made.append({"do": "hash"})
    return made


def is_sealed(protocol: Protocol, number: int) -> bool:
    """Whether the payload of a message of the handshake is encrypted."""
    tokens = [it for message in protocol.messages[: number + 1] for it in message]
    return any(it not in LETTERS for it in tokens)


def test(comment: str, flags: list[str], role: str, steps: list[dict[str, Any]], after: str = "") -> dict[str, Any]:
    flags = [*dict.fromkeys([*flags, *(more for it in flags for more in ALSO.get(it, []))])]
    made = {"tcId": 0, "comment": comment, "flags": flags, "result": "invalid" if after else "valid", "role": role}
    return made | ({"after": after} if after else {}) | {"steps": steps}


def tests_of(setup: dict[str, Any], protocol: Protocol) -> list[dict[str, Any]]:
    count, messages = setup["handshakeMessages"], setup["messages"]
    made = [test(f"{protocol.section}: the {it}", [protocol.kind], it, right(setup, it, len(messages))) for it in ROLES]
    for number in range(count + 2):
        if number < count and not is_sealed(protocol, number):
            continue
        role = next(it for it in ROLES if it != messages[number]["from"])
        change = {"do": "read", "message": number, "xor": [len(messages[number]["message"]) // 2 - 1, 1 << number % 8]}
        steps = [it for it in right(setup, role, number) if it["do"] != "hash"]
        if number < count:
            place = {"refused": "tag", "token": len(protocol.messages[number]), "at": "payload"}
            made.append(
                test(f"message {number + 1}: the tag's last byte", ["TagEndChanged"], role, [*steps, change | place],
                     "ended")
            )
        else:
            steps += [change | {"refused": "tag"}, {"do": "read", "message": number}]
            words = f"the tag's last byte of message {number + 1}; then the right one"
            made.append(test(words, ["TransportChanged"], role, steps, "unchanged"))
    return made


def main(words: list[str]) -> int:
    at = words.index("--") if "--" in words else 0
    if at < 3 or len(words) == at + 1:
        print(__doc__, file=sys.stderr)
        return 2
    suite, folder, source, *confirmed = words[:at]
    lines.Party.programs = {role: lines.Program(words[at + 1 :]) for role in ROLES}
    groups = []
    for protocol in protocols(Path(folder)):
        setup = setup_of(suite, protocol)
        converse(setup, protocol)
        groups.append(setup | {"tests": tests_of(setup, protocol)})
    for program in lines.Party.programs.values():
        program.end()
    path = Path(folder) / f"{suite}.json"
    numbers = Numbers(path)
    numbers.give(groups)
    tests = [it for group in groups for it in group["tests"]]
    made = {
        "algorithm": f"Noise_{suite}", "schema": "schema.json", "generatorVersion": "2", "suite": suite,
        "license": LICENSE, "source": source, "confirmed_by": confirmed,
        "proofs": "no proof of this repository speaks of this suite: its library doesn't have it",
        "numberOfTests": len(tests), "lastTcId": numbers.last,
        "notes": notes({flag for it in tests for flag in it["flags"]}), "testGroups": groups,
    }  # fmt: skip
    path.write_text(text_of(made), encoding="ascii")
    print(f"others: {suite}: {len(groups)} groups, {len(tests)} tests")
    return 0


if __name__ == "__main__":
    sys.exit(main(sys.argv[1:]))
