"""A test of the suite as a vector file, which the command `noise` makes."""

from __future__ import annotations

import re
from typing import Any

from command import Command, Fault
from group import Group, Message
from patterns import ROLES, protocol_of
from steps import data_of, event

__all__ = ["Command", "Fault", "has_vector", "vector_of"]


class Told(Group):
    """A group that the suite tells, in place of one whose conversation the command says."""

    def converse(self) -> None:
        pass


def group_of(command: Command, told: dict[str, Any]) -> Group:
    section = told["protocol"].split("_")[1]
    protocol = protocol_of("\n".join([f"{section}:", *told["pattern"]]), "")
    keys = {role: {it: bytes.fromhex(told[role][it]) for it in "es" if it in told[role]} for role in ROLES}
    psks = [bytes.fromhex(it) for it in told["psks"]]
    group = Told(
        command, "", protocol, [], data_of(told["prologue"]), interval=told.get("interval", 0), psks=psks, keys=keys
    )
    for it in told["messages"]:
        data = b"" if isinstance(it["message"], dict) else bytes.fromhex(it["message"])
        group.messages.append(Message(it["from"], data_of(it["payload"]), data))
    for role in ROLES:
        for letter in protocol.own(role) - keys[role].keys():  # a public key that nobody has the private one of
            group.bad[role, letter] = public_in(told, role, letter)
            keys[role][letter] = bytes(32)
    return group


def public_in(told: dict[str, Any], role: str, letter: str) -> bytes:
    """A public key whose comment tells it: that of a test of keys that are no right ones."""
    found = re.search(f"the {role}'s {letter} is ([0-9a-f]{{64}})", told["tests"][0]["comment"])
    return bytes.fromhex(found[1]) if found else bytes(32)


def met(group: Group, steps: list[dict]) -> list[bytes]:
    """What a changed message has in the place of keys."""
    changed = [it for it in steps if it["do"] == "read" and it.keys() & {"bytes", "xor", "append"}]
    data = [bytes.fromhex(event(group, "", it).split(" ")[2])[2:] for it in changed]
    return [it[at : at + 32] for it in data for at in (0, 32) if len(it) >= at + 32]


def vector_of(
    command: Command, told: dict[str, Any], test: dict[str, Any], yours: tuple[int, bytes] | None
) -> str:
    """The vector file; `yours` is the number of a step, and the message that was written there."""
    group, role = group_of(command, told), test["role"]
    if role == "both":
        events = [f"say {it.sender} {it.payload.hex() or '-'} -" for it in group.messages]
    else:
        events = [it for it in (event(group, role, step) for step in test["steps"]) if it]
    keys = {} if role == "both" else {role: met(group, test["steps"])}
    head = group.head(group.setup, keys).replace("vector 2", "vector 1", 1)
    lines = command.run("convert", head + "".join(f"{it}\n" for it in events))
    if yours:
        step, message = yours
        count = sum(it["do"] == "write" and "refused" not in it for it in test["steps"][:step])
        at = [number for number, line in enumerate(lines) if line.startswith(f"expect wrote {role} ")][count]
        lines[at] = " ".join([*lines[at].split(" ")[:4], f"{len(message):04x}{message.hex()}"])
    return "\n".join(lines) + "\n"


def has_vector(test: dict[str, Any]) -> bool:
    """Whether a vector file can say what this test does."""
    steps = test.get("steps", [{"do": "frame"}])
    is_told = not any(it["do"] in ("nonce", "frame", "start") or it.get("refused") == "too-long" for it in steps)
    return is_told and "RekeyAtZeroOmitted" not in test["flags"]  # the command has no rekey before a message
