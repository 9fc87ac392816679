"""The steps of a test, and what the command says of them.

A step is what the suite has of it: `do` is read or write, `message` a number, and so on. `judged` adds what comes of
each: `refused` with the token, or the bytes where they aren't those of the right conversation.
"""

from __future__ import annotations

from typing import Any

from group import Group, Message, Setup, digits, draw
from patterns import ROLES, Protocol

Step = dict[str, Any]
# What a case of a flag is also for: mistakes that show in no message.
ALSO = {
    "RightAfterRefused": ["HandshakeGoesOn"],
    "TransportChanged": ["NonceRisesAtRefusal", "TagNotChecked"],
    "WriteOutOfTurn": ["TurnNotChecked"],
    "ReadOutOfTurn": ["TurnNotChecked"],
    "TagChanged": ["TagNotChecked"],
    "TagEndChanged": ["TagCutTaken", "TagNotChecked"],
    "EncryptedKeyChanged": ["TagNotChecked"],
    "PayloadChanged": ["TagNotChecked"],
}
WHY = {"your-turn": "turn", "not-your-turn": "turn", "silent": "one-way"}


def right(group: Group, role: str, until: int, first: int = 0) -> list[Step]:
    """The steps of a party in the right conversation, up to a message; of `both` those of the two."""
    steps: list[Step] = []
    for number in range(first, until):
        sender = group.messages[number].sender
        if role == "both":
            steps += [
                {"role": sender, "do": "write", "message": number},
                {"role": other_role(sender), "do": "read", "message": number},
            ]
        else:
            steps.append({"do": "write" if sender == role else "read", "message": number})
        if is_renewed(group, number):
            parties = ROLES if role == "both" else (role,)
            named = [
                ({"role": it} if role == "both" else {}) | {"do": "rekey", "direction": direction(it, sender)}
                for it in parties
            ]
            steps += named
    return steps


def other_role(role: str) -> str:
    return ROLES[1 - ROLES.index(role)]


def direction(role: str, sender: str) -> str:
    return "send" if role == sender else "receive"


def is_renewed(group: Group, number: int) -> bool:
    """Whether the key is rekeyed after a message."""
    sender = group.messages[number].sender
    count = sum(it.sender == sender for it in group.messages[group.handshake : number + 1])
    return bool(number >= group.handshake and group.interval and count % group.interval == 0)


def data_of(value: Any) -> bytes:
    """Bytes that are given as hex digits, or by a rule."""
    return bytes.fromhex(value) if isinstance(value, str) else bytes.fromhex(value["byte"]) * value["count"]


def payload_of(group: Group, step: Step) -> bytes:
    """The payload that a step writes."""
    return data_of(step["payload"]) if "payload" in step else group.messages[step["message"]].payload


def bytes_of(group: Group, step: Step) -> bytes:
    """The bytes that a step reads, with its change."""
    data = data_of(step["bytes"]) if "bytes" in step else group.messages[step["message"]].data
    data = data[: step.get("cut", len(data))] + bytes.fromhex(step.get("append", ""))
    if "xor" in step:
        at, mask = step["xor"]
        data = data[:at] + bytes([data[at] ^ mask]) + data[at + 1 :]
    return data


def event(group: Group, role: str, step: Step) -> str | None:
    if step["do"] == "write":
        return f"write {role} {digits(payload_of(group, step))}"
    if step["do"] == "read":
        data = bytes_of(group, step)
        return f"raw {role} {len(data):04x}{data.hex()}"
    return None


def judged(
    group: Group, role: str, steps: list[Step], setup: Setup | None = None, met: list[bytes] | None = None
) -> list[Step] | None:
    """The steps with what comes of each; None if a DH result is wanted that nobody has."""
    events = [event(group, role, step) for step in steps]
    lines = iter(group.replay([it for it in events if it], setup, {role: met or []}))
    return _filled(group, setup.protocol if setup else group.protocol, role, steps, events, lines)


def _filled(
    group: Group, protocol: Protocol, role: str, steps: list[Step], events: list[str | None], lines: Any
) -> list[Step] | None:
    done, passed = [], 0
    for step, happened in zip(steps, events):
        step = dict(step)
        if happened:
            words = next(lines).split(" ")
            assert words[1] == role, words
            if "agreement" in words:
                return None
            fill(group, protocol, passed, step, words)
            passed += words[0] in ("wrote", "payload")
        done.append(step)
    return done


def fill(group: Group, protocol: Protocol, passed: int, step: Step, words: list[str]) -> None:
    """Puts a line of the command into its step."""
    message = group.messages[step["message"]] if "message" in step else Message("", b"")
    if words[0] == "wrote":
        data = bytes.fromhex(words[3])[2:]
        if data != message.data:
            step["is"] = data.hex()
    elif words[0] == "payload":
        payload = "" if words[2] == "-" else words[2]
        if "bytes" in step or payload != message.payload.hex():
            step["payload"] = payload
    elif words[0] == "refused":
        tokens = [*protocol.messages[passed], "payload"]
        step |= {"refused": words[3], "token": int(words[2]), "at": tokens[int(words[2])]}
    else:
        step["refused"] = WHY.get(words[2], words[2])


def add(group: Group, role: str, comment: str, flags: list[str], steps: list[Step] | None, **more: Any) -> None:
    """Adds a test, with its result; of no steps none."""
    if steps is None:
        return
    result = more.pop("result", "invalid" if any("refused" in step for step in steps) else "valid")
    if any("optional" in step for step in steps):
        result = "acceptable"
    flags = [*dict.fromkeys([*flags, *(more for it in flags for more in ALSO.get(it, [])), *group.also])]
    test = {"tcId": 0, "comment": comment, "flags": flags, "result": result, "role": role}
    if result == "invalid":
        more["after"] = state_after(steps)
    group.tests.append(test | more | {"steps": steps})


def state_after(steps: list[Step]) -> str:
    """What a right party's state is after the last refusal."""
    last = max(number for number, step in enumerate(steps) if "refused" in step)
    why = steps[last]["refused"]
    if "token" in steps[last] or why == "ended":
        return "ended"
    return "unchanged"


def fresh(*words: Any) -> bytes:
    return draw(32, "changed", *words)
