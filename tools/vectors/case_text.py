"""A test of the suite as text, and where a message differs from the right one."""

from __future__ import annotations

import hashlib
import sys
from collections.abc import Iterator
from pathlib import Path
from typing import Any, NamedTuple

RUNNERS = Path(__file__).resolve().parent.parent.parent / "examples" / "vectors-runners" / "python"
sys.path.insert(0, str(RUNNERS))

from runner import Run, data_of  # noqa: E402

TAG, KEY = 16, 32


class Piece(NamedTuple):
    """A part of a message."""

    name: str
    first: int
    end: int
    is_sealed: bool

    def __str__(self) -> str:
        if self.is_sealed and self.end - self.first == TAG:
            kind = "the tag of no bytes"
        else:
            kind = "encrypted, the last 16 its tag" if self.is_sealed else "in the clear"
        return f"{self.name}: bytes {self.first} to {self.end - 1}, {kind}"


def split(group: dict[str, Any]) -> tuple[list[str], list[list[str]]]:
    """The tokens of the pre-messages, and those of each message of the handshake."""
    lines = group["pattern"]
    at = lines.index("...") if "..." in lines else 0
    before = [token for line in lines[:at] for token in line[3:].split(", ")]
    return before, [line[3:].split(", ") for line in lines[at + bool(at) :]]


def pieces(group: dict[str, Any], number: int, length: int) -> Iterator[Piece]:
    """The parts of a message of so many bytes: keys, and the payload. A token that gives a key encrypts what follows:
    a DH, a psk, and an `e` in a pattern with a psk (5.2, 9.2). After the handshake all is encrypted."""
    before, messages = split(group)
    is_psk = bool(group["psks"])
    is_sealed, at = is_psk and "e" in before or number >= len(messages), 0
    for tokens in messages[:number]:
        is_sealed = is_sealed or any(it not in ("e", "s") or it == "e" and is_psk for it in tokens)
    for token in messages[number] if number < len(messages) else []:
        if token in ("e", "s"):
            end = at + KEY + TAG * (is_sealed and token == "s")
            yield Piece(token, at, end, end > at + KEY)
            at = end
        is_sealed = is_sealed or token not in ("e", "s") or token == "e" and is_psk
    if at < length:
        yield Piece("payload", at, length, is_sealed)


def in_hex(data: bytes) -> str:
    """The digits; of many equal bytes at the start their number."""
    same = len(data) - len(data.lstrip(data[:1]))
    if same > 200:
        return f"{same} bytes {data[:1].hex()}" + (f", then {data[same:].hex()}" if data[same:] else "")
    return data.hex() or "no bytes"


def right_message(group: dict[str, Any], step: dict[str, Any]) -> bytes | str:
    """The bytes that a step has to write; of a long message its SHA-256."""
    wanted = step["is"] if "is" in step else group["messages"][step["message"]]["message"]
    return wanted["sha256"] if isinstance(wanted, dict) else bytes.fromhex(wanted)


def message_lines(group: dict[str, Any], step: dict[str, Any], data: bytes | str) -> Iterator[str]:
    if isinstance(data, str):
        yield f"  a long message, of the SHA-256 {data}"
        return
    is_whole = "message" in step and not step.keys() & {"bytes", "cut", "append"}
    for it in pieces(group, step["message"], len(data)) if is_whole else []:
        yield f"  {it}: {in_hex(data[it.first : it.end])}"
    if not is_whole:
        yield f"  {len(data)} bytes: {in_hex(data)}"


def step_lines(group: dict[str, Any], test: dict[str, Any], number: int) -> Iterator[str]:
    """A step: what is called, with which bytes, and what has to come of it."""
    step, do = test["steps"][number], test["steps"][number]["do"]
    message = group["messages"][step["message"]] if "message" in step else {}
    payload = data_of(step["payload"] if "payload" in step else message.get("payload", ""))
    what = {"rekey": f"rekey {step.get('direction')}", "nonce": f"nonce {step.get('direction')} {step.get('nonce')}"}
    at = f" message {step['message']}" if "message" in step else ""
    yield f"step {number}: {step.get('role', test['role'])}: {what.get(do, do)}{at}"
    if do == "write":
        yield f"  the payload to be written: {in_hex(payload)}"
        if "refused" not in step:
            yield from message_lines(group, step, right_message(group, step))
    if do == "read":
        is_long = "bytes" not in step and isinstance(message["message"], dict)
        data = message["message"]["sha256"] if is_long else Run(group, test, None).received(step)
        yield from message_lines(group, step, data)
        if "xor" in step:
            yield f"  byte {step['xor'][0]} is changed by xor with {step['xor'][1]}"
        if "refused" not in step:
            yield f"  the payload that comes out: {in_hex(payload)}"
    if do in ("hash", "remote"):
        yield f"  {group['hash'] if do == 'hash' else step.get('is') or 'no key'}"
    if "refused" in step:
        yield f"  it has to be refused: {step['refused']}" + (f" at {step['at']}" if "at" in step else "")
    if "optional" in step:
        yield "  it may be refused, and then the test ends, and has passed"


def setup_lines(setup: dict[str, Any]) -> Iterator[str]:
    yield f"protocol: {setup['protocol']}"
    yield from (f"  {line}" for line in setup["pattern"])
    yield f"prologue: {in_hex(data_of(setup['prologue']))}"
    yield from (f"psk: {it}" for it in setup["psks"])
    for role in ("initiator", "responder"):
        yield from (f"{role} {name}: {key}" for name, key in setup[role].items())


def text_of(group: dict[str, Any], test: dict[str, Any]) -> str:
    """A test as text."""
    lines = [f"test {test['tcId']}: {test['comment']}", f"{test['result']}, {', '.join(test['flags'])}"]
    if group["type"] == "NoiseFrame":
        lines += [f"message: {test['message'] or 'none'}", f"frame: {test['frame'] or 'no bytes'}"]
    else:
        setup = test if group["type"] == "NoiseStart" else group
        lines += [f"what is wrong: {test['place']}"] if "place" in test else []
        lines += setup_lines(setup)
        lines += [line for number in range(len(test["steps"])) for line in step_lines(setup, test, number)]
    return "\n".join(lines) + "\n"


def difference(group: dict[str, Any], test: dict[str, Any], number: int, yours: bytes) -> str:
    """Where a message that was written in a step differs from the right one."""
    setup, step = (test if group["type"] == "NoiseStart" else group), test["steps"][number]
    right = right_message(setup, step)
    if isinstance(right, str):
        digest = hashlib.sha256(yours).hexdigest()
        said = "the same" if digest == right else "differs"
        return f"{said}: the SHA-256 is {digest}, and the right one is {right}\n"
    if yours == right:
        return "the same\n"
    at = next((it for it, (one, other) in enumerate(zip(yours, right)) if one != other), min(len(yours), len(right)))
    lines = [f"differs from byte {at} on, of {len(yours)}; the right message has {len(right)}"]
    for it in pieces(setup, step["message"], len(right)) if "message" in step else []:
        if it.first <= at < it.end:
            lines += [str(it), f"right {right[it.first : it.end].hex()}", f"yours {yours[it.first : it.end].hex()}"]
    return "\n".join(lines) + "\n"
