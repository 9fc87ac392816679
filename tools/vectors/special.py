"""The tests of public keys that are no right ones, of lengths, and of frames."""

from __future__ import annotations

from typing import Any

from cases import pieces
from command import Command
from forged import ONE, long_message
from group import Group, draw, other
from mistaken import public_of
from patterns import ROLES, Protocol
from steps import Step, add, judged, right

PRIME = 2**255 - 19
TOP = 2**255
# The points of small order: any DH of them is zeros.
SMALL = (
    0,
    1,
    325606250916557431795983626356110631294008115727848805560023387167927233504,
    39382357235489614581723060781553021112529911719440698176882885853963445705823,
    PRIME - 1,
    PRIME,
    PRIME + 1,
)
# Whose key is one of them: in messages in the clear, encrypted, and known beforehand.
TRIED = (
    ("NN", "initiator", "e"),
    ("NN", "responder", "e"),
    ("XX", "responder", "e"),
    ("IKpsk2", "initiator", "e"),
    ("IX", "initiator", "s"),
    ("XX", "responder", "s"),
    ("NK", "responder", "s"),
    ("KN", "initiator", "s"),
)
ZEROS = "12.1: the DH result is all zeros; to refuse the key is allowed"
OTHER_FORM = "12.1: the key isn't the least number of its point; to refuse it is allowed"


def keys(protocol: Protocol) -> list[tuple[int, str, str]]:
    """The keys that are tried: the points of small order, and other forms of points; with the flag and the sentence of
    each."""
    made = [(key, "LowOrderKey", ZEROS) for point in SMALL for key in (point, point + TOP) if key < 2**256]
    made += [(PRIME + it, "NonCanonicalKey", OTHER_FORM) for it in (2, 3, 9, 18)]
    top = int.from_bytes(public_of(draw(32, protocol.section, "top bit")), "little") | TOP
    return [*made, (top, "NonCanonicalKey", OTHER_FORM)]


def bad_keys(command: Command, protocol: Protocol, role: str, letter: str) -> list[Group]:
    """A party's ephemeral or static key is each of these. Its other DH results are those of the party that is
    tested."""
    return [bad_key(command, protocol, (role, letter), *it) for it in keys(protocol)]


def bad_key(command: Command, protocol: Protocol, whose: tuple[str, str], key: int, flag: str, why: str) -> Group:
    role, letter = whose
    data, tested = key.to_bytes(32, "little"), other(role)
    group = Group(command, f"{protocol.section} {data.hex()}", protocol, [flag], b"", (2,), (4, 4), bad={whose: data})
    steps = [it | {"optional": True} for it in right(group, tested, len(group.messages))]
    add(group, tested, f"{protocol.section}: the {role}'s {letter} is {data.hex()}; {why}", [flag], steps)
    return group


def rule(count: int) -> dict[str, Any]:
    return {"byte": f"{ONE:02x}", "count": count}


def too_long(group: Group) -> None:
    """A message has at most 65535 bytes (3). The longer one that is read is right in all else: its keys and its
    ciphertext are of one byte, and its tag is that of them. The command's frames carry no more; it accepts the same
    message with 65535 bytes."""
    for number in range(group.handshake + 2):
        sender, reader = group.messages[number].sender, other(group.messages[number].sender)
        overhead = len(group.messages[number].data) - len(group.messages[number].payload)
        step: Step = {"do": "write", "payload": rule(65536 - overhead)}
        due = {"do": "write", "message": number, "optional": True}  # after a refused write the standard says nothing
        steps = [*right(group, sender, number), step, due]
        add(
            group, sender, f"a payload that makes 65536 bytes of message {number + 1}; then the right one",
            ["LongMessageTaken"], judged(group, sender, steps),
        )
        if has_sealed_key(group, number):
            continue
        tag = long_message(group, number, 65536)
        long = {"do": "read", "bytes": rule(65536 - len(tag)), "refused": "too-long"}
        if tag:
            long["append"] = tag.hex()
        add(
            group, reader, f"65536 bytes in place of message {number + 1}", ["LongMessageTaken"],
            [*right(group, reader, number), long],
        )
        tag = long_message(group, number, 65535)
        longest = bytes([ONE]) * (65535 - len(tag)) + tag
        events = [f"say {it.sender} {it.payload.hex() or '-'} -" for it in group.messages[:number]]
        said = group.replay([*events, f"raw {reader} ffff{longest.hex()}"], met={reader: [bytes([ONE]) * 32]})
        assert said[2 * number].startswith(f"payload {reader} "), said[2 * number][:200]
    for role in ROLES:
        events = [f"say {it.sender} {it.payload.hex() or '-'} -" for it in group.messages[: group.handshake]]
        events += ["datagrams 64", f"foreign {role} {bytes(8).hex()}{'aa' * 65536}"]
        assert f"rejected {role} too-long" in group.replay(events)


def has_sealed_key(group: Group, number: int) -> bool:
    """Whether a message of the handshake has an encrypted key, whose tag isn't the byte of all others."""
    return any(it.kind == "s" and it.is_sealed for it in pieces(group, number)) if number < group.handshake else False


def frames(group: Group, number: int) -> dict[str, Any]:
    """Frames of messages (13): whole ones, ones that aren't, and those with wrong lengths."""
    tests: list[dict[str, Any]] = []
    for message in group.messages:
        frame = f"{len(message.data):04x}{message.data.hex()}"
        tests.append(
            frame_test(f"a message of {len(message.data)} bytes", ["Frame"], "valid", message.data.hex(), frame)
        )
    message = group.messages[number]
    data = message.data
    cut = [
        (0, "no byte"), (1, "half of its length"), (2, "its length alone"), (3, "one byte of it"),
        (len(data) + 1, "all but its last byte"),
    ]
    for length, what in cut:
        tests.append(
            open_frame(group, number, f"{what} has come", ["FrameCut"], (len(data).to_bytes(2, "big") + data)[:length])
        )
    counted, little = (len(data) + 2).to_bytes(2, "big") + data, len(data).to_bytes(2, "little") + data
    tests.append(open_frame(group, number, "the length counts itself", ["FrameCountsItself"], counted))
    tests.append(open_frame(group, number, "the length is little-endian", ["FrameLittleEndian"], little))
    return {"type": "NoiseFrame", "comment": "a length in 2 big-endian bytes before each message (13)", "tests": tests}


def frame_test(comment: str, flags: list[str], result: str, message: str, frame: str) -> dict[str, Any]:
    return {"tcId": 0, "comment": comment, "flags": flags, "result": result, "message": message, "frame": frame}


def open_frame(group: Group, number: int, comment: str, flags: list[str], frame: bytes) -> dict[str, Any]:
    """A frame that isn't whole: by the command, all its bytes are held, and nothing is read."""
    reader = other(group.messages[number].sender)
    events = [f"say {it.sender} {it.payload.hex() or '-'} -" for it in group.messages[:number]]
    lines = group.replay([*events, f"raw {reader} {frame.hex() or '-'}"])[2 * number :]
    assert lines[0].startswith(f"held {reader} {len(frame)}" if frame else "state"), lines
    return frame_test(comment, flags, "invalid", "", frame.hex()) | {"after": "waiting"}
