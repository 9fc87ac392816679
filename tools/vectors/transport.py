"""The tests of transport messages: a refused one changes nothing, and the next right one opens (5.1)."""

from __future__ import annotations

from typing import Any

from cryptography.hazmat.primitives.ciphers.aead import ChaCha20Poly1305

from forged import one_way_answer
from group import Group, Message, other
from patterns import ROLES
from steps import Step, add, judged, right

RESERVED = 2**64 - 1
NONCES = (1, 255, 256, 2**16, 2**32 - 1, 2**32, 2**53 - 1, 2**53, 2**53 + 1, 2**63 - 1, 2**63, 2**64 - 2)


def read(number: int, **change: Any) -> Step:
    return {"do": "read", "message": number} | change


def check(group: Group, role: str, comment: str, flag: str, steps: list[Step]) -> None:
    add(group, role, comment, [flag], judged(group, role, steps))


def negative(group: Group) -> None:
    """Of each role that reads transport messages: changed, cut, lost, repeated, and reflected ones."""
    for role in ROLES:
        due = [it for it in range(group.handshake, len(group.messages)) if group.messages[it].sender != role]
        if len(due) > 1:
            changed(group, role, due[1])
            lost(group, role, due)
            reflected(group, role, due)


def changed(group: Group, role: str, number: int) -> None:
    before, whole = right(group, role, number), len(group.messages[number].data)
    for length in sorted({0, 1, 15, 16, whole - 1}):
        steps = [*before, read(number, cut=length), read(number)]
        check(
            group, role, f"a transport message, the first {length} of {whole} bytes; then whole", "TransportCut", steps
        )
    for what, at in (("the first byte", 0), ("the tag's first byte", whole - 16), ("the tag's last byte", whole - 1)):
        steps = [*before, read(number, xor=[at, 1 << at % 8]), read(number)]
        check(group, role, f"a transport message with {what} changed; then the right one", "TransportChanged", steps)
    steps = [*before, read(number, append="00"), read(number)]
    check(group, role, "a transport message with a byte more; then the right one", "TransportByteAppended", steps)
    twice = [read(number, xor=[0, 128]), read(number, cut=0), read(number, xor=[whole - 1, 64])]
    check(
        group, role, "three changed transport messages; then the right one", "TransportChanged",
        [*before, *twice, read(number)],
    )


def other_tags(tag: bytes) -> dict[str, bytes]:
    """Tags that a careless comparison takes."""
    return {
        "zeros": bytes(16), "of bytes 255": b"\xff" * 16, "in reverse order": tag[::-1],
        "moved by a byte": tag[1:] + tag[:1], "inverted": bytes(255 - it for it in tag),
        "its first half twice": tag[:8] * 2,
    }  # fmt: skip


def tag_bits(group: Group) -> None:
    """Each bit of a tag changed, one after the other; then the right message."""
    for role in ROLES:
        number = next(it for it in range(group.handshake, len(group.messages)) if group.messages[it].sender != role)
        first = len(group.messages[number].data) - 16
        changes = [read(number, xor=[first + bit // 8, 1 << bit % 8]) for bit in range(128)]
        steps = [*right(group, role, number), *changes, read(number)]
        words = "each bit of a transport message's tag changed; then the right one"
        check(group, role, words, "TransportChanged", steps)
        data = group.messages[number].data
        for what, tag in other_tags(data[first:]).items():
            steps = [*right(group, role, number), {"do": "read", "bytes": (data[:first] + tag).hex()}, read(number)]
            words = f"a transport message whose tag is {what}; then the right one"
            check(group, role, words, "TransportChanged", steps)


def renewed_at_once(group: Group) -> None:
    """Rekey before the first transport message: the command can't be asked for it. The messages are those of the key
    that REKEY gives (4.2)."""
    keys, first = keys_of(group), len(group.messages)
    for number in range(4):
        role = ROLES[number % 2]
        zeros = ChaCha20Poly1305(keys[role]).encrypt(bytes(4) + b"\xff" * 8, bytes(32), b"")
        payload, nonce = f"message {number // 2}".encode(), bytes(4) + (number // 2).to_bytes(8, "little")
        group.messages.append(Message(role, payload, ChaCha20Poly1305(zeros[:32]).encrypt(nonce, payload, b"")))
    for role in ROLES:
        renewed = [{"do": "rekey", "direction": it} for it in ("send", "receive")]
        steps = [*right(group, role, first), *renewed, *right(group, role, len(group.messages), first)]
        add(group, role, "rekey of both directions before the first transport message", ["RekeyAtZeroOmitted"], steps)


def lost(group: Group, role: str, due: list[int]) -> None:
    first, second = due[0], due[1]
    before = right(group, role, first)
    steps = [*before, read(second), *right(group, role, second + 1, first)]
    check(
        group, role, "the second transport message comes before the first; then both in order", "TransportReordered",
        steps,
    )
    steps = [*right(group, role, first + 1), read(first), *right(group, role, second + 1, first + 1)]
    check(group, role, "the first transport message comes twice; then the second", "TransportRepeated", steps)
    check(
        group, role, "the first transport message is lost: the second is refused", "TransportLost",
        [*before, read(second)],
    )


def reflected(group: Group, role: str, due: list[int]) -> None:
    own = [it for it in range(group.handshake, due[1]) if group.messages[it].sender == role]
    if own:
        steps = [*right(group, role, due[1]), read(own[-1]), read(due[1])]
        check(group, role, "its own transport message comes back; then the right one", "TransportReflected", steps)
    theirs = [it for it in range(group.handshake) if group.messages[it].sender != role]
    if theirs:
        steps = [*right(group, role, due[0]), read(theirs[-1]), read(due[0])]
        check(
            group, role, "a message of the handshake in place of the first transport message; then that",
            "HandshakeInTransport", steps,
        )


def one_way(group: Group) -> None:
    """In a one-way pattern the responder sends nothing (7.4)."""
    last = len(group.messages)
    step = {"do": "write", "message": group.handshake}
    check(
        group, "responder", "the responder writes in a one-way pattern", "OneWayAnswer",
        [*right(group, "responder", last), step],
    )
    check(
        group, "initiator", "the initiator reads in a one-way pattern", "OneWayAnswer",
        [*right(group, "initiator", last), {"do": "read", "bytes": one_way_answer(group, group.handshake).hex()}],
    )


def keys_of(group: Group) -> dict[str, bytes]:
    """The keys of Split, by who sends with each."""
    events = [f"say {it.sender} {it.payload.hex() or '-'} -" for it in group.messages]
    lines = group.command.run("trace", group.head(group.setup, {}) + "".join(f"{it}\n" for it in events))
    rows = [line.split(" ") for line in lines if line.startswith("trace initiator open ")]
    return {row[4]: bytes.fromhex(row[10]) for row in rows}


def nonces(group: Group) -> None:
    """Messages at nonces that are set. Each is a right one, since the command accepts it as a datagram of its nonce;
    one of the reserved nonce it refuses (5.1)."""
    keys, first = keys_of(group), len(group.messages)
    for nonce in NONCES:
        for role in ROLES:
            payload = f"nonce {nonce}".encode()
            group.messages.append(Message(role, payload, sealed_at(keys[role], nonce, payload), nonce))
    accept(group, group.messages[first:], keys)
    for number in range(first, len(group.messages)):
        message = group.messages[number]
        for role in ROLES:
            way = "send" if role == message.sender else "receive"
            step = {"do": "write" if way == "send" else "read", "message": number}
            before = [
                *right(group, role, group.handshake),
                {"do": "nonce", "direction": way, "nonce": str(message.nonce)},
            ]
            add(group, role, f"a transport message to {way} at nonce {message.nonce}", ["HighNonce"], [*before, step])
            if message.nonce == RESERVED - 1:
                exhausted(group, role, [*before, step], keys[message.sender])


def sealed_at(key: bytes, nonce: int, payload: bytes) -> bytes:
    return ChaCha20Poly1305(key).encrypt(bytes(4) + nonce.to_bytes(8, "little"), payload, b"")


def exhausted(group: Group, role: str, used: list[Step], key: bytes) -> None:
    """What comes after the message at 2^64 - 2: neither the reserved nonce is used, nor 0 again. What is read is sealed
    for the nonce at which it must not be read."""
    last = used[-1]
    if last["do"] == "write":
        again = last | {"refused": "exhausted"}
        add(group, role, "to send at nonce 2^64 - 2, and once more", ["ReservedNonceUsed"], [*used, again])
        add(group, role, "to send at nonce 2^64 - 2, and twice more", ["NonceWraps"], [*used, again, again])
        return
    reserved, first = (
        {"do": "read", "bytes": sealed_at(key, nonce, b"never").hex(), "refused": "exhausted"}
        for nonce in (RESERVED, 0)
    )
    words = "to receive at nonce 2^64 - 2, and then a message of nonce"
    add(group, role, f"{words} 2^64 - 1", ["ReservedNonceRead"], [*used, reserved])
    add(group, role, f"{words} 2^64 - 1, and one of nonce 0", ["NonceWraps"], [*used, reserved, first])


def accept(group: Group, messages: list[Message], keys: dict[str, bytes]) -> None:
    """Asks the command whether it accepts these messages as datagrams, and refuses the reserved nonce."""
    events = [f"say {it.sender} {it.payload.hex() or '-'} -" for it in group.messages[: group.handshake]] + [
        "datagrams 64"
    ]
    events += [f"foreign {other(it.sender)} {it.nonce:016x}{it.data.hex()}" for it in messages]
    reserved = {role: sealed_at(keys[other(role)], RESERVED, b"never").hex() for role in ROLES}
    events += [f"foreign {role} {RESERVED:016x}{reserved[role]}" for role in ROLES]
    lines = [it for it in group.replay(events) if it.startswith(("payload", "rejected"))][group.handshake :]
    wanted = [f"payload {other(it.sender)} {it.payload.hex()}" for it in messages]
    assert lines == wanted + [f"rejected {role} reserved" for role in ROLES], lines
