"""A group of the suite: a set-up of two parties, and their right conversation, which the command says."""

from __future__ import annotations

import hashlib
from dataclasses import dataclass, field
from typing import Any

from command import Command, Fault
from mistaken import agreement, public_of
from patterns import ROLES, Protocol

LONG = 600  # bytes of a payload or a prologue from which on it is given by a rule, and a message by its digest
TRANSPORT = (0, 1, 7, 16)
SEED = "noise 25519 ChaChaPoly SHA256, 1"


def draw(length: int, *words: Any) -> bytes:
    """Bytes of the seed and these words."""
    return hashlib.shake_256("/".join(map(str, (SEED, *words))).encode()).digest(length)


def other(role: str) -> str:
    return ROLES[1 - ROLES.index(role)]


def digits(data: bytes) -> str:
    return data.hex() or "-"


def as_json(data: bytes) -> Any:
    """Bytes as hex digits, or by a rule."""
    if len(data) < LONG:
        return data.hex()
    assert data == data[:1] * len(data), "long bytes are all the same"
    return {"byte": data[:1].hex(), "count": len(data)}


@dataclass
class Message:
    sender: str
    payload: bytes
    data: bytes = b""
    nonce: int | None = None  # of a message for a nonce that is set

    def as_json(self) -> dict[str, Any]:
        made: dict[str, Any] = {"from": self.sender, "payload": as_json(self.payload)}
        if len(self.data) < LONG:
            made["message"] = self.data.hex()
        else:
            made["message"] = {"sha256": hashlib.sha256(self.data).hexdigest(), "length": len(self.data)}
        return made


@dataclass
class Setup:
    """What one party starts from: the protocol, the prologue, the psks."""

    protocol: Protocol
    prologue: bytes
    psks: list[bytes]


@dataclass
class Group:
    """`name` is of the seed: the keys and payloads are drawn by it. `bad` are public keys in place of a party's own, by
    role and letter. After `interval` messages a direction is rekeyed."""

    command: Command
    name: str
    protocol: Protocol
    flags: list[str]
    prologue: bytes = b""
    lengths: tuple[int, ...] = (0,)  # of the handshake's payloads, repeated
    transport: tuple[int, ...] = TRANSPORT
    interval: int = 0
    also: list[str] = field(default_factory=list)  # flags of all tests of the group
    bad: dict[tuple[str, str], bytes] = field(default_factory=dict)
    byte: bytes = b""  # a payload's only byte, or none for drawn ones
    psks: list[bytes] = field(default_factory=list)
    keys: dict[str, dict[str, bytes]] = field(default_factory=dict)
    messages: list[Message] = field(default_factory=list)
    hash: str = ""
    tests: list[dict[str, Any]] = field(default_factory=list)

    def __post_init__(self) -> None:
        self.psks = self.psks or [draw(32, self.name, "psk", number) for number in range(self.protocol.psks)]
        for role in ROLES:
            if role not in self.keys:
                self.keys[role] = {it: draw(32, self.name, role, it) for it in sorted(self.protocol.own(role))}
        self.converse()

    @property
    def handshake(self) -> int:
        return len(self.protocol.messages)

    @property
    def setup(self) -> Setup:
        return Setup(self.protocol, self.prologue, self.psks)

    def public(self, role: str, letter: str) -> bytes:
        if (role, letter) in self.bad:
            return self.bad[role, letter]
        return public_of(self.keys[role][letter])

    def sender(self, number: int) -> str:
        """Parties write in turn; in a one-way pattern the initiator alone."""
        return ROLES[0] if self.protocol.is_one_way else ROLES[number % 2]

    def payload(self, number: int) -> bytes:
        index = number - self.handshake
        length = self.lengths[number % len(self.lengths)] if index < 0 else self.transport[index]
        return self.byte * length if self.byte else draw(length, self.name, "payload", number)

    def dh(self, role: str, letter: str, remote: bytes) -> bytes:
        """The DH result of a key of a party; of a party with a bad key that of the other."""
        if (role, letter) in self.bad:
            theirs = next(it for it in "es" if it in self.keys[other(role)] and self.public(other(role), it) == remote)
            return self.dh(other(role), theirs, self.bad[role, letter])
        try:
            return agreement(self.keys[role][letter], remote)
        except ValueError:
            return bytes(32)

    def head(self, setup: Setup, met: dict[str, list[bytes]]) -> str:
        """A vector file without events; `met` are further public keys that a party may meet."""
        protocol = setup.protocol
        lines = ["vector 2", f"protocol {protocol.name}"]
        if not protocol.is_fundamental:
            lines += [protocol.text + "end"]
        lines += [
            f"prologue {digits(setup.prologue)}", f"interval {self.interval}",
            *(f"psk {it.hex()}" for it in setup.psks),
        ]
        for role in ROLES:
            own = self.keys[role].keys() & protocol.own(role)
            lines.append(" ".join([role, "table", *(self.public(role, it).hex() if it in own else "-" for it in "es")]))
            theirs = [self.public(other(role), it) for it in sorted(self.keys[other(role)])] + met.get(role, [])
            pairs = [(letter, remote) for remote in dict.fromkeys(theirs) for letter in sorted(own)]
            lines += [
                f"answer {letter} {remote.hex()} {self.dh(role, letter, remote).hex()}" for letter, remote in pairs[:8]
            ]
        return "\n".join(lines) + "\n"

    def replay(
        self, events: list[str], setup: Setup | None = None, met: dict[str, list[bytes]] | None = None
    ) -> list[str]:
        return self.command.run(
            "replay", self.head(setup or self.setup, met or {}) + "".join(f"{it}\n" for it in events)
        )

    def converse(self) -> None:
        """Has the command hold the right conversation."""
        self.messages = [
            Message(self.sender(it), self.payload(it)) for it in range(self.handshake + len(self.transport))
        ]
        lines = self.replay([f"say {it.sender} {digits(it.payload)} -" for it in self.messages])
        for message, wrote, accepted in zip(self.messages, lines[::2], lines[1::2]):
            if (
                not wrote.startswith(f"wrote {message.sender} ")
                or accepted != f"payload {other(message.sender)} {digits(message.payload)}"
            ):
                raise Fault(f"{self.name}: {wrote[:200]}; {accepted[:200]}")
            message.data = bytes.fromhex(wrote.split(" ")[3])[2:]
        self.hash = lines[-1].split(" ")[5]

    def party_json(self, role: str) -> dict[str, str]:
        made = {it: key.hex() for it, key in self.keys[role].items() if (role, it) not in self.bad}
        made |= {f"r{it}": self.public(other(role), it).hex() for it in self.protocol.before(other(role))}
        return made

    def as_json(self) -> dict[str, Any]:
        more = {"interval": self.interval} if self.interval else {}
        return {
            "type": "NoiseHandshake",
            "protocol": self.protocol.name,
            "pattern": list(self.protocol.lines),
            "prologue": as_json(self.prologue),
            "psks": [it.hex() for it in self.psks],
            "initiator": self.party_json("initiator"),
            "responder": self.party_json("responder"),
            "handshakeMessages": self.handshake,
            "hash": self.hash,
            **more,
            "messages": [it.as_json() for it in self.messages],
            "tests": self.tests,
        }
