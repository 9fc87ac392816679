"""What several tests use: key pairs without arithmetic, and Configs for a pattern."""
from __future__ import annotations

import os

from yulimosar import Config, DH, KeyPair, layout


# Noise, 7.4 and 7.5
FUNDAMENTAL = ("N", "K", "X", "NN", "NK", "NX", "XN", "XK", "XX", "KN", "KK", "KX", "IN", "IK", "IX")


class Xor:
    """A key pair whose X25519 is the xor of the public keys, as in the vector files' lines `xor`."""

    def __init__(self, public: bytes | None = None) -> None:
        self.public = public or os.urandom(32)

    def agree(self, remote: bytes) -> bytes:
        return bytes(a ^ b for a, b in zip(self.public, remote))


def with_static(pattern: str) -> tuple[bool, bool]:
    """Whether the initiator, and the responder, has a static key."""
    read = layout(pattern)
    sent = [any("s" in m.tokens for m in read.messages if m.initiator is initiator) for initiator in (True, False)]
    return "s" in read.initiator_before or sent[0], "s" in read.responder_before or sent[1]


def configs(pattern: str, toy: bool = True, **words: object) -> tuple[Config, Config]:
    """A Config for each party, each of which knows the other's key if the pattern has it."""
    draw = Xor if toy else KeyPair.generate
    keys: list[DH | None] = [draw() if has else None for has in with_static(pattern)]
    count = layout(pattern).psks
    words = {"psks": [bytes([n + 1] * 32) for n in range(count)], "prologue": b"test", **words}
    made = []
    for index, (own, other) in enumerate((keys, keys[::-1])):
        peer = {"peer_key": other.public} if other else {"accept_any_key": True}
        mine = [payload if number % 2 == index else b"" for number, payload in enumerate(words.get("payloads", ()))]
        made.append(Config(pattern=pattern, key=own, **peer, **({"ephemeral": Xor} if toy else {}),
                           **{**words, "payloads": mine[:len(layout(pattern).messages)]}))
    return made[0], made[1]
