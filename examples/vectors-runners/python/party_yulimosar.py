"""The package of bindings/python, for runner.py. Copy this file, and have it call your implementation."""

from __future__ import annotations

from typing import Any

from runner import NotSupported
from yulimosar import CipherState, Config, Handshake, KeyPair, NoiseError


class Party:
    """One party. `setup` is a group of the suite; its own keys are private ones, `rs` and `re` those of the other
    party's pre-message."""

    # What your implementation raises where it refuses; anything else is reported as a crash.
    REFUSALS = (NoiseError, ValueError)

    def __init__(self, setup: dict[str, Any], role: str) -> None:
        if setup.get("what") != "name" and not setup["protocol"].endswith("_25519_ChaChaPoly_SHA256"):
            raise NotSupported("another suite")
        own, name = setup[role], setup["protocol"].removeprefix("Noise_").split("_")[0]
        keys = {letter: KeyPair.from_secret(bytes.fromhex(own[letter])) for letter in "es" if letter in own}
        if any("e" in line[3:].split(", ") for line in before(setup["pattern"])):
            raise NotSupported("ephemeral keys in pre-messages")
        text = f"{name}:\n" + "".join(f"  {line}\n" for line in setup["pattern"])
        config = Config(
            pattern=setup["protocol"] if setup.get("what") == "name" else text,
            prologue=setup["prologue"],
            psks=[bytes.fromhex(it) for it in setup["psks"]],
            key=keys.get("s"),
            peer_key=bytes.fromhex(own["rs"]) if "rs" in own else None,
            accept_any_key=True,
            ephemeral=lambda: keys["e"],
        )
        self.handshake = Handshake(config, role == "initiator")
        self.ciphers: tuple[CipherState, CipherState] | None = None

    def split(self) -> None:
        if self.handshake.done:
            self.ciphers = self.handshake.ciphers()

    def write(self, payload: bytes) -> bytes:
        if self.ciphers:
            return self.ciphers[0].encrypt_with_ad(b"", payload)
        message = self.handshake.write(payload)
        self.split()
        return message

    def read(self, message: bytes) -> bytes:
        if self.ciphers:
            return self.ciphers[1].decrypt_with_ad(b"", message)
        payload = self.handshake.read(message)
        self.split()
        return payload

    def rekey(self, direction: str) -> None:
        self.cipher(direction).rekey()

    def set_nonce(self, direction: str, nonce: int) -> None:
        self.cipher(direction).set_nonce(nonce)

    def cipher(self, direction: str) -> CipherState:
        assert self.ciphers
        return self.ciphers[direction == "receive"]

    def hash(self) -> bytes:
        return self.handshake.hash

    def remote_static(self) -> bytes | None:
        return self.handshake.peer_key

    @staticmethod
    def place(refusal: Exception) -> str | None:
        """The token at which a message was refused, if your implementation says so."""
        return getattr(refusal, "token", None)


def before(pattern: list[str]) -> list[str]:
    """The pre-messages of a pattern."""
    return pattern[: pattern.index("...")] if "..." in pattern else []
