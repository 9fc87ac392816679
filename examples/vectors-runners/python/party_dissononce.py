"""dissononce, for runner.py: its `GuardedHandshakeState`, which checks whose turn it is."""

from __future__ import annotations

import logging
from functools import lru_cache
from typing import Any

from dissononce.cipher.aesgcm import AESGCMCipher
from dissononce.cipher.chachapoly import ChaChaPolyCipher
from dissononce.dh.x25519.private import PrivateKey
from dissononce.dh.x25519.public import PublicKey
from dissononce.dh.x25519.x25519 import X25519DH
from dissononce.exceptions.decrypt import DecryptFailedException
from dissononce.extras.dh.dangerous.dh_nogen import NoGenDH
from dissononce.extras.meta.protocol.factory import NoiseProtocolFactory
from dissononce.extras.processing.handshakestate_guarded import GuardedHandshakeState
from dissononce.hash.blake2s import Blake2sHash
from dissononce.hash.sha256 import SHA256Hash
from dissononce.processing.handshakepatterns.handshakepattern import HandshakePattern
from dissononce.processing.impl.cipherstate import CipherState
from dissononce.processing.impl.handshakestate import HandshakeState
from dissononce.processing.impl.symmetricstate import SymmetricState
from runner import NotSupported

logging.disable(logging.CRITICAL)


@lru_cache(None)
def key_pair(secret: bytes) -> Any:
    return X25519DH().generate_keypair(PrivateKey(secret))


@lru_cache(None)
def agreement(secret: bytes, public: bytes) -> bytes:
    return X25519DH().dh(key_pair(secret), PublicKey(public))


class KeptDH(X25519DH):
    """dissononce's DH, of which each result is computed once: OpenSSL takes a millisecond to read a private key."""

    def dh(self, keypair: Any, publickey: PublicKey) -> bytes:
        return agreement(keypair.private.data, publickey.data)

    def generate_keypair(self, privatekey: PrivateKey | None = None) -> Any:
        return key_pair(privatekey.data) if privatekey else super().generate_keypair()


def pattern_of(setup: dict[str, Any]) -> HandshakePattern:
    lines = setup["pattern"]
    at = lines.index("...") if "..." in lines else 0
    before = {line[:2]: tuple(line[3:].split(", ")) for line in lines[:at]}
    messages = tuple(tuple(line[3:].split(", ")) for line in lines[at + bool(at) :])
    return HandshakePattern(setup["protocol"].split("_")[1], messages, before.get("->"), before.get("<-"))


def suite_of(protocol: str) -> tuple[Any, Any]:
    """The cipher and the hash of a protocol name."""
    parts = protocol.split("_")
    cipher = {"ChaChaPoly": ChaChaPolyCipher, "AESGCM": AESGCMCipher}.get(parts[-2], ChaChaPolyCipher)
    digest = {"SHA256": SHA256Hash, "BLAKE2s": Blake2sHash}.get(parts[-1], SHA256Hash)
    return cipher(), digest()


def named(protocol: str) -> HandshakePattern:
    """The pattern of a protocol name, as dissononce reads it."""
    found = NoiseProtocolFactory().get_noise_protocol(protocol)
    return found.pattern


class Party:
    """One party. What dissononce raises where it refuses: its own exception of a tag, and Python's of values and of the
    order of calls."""

    REFUSALS = (DecryptFailedException, ValueError, AssertionError)

    def __init__(self, setup: dict[str, Any], role: str) -> None:
        own, self.is_initiator = setup[role], role == "initiator"
        if setup.get("what") == "pattern":
            raise NotSupported("patterns aren't checked")
        pattern = named(setup["protocol"]) if setup.get("what") == "name" else pattern_of(setup)
        dh = NoGenDH(KeptDH(), PrivateKey(bytes.fromhex(own["e"]))) if "e" in own else KeptDH()
        cipher, digest = suite_of(setup["protocol"])
        self.inner = HandshakeState(SymmetricState(CipherState(cipher), digest), dh)
        self.handshake = GuardedHandshakeState(self.inner)
        mine = pattern.initiator_pre_message_pattern if self.is_initiator else pattern.responder_pre_message_pattern
        self.handshake.initialize(
            pattern,
            self.is_initiator,
            setup["prologue"],
            s=key_pair(bytes.fromhex(own["s"])) if "s" in own else None,
            e=key_pair(bytes.fromhex(own["e"])) if "e" in mine else None,
            rs=PublicKey(bytes.fromhex(own["rs"])) if "rs" in own else None,
            re=PublicKey(bytes.fromhex(own["re"])) if "re" in own else None,
            psks=[bytes.fromhex(it) for it in setup["psks"]] or None,
        )
        self.is_one_way = len(pattern.message_patterns) == 1
        self.ciphers: Any = None

    def split(self, ciphers: Any) -> None:
        if ciphers:
            self.ciphers = ciphers if self.is_initiator else ciphers[::-1]

    def cipher(self, direction: str) -> CipherState:
        if self.is_one_way and self.is_initiator == (direction == "receive"):
            raise NotSupported("the second cipher state of a one-way pattern is the caller's to discard")
        return self.ciphers[direction == "receive"]

    def write(self, payload: bytes) -> bytes:
        if self.ciphers:
            return self.cipher("send").encrypt_with_ad(b"", payload)
        message = bytearray()
        self.split(self.handshake.write_message(payload, message))
        return bytes(message)

    def read(self, message: bytes) -> bytes:
        if self.ciphers:
            return self.cipher("receive").decrypt_with_ad(b"", message)
        payload = bytearray()
        self.split(self.handshake.read_message(message, payload))
        return bytes(payload)

    def rekey(self, direction: str) -> None:
        self.cipher(direction).rekey()

    def set_nonce(self, direction: str, nonce: int) -> None:
        self.cipher(direction).set_nonce(nonce)

    def hash(self) -> bytes:
        return self.inner.symmetricstate.get_handshake_hash()

    def remote_static(self) -> bytes | None:
        return self.inner.rs and self.inner.rs.data

    @staticmethod
    def place(_: Exception) -> str | None:
        return None
