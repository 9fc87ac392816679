#!/usr/bin/env python3
"""Writes the vector files of this folder, each with one mistake that implementations of Noise make.

    make.py FOLDER              writes the files into FOLDER
    make.py --log NAME ROLE     prints the log of a party of this role that makes the mistake NAME, in the format of
                                `trace`
    make.py --right NAME ROLE   prints the log of a party of the same role and keys that makes no mistake
    make.py --says NAME         prints a vector file of the same keys and payloads, in which both parties are right

In each file one party is a `Party` with a mistake, whose frames come by `raw`, and the other is right. The `expect`
lines are what the right `Party` writes and answers. This is an implementation of its own: it shares nothing with the
code of `noise`. It needs python's `cryptography`.
"""

from __future__ import annotations

import hashlib
import hmac
import pathlib
import sys
from functools import lru_cache
from typing import NamedTuple

from cryptography.exceptions import InvalidTag
from cryptography.hazmat.primitives.asymmetric.x25519 import X25519PrivateKey, X25519PublicKey
from cryptography.hazmat.primitives.ciphers.aead import ChaCha20Poly1305
from cryptography.hazmat.primitives.serialization import Encoding, PublicFormat

ROLES = ("initiator", "responder")
PSK = bytes(range(32))
PAYLOAD = b"hi"

# The private keys that published test vectors of Noise use.
PRIVATE = {
    ("initiator", "e"): "893e28b9dc6ca8d611ab664754b8ceb7bac5117349a4439a6b0569da977c464a",
    ("initiator", "s"): "e61ef9919cde45dd5f82166404bd08e38bceb5dfdfded0a34c8df7ed542214d1",
    ("responder", "e"): "bbdb4cdbd309f1a1f2e1456967fe288cadd6f712d65dc7b7793d5e63da6b375b",
    ("responder", "s"): "4a3acbfdb163dec651dfa3194dece676d437029c62a408b4c5ea9114246e4893",
}

# The messages of the patterns, as lists of tokens.
PATTERNS = {
    "NN": ["e", "e ee"],
    "IX": ["e s", "e ee se s es"],
    "XX": ["e", "e ee s es", "s se"],
    "NNpsk0": ["psk e", "e ee"],
    "NNpsk2": ["e", "e ee psk"],
}


class Mistake(NamedTuple):
    """A mistake's file: the pattern, who makes the mistake, the refusal by hand, and how many transport messages and
    after how many a new key."""

    pattern: str
    wrong: str
    refusal: str
    transport: int = 0
    interval: int = 0


MISTAKES = {
    "empty-prologue": Mistake("NN", "responder", "refused initiator 2 tag"),
    "name-hashed": Mistake("NN", "responder", "refused initiator 2 tag"),
    "psk-ephemeral": Mistake("NNpsk0", "initiator", "refused responder 2 tag"),
    "es-se": Mistake("IX", "responder", "refused initiator 3 tag"),
    "nonce-half": Mistake("XX", "initiator", "refused responder 0 tag"),
    "nonce-kept": Mistake("XX", "responder", "refused initiator 4 tag"),
    "third-output": Mistake("NNpsk2", "responder", "refused initiator 3 tag"),
    "old-hash": Mistake("XX", "responder", "refused initiator 4 tag"),
    "tag-unhashed": Mistake("XX", "responder", "refused initiator 4 tag"),
    "split-order": Mistake("NN", "initiator", "dropped responder tag", 1),
    "rekey-nonce": Mistake("NN", "initiator", "dropped responder tag", 3, 2),
    "length-hashed": Mistake("NN", "responder", "refused initiator 2 tag"),
    "length-counted": Mistake("NN", "initiator", "held responder 36"),
}


# Mistakes of which only logs are made: the bytes of each DH result in reverse order, HMAC with blocks of 32 bytes, and
# HKDF's first two outputs exchanged.
LOGGED = {
    "dh-reversed": Mistake("NN", "responder", ""),
    "hmac-block": Mistake("NN", "responder", ""),
    "outputs-exchanged": Mistake("NN", "responder", ""),
}


class RefusedError(Exception):
    """The token and the cause of a refusal."""


@lru_cache(None)
def private_key(role: str, letter: str) -> X25519PrivateKey:
    """A private key of the table. (OpenSSL takes a millisecond to read one.)"""
    return X25519PrivateKey.from_private_bytes(bytes.fromhex(PRIVATE[role, letter]))


@lru_cache(None)
def public_key(role: str, letter: str) -> bytes:
    """The public key to a private key of the table."""
    return private_key(role, letter).public_key().public_bytes(Encoding.Raw, PublicFormat.Raw)


def short_hmac(key: bytes, text: bytes) -> bytes:
    """HMAC with a key of 32 bytes, and blocks of 32 bytes in place of 64."""
    inner, outer = bytes(byte ^ 0x36 for byte in key), bytes(byte ^ 0x5C for byte in key)
    return hashlib.sha256(outer + hashlib.sha256(inner + text).digest()).digest()


def hkdf(chaining_key: bytes, text: bytes, count: int, mistake: str = "") -> list[bytes]:
    """HKDF of the standard (4.3)."""

    def mac(key: bytes, text: bytes) -> bytes:
        return short_hmac(key, text) if mistake == "hmac-block" else hmac.digest(key, text, "sha256")

    temporary, outputs = mac(chaining_key, text), [b""]
    for number in range(1, count + 1):
        outputs.append(mac(temporary, outputs[-1] + bytes([number])))
    return outputs[1:]


class Party:
    """One party of a session, with the name of the mistake that it makes, or none."""

    def __init__(self, role: str, pattern: str, mistake: str = "") -> None:
        self.role, self.mistake = role, mistake
        self.log: list[str] = []
        self.passed, self.step = 0, 0
        self.other = ROLES[1 - ROLES.index(role)]
        self.has_psk = "psk" in pattern
        self.remote: dict[str, bytes] = {}
        self.key, self.nonce = b"", 0
        name = f"Noise_{pattern}_25519_ChaChaPoly_SHA256".encode()
        is_padded = len(name) <= 32 and mistake != "name-hashed"
        self.hash = name.ljust(32, b"\0") if is_padded else hashlib.sha256(name).digest()
        self.chaining_key = self.hash
        self.write_log("name")
        if mistake != "empty-prologue":
            self.mix_hash(b"")
        self.write_log("prologue")

    def write_log(self, token: str, piece: bytes = b"") -> None:
        """A line of the log: the words of `trace`, and `?` for its call and for where the bytes begin."""
        state = f"{self.hash.hex()} {self.chaining_key.hex()} {self.key.hex() or '-'} {self.nonce}"
        self.log.append(
            f"trace {self.role} {self.passed or 'start'} {self.step} {token} ? ? {piece.hex() or '-'} {state}"
        )
        self.step += 1

    def mix_hash(self, text: bytes) -> None:
        """MixHash (5.2)."""
        self.hash = hashlib.sha256(self.hash + text).digest()

    def mix_key(self, text: bytes) -> None:
        """MixKey (5.2)."""
        self.chaining_key, self.key = hkdf(self.chaining_key, text, 2, self.mistake)
        if self.mistake == "outputs-exchanged":
            self.chaining_key, self.key = self.key, self.chaining_key
        if self.mistake != "nonce-kept":
            self.nonce = 0

    def mix_key_and_hash(self, text: bytes) -> None:
        """MixKeyAndHash (5.2)."""
        self.chaining_key, second, third = hkdf(self.chaining_key, text, 3, self.mistake)
        if self.mistake == "third-output":
            second, third = third, second
        self.mix_hash(second)
        self.key, self.nonce = third, 0

    def nonce_bytes(self, number: int) -> bytes:
        """The 12 bytes of a nonce (12.3)."""
        if self.mistake == "nonce-half":
            return number.to_bytes(8, "little") + bytes(4)
        return bytes(4) + number.to_bytes(8, "little")

    def encrypt(self, plaintext: bytes, associated: bytes) -> bytes:
        """EncryptAndHash (5.2), over this associated data."""
        text = plaintext
        if self.key:
            text = ChaCha20Poly1305(self.key).encrypt(self.nonce_bytes(self.nonce), plaintext, associated)
            self.nonce += 1
        self.mix_ciphertext(text, len(plaintext))
        return text

    def mix_ciphertext(self, text: bytes, length: int) -> None:
        """MixHash of a ciphertext, of which so many bytes come before its tag."""
        self.mix_hash(text[:length] if self.mistake == "tag-unhashed" else text)

    def decrypt(self, text: bytes, token: int) -> bytes:
        """DecryptAndHash (5.2), with the refusal at this token."""
        plaintext = text
        if self.key:
            try:
                plaintext = ChaCha20Poly1305(self.key).decrypt(self.nonce_bytes(self.nonce), text, self.hash)
            except InvalidTag:
                raise RefusedError(f"{token} tag") from None
            self.nonce += 1
        self.mix_ciphertext(text, len(plaintext))
        return plaintext

    def agree(self, token: str) -> None:
        """The tokens ee, es, se: the first letter is the initiator's key (7.1)."""
        own, theirs = token[0], token[1]
        if self.role == "responder" and self.mistake != "es-se":
            own, theirs = theirs, own
        result = private_key(self.role, own).exchange(X25519PublicKey.from_public_bytes(self.remote[theirs]))
        self.mix_key(result[::-1] if self.mistake == "dh-reversed" else result)

    def mix_ephemeral(self, public: bytes) -> None:
        """The token e, and its key where the pattern has a psk (9.2)."""
        self.mix_hash(public)
        if self.has_psk and self.mistake != "psk-ephemeral":
            self.mix_key(public)

    def begin(self, length: int) -> None:
        """A message begins; what the mistake with the hashed length does before it."""
        self.passed, self.step = self.passed + 1, 0
        if self.mistake == "length-hashed":
            self.mix_hash(length.to_bytes(2, "big"))

    def length_of(self, tokens: str, payload: bytes) -> int:
        """How many bytes the next message has."""
        is_keyed, length = bool(self.key), len(payload)
        for token in tokens.split():
            length += 32 if token in ("e", "s") else 0
            length += 16 if token == "s" and is_keyed else 0
            is_keyed = is_keyed or token not in ("e", "s") or (token == "e" and self.has_psk)
        return length + (16 if is_keyed else 0)

    def write(self, tokens: str, payload: bytes) -> bytes:
        """WriteMessage (5.3)."""
        before, message = self.hash, b""
        self.begin(self.length_of(tokens, payload))
        for token in tokens.split():
            piece = b""
            if token == "e":
                piece = public_key(self.role, "e")
                self.mix_ephemeral(piece)
            elif token == "s":
                piece = self.encrypt(public_key(self.role, "s"), self.hash)
            elif token == "psk":
                self.mix_key_and_hash(PSK)
            else:
                self.agree(token)
            message += piece
            self.write_log(token, piece)
        piece = self.encrypt(payload, before if self.mistake == "old-hash" else self.hash)
        self.write_log("payload", piece)
        return message + piece

    def read(self, tokens: str, message: bytes) -> bytes:
        """ReadMessage (5.3)."""
        self.begin(len(message))
        rest = message
        for number, token in enumerate(tokens.split()):
            piece = b""
            if token == "e":
                piece = rest[:32]
                self.remote["e"] = piece
                self.mix_ephemeral(piece)
            elif token == "s":
                piece = rest[: 48 if self.key else 32]
                self.remote["s"] = self.decrypt(piece, number)
            elif token == "psk":
                self.mix_key_and_hash(PSK)
            else:
                self.agree(token)
            rest = rest[len(piece) :]
            self.write_log(token, piece)
        payload = self.decrypt(rest, len(tokens.split()))
        self.write_log("payload", rest)
        return payload

    def keys(self) -> list[bytes]:
        """Split (5.2): the keys of the initiator's messages and of the responder's."""
        keys = hkdf(self.chaining_key, b"", 2)
        return keys[::-1] if self.mistake == "split-order" else keys

    def rekey(self, key: bytes) -> bytes:
        """REKEY (4.2)."""
        nonce = b"\xff" * 12 if self.mistake == "rekey-nonce" else self.nonce_bytes(2**64 - 1)
        return ChaCha20Poly1305(key).encrypt(nonce, bytes(32), b"")[:32]


def frame_of(message: bytes, mistake: str = "") -> str:
    """The frame of a message, in hex."""
    length = len(message) + (2 if mistake == "length-counted" else 0)
    return (length.to_bytes(2, "big") + message).hex()


class Run:
    """A session between the party with a mistake and the right one: the events of the file and the lines that it
    expects."""

    def __init__(self, name: str) -> None:
        self.name, self.mistake = name, MISTAKES[name]
        self.events: list[str] = []
        self.expected: list[str] = []
        self.messages = PATTERNS[self.mistake.pattern]
        self.parties = {it: Party(it, self.mistake.pattern, name if it == self.mistake.wrong else "") for it in ROLES}
        self.wrong, self.passed, self.has_ended = self.mistake.wrong, 0, False
        self.right = self.parties[self.wrong].other
        self.written = 0

    def handshake(self) -> None:
        """The handshake's messages, up to a refusal."""
        for number, tokens in enumerate(self.messages):
            writer = self.parties[ROLES[number % 2]]
            message = writer.write(tokens, PAYLOAD)
            if writer.role == self.right:
                self.events.append(f"write {self.right} {PAYLOAD.hex()}")
                self.expected.append(f"wrote {self.right} {self.written} {frame_of(message)}")
                self.written += 1
                self.parties[self.wrong].read(tokens, message)
            elif not self.comes(tokens, message):
                return
            self.passed += 1

    def comes(self, tokens: str, message: bytes) -> bool:
        """A frame of the party with the mistake comes to the right one."""
        self.events.append(f"raw {self.right} {frame_of(message, self.name)}")
        if self.name == "length-counted":
            self.expected.append(f"held {self.right} {2 + len(message)}")
            return False
        try:
            payload = self.parties[self.right].read(tokens, message)
        except RefusedError as why:
            self.expected.append(f"refused {self.right} {why}")
            self.has_ended = True
            return False
        self.expected.append(f"payload {self.right} {payload.hex()}")
        return True

    def transport(self) -> int:
        """The transport messages of the initiator, who has the mistake; gives how many are accepted."""
        sender, receiver = self.parties[self.wrong], self.parties[self.right]
        key, right_key, accepted = sender.keys()[0], receiver.keys()[0], 0
        for number in range(self.mistake.transport):
            message = ChaCha20Poly1305(key).encrypt(sender.nonce_bytes(number), PAYLOAD, b"")
            self.events.append(f"raw {self.right} {frame_of(message)}")
            try:
                payload = ChaCha20Poly1305(right_key).decrypt(receiver.nonce_bytes(accepted), message, b"")
            except InvalidTag:
                self.expected.append(f"dropped {self.right} tag")
                continue
            self.expected.append(f"payload {self.right} {payload.hex()}")
            accepted += 1
            if self.mistake.interval and accepted % self.mistake.interval == 0:
                key, right_key = sender.rekey(key), receiver.rekey(right_key)
        return accepted

    def states(self, accepted: int) -> list[str]:
        """The state lines. The party with the mistake isn't in the run, so its place in the file has done nothing."""
        state = f"handshake {self.passed}"
        if self.has_ended:
            state = "ended"
        elif self.passed == len(self.messages):
            state = f"transport 0 {accepted} {self.parties[self.right].hash.hex()}"
        return [f"state {it} {state if it == self.right else 'handshake 0'}" for it in ROLES]

    def lines(self) -> list[str]:
        """The lines of the file."""
        self.handshake()
        accepted = self.transport() if self.mistake.transport else 0
        if self.mistake.refusal != self.expected[-1]:
            raise AssertionError(f"{self.name}: {self.expected[-1]}")
        return self.head() + self.events + [f"expect {it}" for it in self.expected + self.states(accepted)]

    def head(self) -> list[str]:
        """The lines of the file before its events."""
        lines = ["vector 2", f"protocol Noise_{self.mistake.pattern}_25519_ChaChaPoly_SHA256", "prologue -"]
        lines.append(f"interval {self.mistake.interval}")
        if "psk" in self.mistake.pattern:
            lines.append(f"psk {PSK.hex()}")
        for role in ROLES:
            lines += party_lines(role)
        return lines

    def compared(self) -> list[str]:
        """The lines of a file that expects the frames of the party with the mistake. The handshake has two messages."""
        lines = self.head()
        expected: list[str] = []
        for number, tokens in enumerate(self.messages):
            writer, reader = ROLES[number % 2], ROLES[1 - number % 2]
            message = self.parties[writer].write(tokens, PAYLOAD)
            if number == 0:
                self.parties[reader].read(tokens, message)
            lines.append(f"say {writer} {PAYLOAD.hex()} -")
            expected += [f"expect wrote {writer} 0 {frame_of(message)}", f"expect payload {reader} {PAYLOAD.hex()}"]
        return lines + expected


def logged(name: str, role: str, is_right: bool = False) -> list[str]:
    """The log of a party of this role, with this mistake or without it, in a handshake with a right party that goes on
    up to a refusal."""
    pattern = (MISTAKES | LOGGED)[name].pattern
    parties = {it: Party(it, pattern, name if it == role and not is_right else "") for it in ROLES}
    for number, tokens in enumerate(PATTERNS[pattern]):
        try:
            parties[ROLES[1 - number % 2]].read(tokens, parties[ROLES[number % 2]].write(tokens, PAYLOAD))
        except RefusedError:
            break
    return parties[role].log


def says(name: str) -> list[str]:
    """The lines of a vector file with the same keys and payloads, in which each message is said."""
    pattern = (MISTAKES | LOGGED)[name].pattern
    lines = ["vector 1", f"protocol Noise_{pattern}_25519_ChaChaPoly_SHA256", "prologue -", "interval 0"]
    lines += [f"psk {PSK.hex()}"] * ("psk" in pattern)
    for role in ROLES:
        lines += party_lines(role)
    return lines + [f"say {ROLES[number % 2]} {PAYLOAD.hex()} -" for number in range(len(PATTERNS[pattern]))]


def party_lines(role: str) -> list[str]:
    """The public keys of a party, and its DH results."""
    other = ROLES[1 - ROLES.index(role)]
    lines = [f"{role} table {public_key(role, 'e').hex()} {public_key(role, 's').hex()}"]
    for own in "es":
        for theirs in "es":
            public = public_key(other, theirs)
            result = private_key(role, own).exchange(X25519PublicKey.from_public_bytes(public))
            lines.append(f"answer {own} {public.hex()} {result.hex()}")
    return lines


def main(words: list[str]) -> int:
    """The command."""
    known = len(words) > 1 and words[1] in MISTAKES | LOGGED
    if known and len(words) == 3 and words[0] in ("--log", "--right") and words[2] in ROLES:
        print("\n".join(logged(words[1], words[2], words[0] == "--right")))
        return 0
    if known and len(words) == 2 and words[0] == "--says":
        print("\n".join(says(words[1])))
        return 0
    if len(words) != 1 or words[0].startswith("-"):
        print("usage: make.py FOLDER | --log NAME ROLE | --right NAME ROLE | --says NAME", file=sys.stderr)
        return 2
    folder = pathlib.Path(words[0])
    folder.mkdir(parents=True, exist_ok=True)
    for name in MISTAKES:
        (folder / f"{name}.vector").write_text("\n".join(Run(name).lines()) + "\n", encoding="ascii")
    (folder / "compared.vector").write_text("\n".join(Run("empty-prologue").compared()) + "\n", encoding="ascii")
    return 0


if __name__ == "__main__":
    sys.exit(main(sys.argv[1:]))
