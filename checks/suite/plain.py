"""A Noise of its own, revision 34 with 25519, ChaChaPoly and SHA256, written from the standard alone.

It shares no code with `noise` nor with tools/vectors, and has to pass the whole suite: so the suite's expectations are
those of two programs. checks/suite/mutants.py changes its text in one place after another, and the suite has to see
each. For runner.py it is a party (`plain.Party`).
"""

from __future__ import annotations

import hashlib
import hmac
from copy import copy
from functools import lru_cache
from typing import Any

from cryptography.hazmat.primitives.asymmetric.x25519 import X25519PrivateKey, X25519PublicKey
from cryptography.hazmat.primitives.ciphers.aead import ChaCha20Poly1305
from cryptography.hazmat.primitives.serialization import Encoding, PublicFormat

MAX_MESSAGE = 65535  # 3
DHLEN, HASHLEN, BLOCKLEN, TAGLEN = 32, 32, 64, 16
MAX_NONCE = 2**64 - 1
ALGORITHMS = "25519_ChaChaPoly_SHA256"
PATTERNS = {  # 7.4, 7.5
    "N": "<- s | ... | -> e, es",
    "K": "-> s | <- s | ... | -> e, es, ss",
    "X": "<- s | ... | -> e, es, s, ss",
    "NN": "-> e | <- e, ee",
    "NK": "<- s | ... | -> e, es | <- e, ee",
    "NX": "-> e | <- e, ee, s, es",
    "KN": "-> s | ... | -> e | <- e, ee, se",
    "KK": "-> s | <- s | ... | -> e, es, ss | <- e, ee, se",
    "KX": "-> s | ... | -> e | <- e, ee, se, s, es",
    "XN": "-> e | <- e, ee | -> s, se",
    "XK": "<- s | ... | -> e, es | <- e, ee | -> s, se",
    "XX": "-> e | <- e, ee, s, es | -> s, se",
    "IN": "-> e, s | <- e, ee, se",
    "IK": "<- s | ... | -> e, es, s, ss | <- e, ee, se",
    "IX": "-> e, s | <- e, ee, se, s, es",
}


class Refused(Exception):
    """Why something is refused; of a message of the handshake at which token."""

    def __init__(self, why: str, token: str | None = None) -> None:
        super().__init__(why)
        self.token = token


# 4.1, 12.1: OpenSSL takes a millisecond to read a private key, and the tests have few


@lru_cache(None)
def public_key(private: bytes) -> bytes:
    key = X25519PrivateKey.from_private_bytes(private)
    return key.public_key().public_bytes(Encoding.Raw, PublicFormat.Raw)


@lru_cache(None)
def dh(private: bytes, public: bytes) -> bytes:
    try:
        return X25519PrivateKey.from_private_bytes(private).exchange(X25519PublicKey.from_public_bytes(public))
    except ValueError:
        return bytes(DHLEN)


# 4.2, 12.3


def nonce_bytes(n: int) -> bytes:
    return bytes(4) + n.to_bytes(8, "little")


def encrypt(k: bytes, n: int, ad: bytes, plaintext: bytes) -> bytes:
    return ChaCha20Poly1305(k).encrypt(nonce_bytes(n), plaintext, ad)


def decrypt(k: bytes, n: int, ad: bytes, ciphertext: bytes) -> bytes:
    if len(ciphertext) < TAGLEN:
        raise Refused("short")
    body, tag = ciphertext[:-TAGLEN], ciphertext[-TAGLEN:]
    plaintext = encrypt(k, n, ad, body)[:-TAGLEN]
    right = encrypt(k, n, ad, plaintext)[-TAGLEN:]
    if tag != right:
        raise Refused("tag")
    return plaintext


def rekeyed(k: bytes) -> bytes:
    return encrypt(k, MAX_NONCE, b"", bytes(32))[:32]


# 4.3, 12.5


def hash_of(data: bytes) -> bytes:
    return hashlib.sha256(data).digest()


def hmac_hash(key: bytes, data: bytes) -> bytes:
    return hmac.new(key, data, "sha256").digest()


def hkdf(chaining_key: bytes, input_key_material: bytes) -> tuple[bytes, bytes, bytes]:
    temp_key = hmac_hash(chaining_key, input_key_material)
    output1 = hmac_hash(temp_key, b"\x01")
    output2 = hmac_hash(temp_key, output1 + b"\x02")
    output3 = hmac_hash(temp_key, output2 + b"\x03")
    return output1, output2, output3


class CipherState:  # 5.1
    def __init__(self, k: bytes | None = None) -> None:
        self.k, self.n = k, 0

    def initialize_key(self, k: bytes) -> None:
        self.k = k
        self.n = 0

    def has_key(self) -> bool:
        return self.k is not None

    def check_nonce(self) -> None:
        if self.n == MAX_NONCE:
            raise Refused("exhausted")

    def encrypt_with_ad(self, ad: bytes, plaintext: bytes) -> bytes:
        if self.k is None:
            return plaintext
        self.check_nonce()
        ciphertext = encrypt(self.k, self.n, ad, plaintext)
        self.n += 1
        return ciphertext

    def decrypt_with_ad(self, ad: bytes, ciphertext: bytes) -> bytes:
        if self.k is None:
            return ciphertext
        self.check_nonce()
        plaintext = decrypt(self.k, self.n, ad, ciphertext)
        self.n += 1
        return plaintext

    def rekey(self) -> None:
        assert self.k is not None
        self.k = rekeyed(self.k)


class SymmetricState:  # 5.2
    def __init__(self, protocol_name: bytes) -> None:
        if len(protocol_name) <= HASHLEN:
            self.h = protocol_name.ljust(HASHLEN, b"\0")
        else:
            self.h = hash_of(protocol_name)
        self.ck = self.h
        self.cipher = CipherState()

    def mix_key(self, input_key_material: bytes) -> None:
        self.ck, temp_k, _ = hkdf(self.ck, input_key_material)
        self.cipher.initialize_key(temp_k)

    def mix_hash(self, data: bytes) -> None:
        self.h = hash_of(self.h + data)

    def mix_key_and_hash(self, input_key_material: bytes) -> None:
        self.ck, temp_h, temp_k = hkdf(self.ck, input_key_material)
        self.mix_hash(temp_h)
        self.cipher.initialize_key(temp_k)

    def encrypt_and_hash(self, plaintext: bytes) -> bytes:
        ciphertext = self.cipher.encrypt_with_ad(self.h, plaintext)
        self.mix_hash(ciphertext)
        return ciphertext

    def decrypt_and_hash(self, ciphertext: bytes) -> bytes:
        plaintext = self.cipher.decrypt_with_ad(self.h, ciphertext)
        self.mix_hash(ciphertext)
        return plaintext

    def split(self) -> tuple[CipherState, CipherState]:
        temp_k1, temp_k2, _ = hkdf(self.ck, b"")
        return CipherState(temp_k1), CipherState(temp_k2)

    def copied(self) -> SymmetricState:
        made = copy(self)
        made.cipher = copy(self.cipher)
        return made


class HandshakePattern:  # 7
    """The pre-messages of both parties, and the messages, as lists of tokens."""

    def __init__(self, lines: list[str]) -> None:
        self.before: dict[str, list[str]] = {"->": [], "<-": []}
        at = lines.index("...") if "..." in lines else 0
        for line in lines[:at]:
            arrow, tokens = line[:2], line[3:].split(", ")
            if arrow not in self.before or tokens not in (["e"], ["s"], ["e", "s"]):
                raise Refused(f"a pre-message: {line}")
            self.before[arrow] = tokens
        self.messages = [line[3:].split(", ") for line in lines[at + ("..." in lines) :]]
        arrows = [line[:2] for line in lines[at + ("..." in lines) :]]
        if not arrows or any(arrow != ("->", "<-")[number % 2] for number, arrow in enumerate(arrows)):
            raise Refused("the parties don't write in turn")
        if any(token not in ("e", "s", "ee", "es", "se", "ss", "psk") for it in self.messages for token in it):
            raise Refused("no token")

    def with_psks(self, places: list[int]) -> None:  # 9.4
        for place in places:
            if place > len(self.messages):
                raise Refused("no such message")
            if place == 0:
                self.messages[0].insert(0, "psk")
            else:
                self.messages[place - 1].append("psk")

    def psk_count(self) -> int:
        return sum(tokens.count("psk") for tokens in self.messages)

    def check(self) -> None:  # 7.3, 9.3
        sent = {"i" + it for it in self.before["->"]} | {"r" + it for it in self.before["<-"]}
        done: set[str] = set()
        for number, tokens in enumerate(self.messages):
            party = "ir"[number % 2]
            for token in tokens:
                self.check_token(party, token, sent, done)
            if done:
                self.check_encrypt(party, sent, done)
        for party in "i" if len(self.messages) == 1 else "ir":
            self.check_encrypt(party, sent, done)

    def check_token(self, party: str, token: str, sent: set[str], done: set[str]) -> None:
        if token in ("e", "s"):
            if party + token in sent:
                raise Refused(f"{token} twice")
            sent.add(party + token)
            if token == "s" and done:
                self.check_encrypt(party, sent, done)
        elif token == "psk":
            done.add(token)
        else:
            if "i" + token[0] not in sent or "r" + token[1] not in sent:
                raise Refused(f"no key for {token}")
            if token in done:
                raise Refused(f"{token} twice")
            done.add(token)

    @staticmethod
    def check_encrypt(party: str, sent: set[str], done: set[str]) -> None:
        pairs = {"i": (("se", "ee"), ("ss", "es")), "r": (("es", "ee"), ("ss", "se"))}
        for of_static, of_ephemeral in pairs[party]:
            if of_static in done and of_ephemeral not in done:
                raise Refused(f"{of_static} without {of_ephemeral}")
        if "psk" in done and party + "e" not in sent:
            raise Refused("psk without e")


def read_name(protocol_name: str) -> tuple[str, list[int]]:  # 8
    """The pattern, and the numbers of its psk modifiers."""
    parts = protocol_name.split("_")
    if len(protocol_name) > 255 or len(parts) != 5 or parts[0] != "Noise" or "_".join(parts[2:]) != ALGORITHMS:
        raise Refused("no name of this suite")
    base = "".join(it for it in parts[1].partition("psk")[0])
    if not base or not base[0].isupper() or not base.isalnum() or base != base.upper():
        raise Refused("no pattern")
    modifiers = parts[1][len(base) :].split("+") if parts[1] != base else []
    if any(it[:3] != "psk" or it[3:] not in list("0123456789") for it in modifiers):
        raise Refused("no modifier")
    if modifiers != sorted(set(modifiers)):
        raise Refused("the order of modifiers")
    return base, [int(it[3:]) for it in modifiers]


def pattern_of(protocol_name: str, lines: list[str] | None) -> HandshakePattern:
    """The pattern of a name; with lines that of these, which have to be what the name says."""
    base, places = read_name(protocol_name)
    if lines is None:
        if base not in PATTERNS:
            raise Refused("no such pattern")
        pattern = HandshakePattern(PATTERNS[base].split(" | "))
        pattern.with_psks(places)
        return pattern
    pattern = HandshakePattern(lines)
    plain = HandshakePattern([", ".join(it for it in line.split(", ") if it != "psk") for line in unled(lines)])
    plain.with_psks(places)
    if plain.messages != pattern.messages:
        raise Refused("the psks of the name")
    pattern.check()
    return pattern


def unled(lines: list[str]) -> list[str]:
    """The lines, without a psk that comes first."""
    return [line[:3] + line[3:].removeprefix("psk, ") for line in lines]


class HandshakeState:  # 5.3
    def __init__(
        self, protocol_name: str, pattern: HandshakePattern, initiator: bool, prologue: bytes, keys: dict[str, bytes],
        psks: list[bytes],
    ) -> None:
        self.pattern, self.initiator, self.keys, self.psks = pattern, initiator, dict(keys), list(psks)
        self.check_keys()
        self.public = {it: public_key(keys[it]) for it in ("e", "s") if it in keys}
        self.symmetric = SymmetricState(protocol_name.encode())
        self.symmetric.mix_hash(prologue)
        for arrow in ("->", "<-"):
            for token in pattern.before[arrow]:
                own = (arrow == "->") == initiator
                key = self.public[token] if own else keys["r" + token]
                self.symmetric.mix_hash(key)
                if token == "e" and pattern.psk_count():
                    self.symmetric.mix_key(key)
        self.at = 0
        self.ended = False
        self.ciphers: tuple[CipherState, CipherState] | None = None

    def check_keys(self) -> None:
        own, theirs = ("->", "<-") if self.initiator else ("<-", "->")
        first = 0 if self.initiator else 1
        sent = {it for tokens in self.pattern.messages[first::2] for it in tokens if it in ("e", "s")}
        needed = sent | {*self.pattern.before[own]} | {"r" + it for it in self.pattern.before[theirs]}
        if not needed <= self.keys.keys() or len(self.psks) != self.pattern.psk_count():
            raise Refused("a key is missing, or psks are too few or too many")
        if any(len(it) != DHLEN for it in (*self.keys.values(), *self.psks)):
            raise Refused("a key of another length")

    def check_turn(self, is_write: bool) -> None:
        if self.ended:
            raise Refused("ended")
        if (self.at % 2 == 0) == (self.initiator != is_write):
            raise Refused("turn")

    def dh_of(self, token: str) -> bytes:
        if token == "ee":
            return dh(self.keys["e"], self.keys["re"])
        if token == "es":
            pair = ("e", "rs") if self.initiator else ("s", "re")
        elif token == "se":
            pair = ("s", "re") if self.initiator else ("e", "rs")
        else:
            pair = ("s", "rs")
        return dh(self.keys[pair[0]], self.keys[pair[1]])

    def mix(self, symmetric: SymmetricState, token: str) -> None:
        if token == "psk":
            symmetric.mix_key_and_hash(self.psks.pop(0))
        else:
            symmetric.mix_key(self.dh_of(token))

    def write_message(self, payload: bytes) -> bytes:
        self.check_turn(True)
        symmetric, psks = self.symmetric.copied(), list(self.psks)
        message = b""
        for token in self.pattern.messages[self.at]:
            if token == "e":
                message += self.public["e"]
                symmetric.mix_hash(self.public["e"])
                if self.pattern.psk_count():
                    symmetric.mix_key(self.public["e"])
            elif token == "s":
                message += symmetric.encrypt_and_hash(self.public["s"])
            else:
                self.mix(symmetric, token)
        message += symmetric.encrypt_and_hash(payload)
        if len(message) > MAX_MESSAGE:
            self.psks = psks
            raise Refused("too-long")
        self.passed(symmetric)
        return message

    def read_message(self, message: bytes) -> bytes:
        self.check_turn(False)
        symmetric, token = self.symmetric.copied(), ""
        try:
            if len(message) > MAX_MESSAGE:
                raise Refused("too-long")
            for token in self.pattern.messages[self.at]:
                message = self.read_token(symmetric, token, message)
            token = "payload"
            payload = symmetric.decrypt_and_hash(message)
        except Refused as refused:
            self.ended = True
            raise Refused(str(refused), token or None) from None
        self.passed(symmetric)
        return payload

    def read_token(self, symmetric: SymmetricState, token: str, message: bytes) -> bytes:
        """Reads a token, and returns what comes after it."""
        if token not in ("e", "s"):
            self.mix(symmetric, token)
            return message
        length = DHLEN + TAGLEN if token == "s" and symmetric.cipher.has_key() else DHLEN
        if len(message) < length:
            raise Refused("short")
        temp, message = message[:length], message[length:]
        if token == "e":
            self.keys["re"] = temp
            symmetric.mix_hash(temp)
            if self.pattern.psk_count():
                symmetric.mix_key(temp)
        else:
            self.keys["rs"] = symmetric.decrypt_and_hash(temp)
        return message

    def passed(self, symmetric: SymmetricState) -> None:
        self.symmetric = symmetric
        self.at += 1
        if self.at == len(self.pattern.messages):
            self.ciphers = symmetric.split()


class Party:
    """A party, as runner.py drives it."""

    REFUSALS = (Refused,)

    def __init__(self, setup: dict[str, Any], role: str) -> None:
        own, self.initiator = setup[role], role == "initiator"
        pattern = pattern_of(setup["protocol"], None if setup.get("what") == "name" else setup["pattern"])
        keys = {it: bytes.fromhex(own[it]) for it in own}
        psks = [bytes.fromhex(it) for it in setup["psks"]]
        self.state = HandshakeState(setup["protocol"], pattern, self.initiator, setup["prologue"], keys, psks)

    def cipher(self, direction: str) -> CipherState:
        assert self.state.ciphers
        return self.state.ciphers[(direction == "send") != self.initiator]

    def check_one_way(self, by_initiator: bool) -> None:
        if len(self.state.pattern.messages) == 1 and not by_initiator:
            raise Refused("one-way")

    def write(self, payload: bytes) -> bytes:
        if not self.state.ciphers:
            return self.state.write_message(payload)
        self.check_one_way(self.initiator)
        if len(payload) + TAGLEN > MAX_MESSAGE:
            raise Refused("too-long")
        return self.cipher("send").encrypt_with_ad(b"", payload)

    def read(self, message: bytes) -> bytes:
        if not self.state.ciphers:
            return self.state.read_message(message)
        self.check_one_way(not self.initiator)
        if len(message) > MAX_MESSAGE:
            raise Refused("too-long")
        return self.cipher("receive").decrypt_with_ad(b"", message)

    def rekey(self, direction: str) -> None:
        self.cipher(direction).rekey()

    def set_nonce(self, direction: str, nonce: int) -> None:
        self.cipher(direction).n = nonce

    def hash(self) -> bytes:
        return self.state.symmetric.h

    def remote_static(self) -> bytes | None:
        return self.state.keys.get("rs")

    @staticmethod
    def place(refusal: Refused) -> str | None:
        return refusal.token

    # 13

    @staticmethod
    def frame(message: bytes) -> bytes:
        return len(message).to_bytes(2, "big") + message

    @staticmethod
    def unframe(data: bytes) -> bytes | None:
        if len(data) < 2:
            return None
        length = int.from_bytes(data[:2], "big")
        if len(data) < 2 + length:
            return None
        return data[2 : 2 + length]
