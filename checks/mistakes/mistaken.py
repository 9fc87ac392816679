"""An implementation of its own (revision 34: 25519, ChaChaPoly, SHA256), both parties of which can make one of 67
mistakes, and the log that DEBUGGING.md asks for.

It shares nothing with the code of `noise`. A mistake is a name; "" is none. It needs python's `cryptography`.
"""

from __future__ import annotations

import hashlib
import hmac
import struct
from collections.abc import Callable, Iterator
from functools import lru_cache
from typing import NamedTuple

from cryptography.exceptions import InvalidTag
from cryptography.hazmat.primitives.asymmetric.x25519 import X25519PrivateKey, X25519PublicKey
from cryptography.hazmat.primitives.ciphers.aead import ChaCha20Poly1305
from cryptography.hazmat.primitives.serialization import Encoding, PublicFormat

TAG = 16
LAST_NONCE = 2**64 - 1

# The keys of a pattern's pre-messages, each as a role and a token, and its messages. Those of EPH are an own pattern's.
PATTERNS: dict[str, tuple[tuple[tuple[str, str], ...], tuple[str, ...]]] = {
    "NN": ((), ("e", "e ee")),
    "XX": ((), ("e", "e ee s es", "s se")),
    "IX": ((), ("e s", "e ee se s es")),
    "X": ((("responder", "s"),), ("e es s ss",)),
    "IK": ((("responder", "s"),), ("e es s ss", "e ee se")),
    "KK": ((("initiator", "s"), ("responder", "s")), ("e es ss", "e ee se")),
    "EPH": ((("responder", "e"),), ("e ee", "s es")),
}


# The lengths that mistakes hash, in front of the data or by a MixHash of their own.
LENGTHS = {
    "length-hashed": ">H",
    "length-hashed-little": "<H",
    "length-hashed-4": ">I",
    "length-hashed-4-little": "<I",
    "length-mixed": ">H",
    "length-mixed-4-little": "<I",
}


class RefusedError(Exception):
    """A message that a party refuses."""


@lru_cache(None)
def private_and_public(secret: bytes) -> tuple[X25519PrivateKey, bytes]:
    """OpenSSL takes a millisecond to read a private key."""
    private = X25519PrivateKey.from_private_bytes(secret)
    return private, private.public_key().public_bytes(Encoding.Raw, PublicFormat.Raw)


class Key:
    """A key pair."""

    def __init__(self, secret: bytes) -> None:
        self.private, self.public = private_and_public(secret)

    def agree(self, public: bytes) -> bytes:
        return self.private.exchange(X25519PublicKey.from_public_bytes(public))


class Keys(NamedTuple):
    """The keys of a role."""

    e: Key
    s: Key


def digest(data: bytes) -> bytes:
    return hashlib.sha256(data).digest()


def code(key: bytes, data: bytes) -> bytes:
    return hmac.new(key, data, hashlib.sha256).digest()


def hkdf(chaining_key: bytes, data: bytes, mistake: str) -> tuple[bytes, bytes, bytes]:
    if mistake == "hkdf-inputs-exchanged":
        chaining_key, data = data, chaining_key
    if mistake == "input-digested" and data:
        data = digest(data)
    temporary = code(chaining_key, data)
    first = 0 if mistake == "hkdf-from-zero" else 1
    outputs = [code(temporary, bytes([first]))]
    for number in (first + 1, first + 2):
        before = b"" if mistake == "hkdf-unchained" else outputs[-1]
        outputs.append(code(temporary, before + bytes([number])))
    return outputs[0], outputs[1], outputs[2]


class Cipher:
    """CipherState."""

    def __init__(self, mistake: str, key: bytes | None = None) -> None:
        self.mistake, self.key, self.n = mistake, key, 0

    def nonce(self, number: int) -> bytes:
        if self.mistake == "nonce-big-endian":
            return bytes(4) + struct.pack(">Q", number)
        if self.mistake == "nonce-in-first-bytes":
            return struct.pack("<Q", number) + bytes(4)
        return bytes(4) + struct.pack("<Q", number)

    def is_clear(self, text: bytes) -> bool:
        return self.key is None or (self.mistake == "empty-text-in-clear" and not text)

    def encrypt(self, ad: bytes, text: bytes) -> bytes:
        if self.key is None or self.is_clear(text):
            return text
        sealed = ChaCha20Poly1305(self.key).encrypt(self.nonce(self.n), text, ad)
        self.n += 1
        return sealed[-TAG:] + sealed[:-TAG] if self.mistake == "tag-in-front" else sealed

    def decrypt(self, ad: bytes, sealed: bytes) -> bytes:
        if self.key is None or self.is_clear(sealed):
            return sealed
        if self.mistake == "tag-in-front":
            sealed = sealed[TAG:] + sealed[:TAG]
        try:
            text = ChaCha20Poly1305(self.key).decrypt(self.nonce(self.n), sealed, ad)
        except (InvalidTag, ValueError) as error:
            raise RefusedError("tag") from error
        self.n += 1
        return text

    def rekey(self) -> None:
        if self.key is None:
            return
        number = self.n if self.mistake == "rekey-by-nonce" else LAST_NONCE
        sealed = ChaCha20Poly1305(self.key).encrypt(self.nonce(number), bytes(32), b"")
        self.key = sealed[-32:] if self.mistake == "rekey-last-bytes" else sealed[:32]
        if self.mistake == "rekey-sets-nonce-back":
            self.n = 0


class Session(NamedTuple):
    """What both parties start from."""

    pattern: str
    prologue: bytes
    keys: dict[str, Keys]
    psks: list[bytes]
    interval: int

    @property
    def base(self) -> str:
        return self.pattern.split("psk")[0]

    @property
    def places(self) -> list[int]:
        return [int(place) for place in self.pattern.replace("+", "").split("psk")[1:]]


class Party:
    """An end: a handshake, then a transport."""

    def __init__(self, session: Session, role: str, mistake: str, log: list[str]) -> None:
        self.session, self.role, self.mistake, self.log = session, role, mistake, log
        self.own, self.psks = session.keys[role], list(session.psks)
        self.remote: dict[str, bytes] = {}
        self.messages, self.done = self.tokens(), 0
        name = f"Noise_{session.pattern}_25519_ChaChaPoly_SHA256".encode()
        self.h = self.first_hash(name)
        self.ck = bytes(32) if mistake == "chaining-key-of-zeros" else self.h
        self.hash_before = self.h
        self.cipher = Cipher(mistake)
        self.say("start", "name")
        if mistake == "pre-message-before-prologue":
            self.mix_pre_messages()
            self.mix_prologue()
        else:
            self.mix_prologue()
            self.mix_pre_messages()

    @property
    def is_initiator(self) -> bool:
        return self.role == "initiator"

    def tokens(self) -> list[list[str]]:
        messages = [message.split() for message in PATTERNS[self.session.base][1]]
        for place in self.session.places:
            if place == 0:
                messages[0].insert(0, "psk")
            elif self.mistake == "psk-at-start":
                messages[place - 1].insert(0, "psk")
            else:
                messages[place - 1].append("psk")
        return messages

    def first_hash(self, name: bytes) -> bytes:
        if self.mistake == "name-lower-case":
            name = name.lower()
        if self.mistake == "name-hashed":
            return digest(name)
        if self.mistake == "name-padded" or len(name) <= 32:
            return name.ljust(32, b"\0")[:32]
        return digest(name)

    def say(self, part: str, name: str, data: bytes = b"") -> None:
        key = self.cipher.key.hex() if self.cipher.key else "-"
        self.log.append(
            f"trace {self.role} {part} ? {name} ? ? {data.hex() or '-'} {self.h.hex()} {self.ck.hex()} {key} "
            f"{self.cipher.n}"
        )

    def mix_hash(self, data: bytes) -> None:
        form = LENGTHS.get(self.mistake)
        front = struct.pack(form, len(data)) if form else b""
        if self.mistake.startswith("length-mixed"):
            self.h, front = digest(self.h + front), b""
        self.h = digest(self.h + front + data)

    def mix_prologue(self) -> None:
        prologue = self.session.prologue
        if self.mistake == "prologue-as-digits":
            prologue = prologue.hex().encode()
        if self.mistake != "prologue-left-out" and not (self.mistake == "empty-prologue-left-out" and not prologue):
            self.mix_hash(prologue)
        self.say("start", "prologue")

    def mix_pre_messages(self) -> None:
        for role, token in PATTERNS[self.session.base][0]:
            key: Key = getattr(self.session.keys[role], token)
            if role != self.role:
                self.remote[token] = key.public
            if self.mistake == "pre-message-of-own-key":
                self.mix_hash(self.own.s.public)
            elif self.mistake != "pre-message-left-out":
                self.mix_hash(key.public)
            if token == "e" and bool(self.session.places) != (self.mistake == "pre-message-mixed-wrongly"):
                self.mix_key(key.public)
            self.say("start", f"{role}-{token}")

    def mix_key(self, data: bytes) -> None:
        first, second, _ = hkdf(self.ck, data, self.mistake)
        if self.mistake == "outputs-exchanged":
            first, second = second, first
        self.set_keys(first, second)

    def mix_key_and_hash(self, data: bytes) -> None:
        if self.mistake == "psk-by-mix-key":
            self.mix_key(data)
            return
        first, second, third = hkdf(self.ck, data, self.mistake)
        if self.mistake == "psk-outputs-exchanged":
            second, third = third, second
        self.mix_hash(second)
        self.set_keys(first, third)

    def set_keys(self, chaining_key: bytes, key: bytes) -> None:
        if self.mistake != "chaining-key-kept":
            self.ck = chaining_key
        self.cipher.key = key
        if self.mistake != "nonce-kept":
            self.cipher.n = 1 if self.mistake == "new-key-from-one" else 0

    def hashed_bytes(self, text: bytes, sealed: bytes) -> bytes:
        if self.mistake == "plain-text-hashed":
            return text
        if self.mistake == "tag-not-hashed" and self.cipher.key:
            return sealed[:-TAG]
        return sealed

    def ad(self) -> bytes:
        if self.mistake == "chaining-key-as-data":
            return self.ck
        return b"" if self.mistake == "no-associated-data" else self.h

    def encrypt_and_hash(self, text: bytes, is_payload: bool) -> bytes:
        self.hash_before = self.h
        if self.mistake == "hashed-before-encryption":
            self.mix_hash(text)
            return self.cipher.encrypt(self.h, text)
        sealed = self.cipher.encrypt(self.ad(), text)
        if not (self.mistake == "payload-not-hashed" and is_payload):
            self.mix_hash(self.hashed_bytes(text, sealed))
        return sealed

    def decrypt_and_hash(self, sealed: bytes, is_payload: bool) -> bytes:
        self.hash_before = self.h
        if self.mistake == "hashed-before-decryption":
            self.mix_hash(sealed)
            return self.cipher.decrypt(self.h, sealed)
        text = self.cipher.decrypt(self.ad(), sealed)
        if not (self.mistake == "payload-not-hashed" and is_payload):
            self.mix_hash(self.hashed_bytes(text, sealed))
        return text

    def agree(self, token: str) -> bytes:
        if self.mistake == "es-se-exchanged" and not self.is_initiator:
            token = {"es": "se", "se": "es"}.get(token, token)
        if self.mistake == "ss-as-es" and token == "ss":
            token = "es"
        mine, theirs = (token[0], token[1]) if self.is_initiator else (token[1], token[0])
        answer: bytes = getattr(self.own, mine).agree(self.remote[theirs])
        return answer[::-1] if self.mistake == "dh-reversed" else answer

    def mix_token(self, token: str) -> None:
        if token == "psk":
            self.mix_key_and_hash(self.psks.pop(0))
        else:
            self.mix_key(self.agree(token))

    def mix_ephemeral(self, public: bytes, is_hashed: bool) -> None:
        if is_hashed:
            self.mix_hash(public)
        if self.session.places and self.mistake != "psk-ephemeral-not-mixed":
            self.mix_key(public)

    def write(self, payload: bytes) -> bytes:
        out, part, late = b"", str(self.done + 1), b""
        tokens = self.begin()
        if self.mistake == "payload-before-static" and "s" in tokens and self.cipher.key:
            late = self.encrypt_and_hash(payload, True)
            self.say(part, "payload", late)
        for token in tokens:
            data = b""
            if token == "e":
                data = self.own.e.public
                self.mix_ephemeral(data, self.mistake != "written-ephemeral-not-hashed")
            elif token == "s":
                data = self.write_static()
            else:
                self.mix_token(token)
            out += data
            self.say(part, token, data)
        if late:
            return out + late
        data = self.encrypt_and_hash(payload, True)
        self.say(part, "payload", data)
        return out + data

    def begin(self) -> list[str]:
        """The tokens of the next message, without those that a mistake forgets."""
        tokens = self.messages[self.done]
        self.done += 1
        if self.mistake == "nonce-zero-each-message":
            self.cipher.n = 0
        if self.mistake.startswith("es-forgotten"):
            return [token for token in tokens if token != "es"]
        return tokens

    def write_static(self) -> bytes:
        public = self.own.e.public if self.mistake == "ephemeral-as-static" else self.own.s.public
        if self.mistake == "static-in-clear" or (self.mistake == "tag-without-key" and self.cipher.key is None):
            data = public + (bytes(TAG) if self.mistake == "tag-without-key" else b"")
            self.mix_hash(data)
            return data
        return self.encrypt_and_hash(public, False)

    def read(self, message: bytes) -> bytes:
        part = str(self.done + 1)
        for token in self.begin():
            data = b""
            if token in ("e", "s"):
                length = 32 if token == "e" else self.static_length()
                data, message = message[:length], message[length:]
                if len(data) < length:
                    raise RefusedError("short")
                self.read_key(token, data)
            else:
                self.mix_token(token)
            self.say(part, token, data)
        payload = self.decrypt_and_hash(message, True)
        self.say(part, "payload", message)
        return payload

    def static_length(self) -> int:
        if self.mistake == "static-in-clear":
            return 32
        return 32 + (TAG if self.cipher.key or self.mistake == "tag-without-key" else 0)

    def read_key(self, token: str, data: bytes) -> None:
        if token == "e":
            self.remote["e"] = data
            hashed = self.own.e.public if self.mistake == "own-ephemeral-hashed" else data
            self.mix_ephemeral(hashed, self.mistake != "read-ephemeral-not-hashed")
        elif self.mistake == "static-in-clear" or (self.mistake == "tag-without-key" and self.cipher.key is None):
            self.remote["s"] = data[:32]
            self.mix_hash(data)
        else:
            self.remote["s"] = self.decrypt_and_hash(data, False)

    def split(self) -> None:
        data = {"split-of-hash": self.h, "split-of-zeros": bytes(32)}.get(self.mistake, b"")
        if self.mistake == "split-inputs-exchanged":
            first, second, _ = hkdf(b"", self.ck, "")
        else:
            outputs = hkdf(self.ck, data, self.mistake)
            first, second = outputs[1:] if self.mistake == "split-later" else outputs[:2]
        if self.mistake == "open-earlier-hash":
            self.h = self.hash_before
        mine, theirs = Cipher(self.mistake, first), Cipher(self.mistake, second)
        if self.mistake == "transport-from-one":
            mine.n = theirs.n = 1
        for role, cipher in (("initiator", mine), ("responder", theirs)):
            self.cipher = cipher
            self.say("open", role)
        if self.mistake == "transport-keys-exchanged":
            mine, theirs = theirs, mine
        self.sends, self.receives = (mine, theirs) if self.is_initiator else (theirs, mine)
        late = -1 if self.mistake == "rekey-one-later" else 0
        self.counts = {"sent": late, "opened": late}

    def say_transport(self, name: str, key: bytes | None, n: int) -> None:
        self.log.append(f"trace {self.role} transport ? {name} ? ? - - - {key.hex() if key else '-'} {n}")

    def transport_ad(self) -> bytes:
        return self.h if self.mistake == "transport-associated-data" else b""

    def send(self, text: bytes) -> bytes:
        key, n = self.sends.key, self.sends.n
        sealed = self.sends.encrypt(self.transport_ad(), text)
        self.after("sent", self.sends, key, n)
        return sealed

    def receive(self, sealed: bytes) -> bytes:
        key, n = self.receives.key, self.receives.n
        try:
            text = self.receives.decrypt(self.transport_ad(), sealed)
        except RefusedError:
            self.say_transport("dropped", key, n)
            raise
        self.after("opened", self.receives, key, n)
        return text

    def after(self, name: str, cipher: Cipher, key: bytes | None, n: int) -> None:
        self.say_transport(name, key, n)
        self.counts[name] += 1
        if self.mistake == "one-counter":
            self.sends.n = self.receives.n = cipher.n
        if self.session.interval and self.counts[name] and self.counts[name] % self.session.interval == 0:
            cipher.rekey()
            self.say_transport("renewed", cipher.key, cipher.n)

    def frame(self, message: bytes) -> bytes:
        if self.mistake == "length-little-endian":
            return struct.pack("<H", len(message)) + message
        extra = 2 if self.mistake == "length-counts-itself" else 0
        return struct.pack(">H", len(message) + extra) + message


class Event(NamedTuple):
    """A payload that a role sent, and its frame."""

    role: str
    payload: bytes
    frame: bytes


def run(
    session: Session, mistakes: dict[str, str], payloads: Callable[[int], bytes], transport: int
) -> tuple[list[Event], list[str]]:
    """The events of both parties until one refuses, and their log."""
    log: list[str] = []
    events: list[Event] = []
    try:
        ends = {role: Party(session, role, mistakes[role], log) for role in ("initiator", "responder")}
        for role, payload in turns(ends, payloads, transport):
            writer, reader = ends[role], ends["responder" if role == "initiator" else "initiator"]
            in_handshake = writer.done < len(writer.messages)
            message = writer.write(payload) if in_handshake else writer.send(payload)
            events.append(Event(role, payload, writer.frame(message)))
            got = reader.read(message) if in_handshake else reader.receive(message)
            if got != payload:
                return events, log
            if in_handshake and writer.done == len(writer.messages):
                writer.split()
                reader.split()
    except (RefusedError, KeyError, ValueError):
        pass
    return events, log


def turns(ends: dict[str, Party], payloads: Callable[[int], bytes], transport: int) -> Iterator[tuple[str, bytes]]:
    messages = len(ends["initiator"].messages)
    for number in range(messages):
        yield ("initiator" if number % 2 == 0 else "responder"), payloads(number)
    for number in range(transport):
        yield "initiator", payloads(messages + number)
        if messages > 1:
            yield "responder", payloads(messages + number)
