"""An implementation of its own, revision 34 with 25519, ChaChaPoly and SHA256, that makes one of the mistakes below, or
none.

It shares nothing with the code of `noise`. The suite takes of it only messages that a right party has to refuse; what
is right comes from the command. A `Party` is driven as the runners of examples/vectors-runners drive any Noise.
"""

from __future__ import annotations

import hashlib
import hmac
from functools import lru_cache

from cryptography.exceptions import InvalidTag
from cryptography.hazmat.primitives.asymmetric.x25519 import X25519PrivateKey, X25519PublicKey
from cryptography.hazmat.primitives.ciphers.aead import ChaCha20Poly1305
from cryptography.hazmat.primitives.serialization import Encoding, PublicFormat

ROLES = ("initiator", "responder")
RESERVED = 2**64 - 1
LONGEST = 65535

# Each mistake, with what it is and the section of the standard that says otherwise. Its name is the flag of the cases
# that are for it.
MISTAKES = {
    "NonceBigEndian": ("The nonce is 4 zero bytes and 8 big-endian bytes, in place of little-endian ones.", "12.3"),
    "NonceInFirstBytes": ("The nonce's 8 bytes come before the 4 zero bytes.", "12.3"),
    "EmptyPrologueOmitted": ("MixHash isn't called for an empty prologue.", "5.3"),
    "PrologueOmitted": ("MixHash isn't called for the prologue.", "5.3"),
    "HkdfInputsSwapped": ("The chaining key is HKDF's input key material, and the DH result its key.", "4.3"),
    "PskFirst": ("The psk token of pskN comes first in message N, in place of last.", "9.4"),
    "PayloadNotHashed": ("MixHash isn't called for a message's payload.", "5.2"),
    "PlaintextHashed": ("The plaintext is hashed, in place of the ciphertext.", "5.2"),
    "SplitSwapped": ("The first key of Split is for what the responder sends.", "5.2"),
    "PskOutputsSwapped": ("The second output of MixKeyAndHash is the key, and the third is hashed.", "5.2"),
    "PskNotMixedAtE": ("With a psk, MixKey isn't called for an ephemeral key.", "9.2"),
    "TagOnClearKey": ("A static key in the clear is followed by 16 zero bytes.", "5.2"),
    "HashBeforeDecrypt": ("DecryptAndHash hashes before it decrypts.", "5.2"),
    "FrameCountsItself": ("The length in front of a message counts its own 2 bytes.", "13"),
    "FrameLittleEndian": ("The length in front of a message is little-endian.", "13"),
    "NonceResetAtRekey": ("Rekey sets the nonce to 0.", "5.1"),
    "NonceKeptAtMixKey": ("A new key doesn't set the nonce to 0.", "5.1"),
    "NameHashed": ("A protocol name of 32 bytes or less is hashed, in place of padded.", "5.2"),
    "LongNameCut": ("A protocol name of more than 32 bytes is cut, in place of hashed.", "5.2"),
    "PreMessageOmitted": ("MixHash isn't called for the public keys of pre-messages.", "5.3"),
    "PreMessageBeforePrologue": ("The public keys of pre-messages are mixed before the prologue.", "5.3"),
    "EsSeSwapped": ("The responder computes `se` for `es`, and `es` for `se`.", "5.3"),
    "HkdfOutputsUnchained": ("The second and third output of HKDF don't depend on the output before.", "4.3"),
    "SsTakenForEs": ("`es` is computed for `ss`.", "5.3"),
    "EphemeralNotHashedOnWrite": ("MixHash isn't called for an ephemeral key that is written.", "5.3"),
    "EphemeralNotHashedOnRead": ("MixHash isn't called for an ephemeral key that is read.", "5.3"),
    "DhReversed": ("The bytes of a DH result are reversed.", "12.1"),
    "HashNotAuthenticated": ("The handshake hash isn't the associated data.", "5.2"),
    "ChainingKeyKept": ("MixKey doesn't replace the chaining key.", "5.2"),
    "HashInTransport": ("The handshake hash is the associated data of transport messages.", "5.3"),
    "TransportNonceFromOne": ("The nonces of transport messages begin at 1.", "5.1"),
    "PskAsMixKey": ("MixKey is called for a psk, in place of MixKeyAndHash.", "9.2"),
    "EmptyTextNotEncrypted": ("An empty payload isn't encrypted.", "5.2"),
    "RekeyAtCurrentNonce": ("Rekey encrypts at the current nonce, in place of 2^64 - 1.", "4.2"),
    "RekeyLastBytes": ("Rekey takes the last 32 bytes, in place of the first.", "4.2"),
    "RekeyOmitted": ("Rekey does nothing.", "11.3"),
    "NameLowerCase": ("The protocol name is in lower case.", "8"),
    "ChainingKeyZero": ("The chaining key is zeros at the start, in place of h.", "5.2"),
    "HkdfCounterFromZero": ("The outputs of HKDF are numbered from 0.", "4.3"),
    "MixKeyOutputsSwapped": ("The first output of MixKey is the key, and the second the chaining key.", "5.2"),
    "TagNotHashed": ("Encrypted texts are hashed without their tags.", "5.2"),
    "StaticInClear": ("Static keys are never encrypted.", "5.3"),
    "SplitWithHash": ("Split calls HKDF with the handshake hash, in place of no bytes.", "5.2"),
    "TagNotChecked": ("A wrong tag isn't noticed.", "5.1"),
    "TagCutTaken": ("Of a tag only the first 8 bytes are compared.", "5.1"),
    "NonceRisesAtRefusal": ("A transport message that is refused counts.", "5.1"),
    "ReservedNonceUsed": ("A message is encrypted at the nonce 2^64 - 1.", "5.1"),
    "HandshakeGoesOn": ("A refused message doesn't end the handshake.", "5"),
    "LongMessageTaken": ("Messages of more than 65535 bytes are written and read.", "3"),
    "TurnNotChecked": ("A party reads, or writes, when it is its turn to do the other.", "5.3"),
    "ReservedNonceRead": ("A message is decrypted at the nonce 2^64 - 1.", "5.1"),
    "NonceWraps": ("After a refusal at the nonce 2^64 - 1 the nonce is 0.", "5.1"),
    "RekeyAtZeroOmitted": ("Rekey does nothing before the first message.", "11.3"),
    "HashMoves": ("The handshake hash changes with transport messages.", "11.2"),
    "RemoteKeyWrong": ("The other party's static key is taken for another key.", "5.3"),
}


# For each flag of a kind of cases a mistake that fails all of its tests: of these, or of MISTAKES. Those that aren't
# named here are right conversations, which any mistake in the name fails.
BREAKS = {
    "EphemeralInPreMessage": "PreMessageOmitted", "EphemeralInPreMessageWithPsk": "PskNotMixedAtE",
    "LongName": "LongNameCut", "EmptyPrologue": "EmptyPrologueOmitted", "Prologue": "PrologueOmitted",
    "LongPrologue": "PrologueOmitted", "HighNonce": "NonceBigEndian", "LowOrderKey": "BadKeyCrash",
    "NonCanonicalKey": "BadKeyCrash", "RightAfterRefused": "HandshakeGoesOn", "WriteOutOfTurn": "TurnNotChecked",
    "ReadOutOfTurn": "TurnNotChecked", "OneWayAnswer": "TurnNotChecked", "Frame": "FrameLittleEndian",
    "FrameCut": "FrameNotWaited",
} | {
    flag: "NothingRefused"
    for flag in (
        "MessageCut", "ByteAppended", "TagChanged", "TagEndChanged", "EncryptedKeyChanged", "PayloadChanged",
        "ClearKeyChanged", "ClearPayloadChanged", "Reflected", "Repeated", "OutOfOrder", "WrongPrologue", "WrongPsk",
        "WrongPattern", "TransportCut", "TransportChanged", "TransportByteAppended", "TransportReordered",
        "TransportRepeated", "TransportLost", "TransportReflected", "HandshakeInTransport", "NameTaken",
        "ModifierTaken", "PatternTaken", "KeyMissing", "KeyLengthTaken", "PskMissing",
    )
}  # fmt: skip


class Refused(Exception):
    """The message, or the call, is refused."""


@lru_cache(None)
def private_key(private: bytes) -> X25519PrivateKey:
    """OpenSSL takes a millisecond to read a private key, and the tests have few."""
    return X25519PrivateKey.from_private_bytes(private)


@lru_cache(None)
def public_of(private: bytes) -> bytes:
    return private_key(private).public_key().public_bytes(Encoding.Raw, PublicFormat.Raw)


@lru_cache(None)
def agreement(private: bytes, public: bytes) -> bytes:
    return private_key(private).exchange(X25519PublicKey.from_public_bytes(public))


def agreement_of(private: bytes | None, public: bytes | None) -> bytes:
    """What an implementation computes that doesn't look whether it has the keys."""
    try:
        return agreement(private or b"\1" * 32, public or b"\x09".ljust(32, b"\0"))
    except ValueError:
        return bytes(32)


def check_canonical(public: bytes) -> None:
    if int.from_bytes(public, "little") >= 2**255 - 19:
        raise ValueError("not the least number of its point")


def mac(key: bytes, text: bytes) -> bytes:
    return hmac.digest(key, text, "sha256")


class Cipher:
    """The CipherState (5.1)."""

    def __init__(self, mistake: str, key: bytes | None = None) -> None:
        self.mistake, self.key, self.nonce = mistake, key, 0

    def bytes_of(self, nonce: int) -> bytes:
        if self.mistake == "NonceBigEndian":
            return bytes(4) + nonce.to_bytes(8, "big")
        if self.mistake == "NonceInFirstBytes":
            return nonce.to_bytes(8, "little") + bytes(4)
        return bytes(4) + nonce.to_bytes(8, "little")

    def check(self, length: int, is_write: bool) -> None:
        is_used = self.mistake in ("ReservedNonceUsed" if is_write else "ReservedNonceRead", "NothingRefused")
        if self.nonce >= RESERVED and not (is_used and self.nonce == RESERVED):
            if self.mistake == "NonceWraps":
                self.nonce = 0
            raise Refused("exhausted")
        if length > LONGEST and self.mistake not in ("LongMessageTaken", "NothingRefused"):
            raise Refused("too-long")

    def encrypt(self, data: bytes, text: bytes) -> bytes:
        if self.key is None or self.mistake == "EmptyTextNotEncrypted" and not text:
            return text
        self.check(len(text) + 16, True)
        sealed = ChaCha20Poly1305(self.key).encrypt(self.bytes_of(self.nonce), text, data)
        self.nonce += 1
        return sealed

    def decrypt(self, data: bytes, sealed: bytes) -> bytes:
        if self.key is None or self.mistake == "EmptyTextNotEncrypted" and not sealed:
            return sealed
        self.check(len(sealed), False)
        text = self.opened(data, sealed)
        self.nonce += 1
        return text

    def opened(self, data: bytes, sealed: bytes) -> bytes:
        assert self.key is not None
        cipher, nonce = ChaCha20Poly1305(self.key), self.bytes_of(self.nonce)
        if self.mistake == "NothingRefused":
            sealed = sealed.ljust(16, b"\0")
        if self.mistake in ("TagNotChecked", "TagCutTaken", "NothingRefused") and len(sealed) >= 16:
            text = cipher.encrypt(nonce, sealed[:-16], data)[:-16]
            right = cipher.encrypt(nonce, text, data)
            if self.mistake != "TagCutTaken" or right[:-8] == sealed[:-8]:
                return text
        try:
            return cipher.decrypt(nonce, sealed, data)
        except (InvalidTag, ValueError):
            if self.mistake == "NonceRisesAtRefusal":
                self.nonce += 1
            raise Refused("tag" if len(sealed) >= 16 else "short") from None

    def rekey(self) -> None:
        assert self.key is not None
        if self.mistake == "RekeyOmitted" or self.mistake == "RekeyAtZeroOmitted" and self.nonce == 0:
            return
        nonce = self.nonce if self.mistake == "RekeyAtCurrentNonce" else RESERVED
        made = ChaCha20Poly1305(self.key).encrypt(self.bytes_of(nonce), bytes(32), b"")
        self.key = made[-32:] if self.mistake == "RekeyLastBytes" else made[:32]
        if self.mistake == "NonceResetAtRekey":
            self.nonce = 0


class Symmetric:
    """The SymmetricState (5.2)."""

    def __init__(self, name: bytes, mistake: str) -> None:
        self.mistake = mistake
        if mistake == "NameLowerCase":
            name = name.lower()
        if mistake == "LongNameCut":
            name = name[:32]
        is_short = len(name) <= 32 and mistake != "NameHashed"
        self.h = name.ljust(32, b"\0") if is_short else hashlib.sha256(name).digest()
        self.ck = bytes(32) if mistake == "ChainingKeyZero" else self.h
        self.cipher = Cipher(mistake)

    def hkdf(self, text: bytes, count: int) -> list[bytes]:
        temporary = mac(text, self.ck) if self.mistake == "HkdfInputsSwapped" else mac(self.ck, text)
        outputs, first = [b""], 0 if self.mistake == "HkdfCounterFromZero" else 1
        for number in range(first, first + count):
            before = b"" if self.mistake == "HkdfOutputsUnchained" else outputs[-1]
            outputs.append(mac(temporary, before + bytes([number])))
        return outputs[1:]

    def mix_hash(self, text: bytes) -> None:
        self.h = hashlib.sha256(self.h + text).digest()

    def set_key(self, key: bytes) -> None:
        self.cipher.key = key
        if self.mistake != "NonceKeptAtMixKey":
            self.cipher.nonce = 0

    def mix_key(self, text: bytes) -> None:
        ck, key = self.hkdf(text, 2)
        if self.mistake == "MixKeyOutputsSwapped":
            ck, key = key, ck
        if self.mistake != "ChainingKeyKept":
            self.ck = ck
        self.set_key(key)

    def mix_key_and_hash(self, text: bytes) -> None:
        if self.mistake == "PskAsMixKey":
            return self.mix_key(text)
        self.ck, second, third = self.hkdf(text, 3)
        if self.mistake == "PskOutputsSwapped":
            second, third = third, second
        self.mix_hash(second)
        return self.set_key(third)

    def data(self) -> bytes:
        return b"" if self.mistake == "HashNotAuthenticated" else self.h

    def hash_sealed(self, text: bytes, sealed: bytes, is_payload: bool) -> None:
        if self.mistake == "PayloadNotHashed" and is_payload:
            return
        if self.mistake == "PlaintextHashed":
            sealed = text
        if self.mistake == "TagNotHashed" and self.cipher.key and len(sealed) >= 16:
            sealed = sealed[:-16]
        self.mix_hash(sealed)

    def encrypt_and_hash(self, text: bytes, is_payload: bool = False) -> bytes:
        sealed = self.cipher.encrypt(self.data(), text)
        self.hash_sealed(text, sealed, is_payload)
        return sealed

    def decrypt_and_hash(self, sealed: bytes, is_payload: bool = False) -> bytes:
        if self.mistake == "HashBeforeDecrypt":
            self.mix_hash(sealed)
            return self.cipher.decrypt(self.h, sealed)
        text = self.cipher.decrypt(self.data(), sealed)
        self.hash_sealed(text, sealed, is_payload)
        return text


def tokens_of(protocol: str, pattern: list[str], mistake: str) -> tuple[dict[str, list[str]], list[list[str]]]:
    """The pre-messages by role, and the tokens of the messages."""
    at = pattern.index("...") if "..." in pattern else 0
    before: dict[str, list[str]] = {role: [] for role in ROLES}
    for line in pattern[:at]:
        before[ROLES[line.startswith("<-")]] = line[3:].split(", ")
    messages = [line[3:].split(", ") for line in pattern[at + bool(at) :]]
    if mistake == "PskFirst":
        messages = [sorted(tokens, key=lambda token: token != "psk") for tokens in messages]
    return before, messages


class Party:
    """The HandshakeState (5.3), and afterwards both CipherStates. `setup` is a group of the suite; a mistake is one of
    MISTAKES, or empty."""

    def __init__(self, setup: dict, role: str, mistake: str = "") -> None:
        own, self.role, self.mistake = setup[role], role, mistake
        self.keys = {letter: bytes.fromhex(own[letter]) for letter in "es" if letter in own}
        self.remote = {letter: bytes.fromhex(own["r" + letter]) for letter in "es" if "r" + letter in own}
        self.psks = [bytes.fromhex(it) for it in setup["psks"]]
        self.before, self.messages = tokens_of(setup["protocol"], setup["pattern"], mistake)
        self.symmetric = Symmetric(setup["protocol"].encode(), mistake)
        self.at, self.ended = 0, False
        self.log: list[str] = []  # the key schedule, as `noise compare` reads it
        self.note("start", "name", b"")
        self.ciphers: dict[str, Cipher] = {}
        first, second = lambda: self.mix_prologue(setup["prologue"]), self.mix_before
        for step in (second, first) if mistake == "PreMessageBeforePrologue" else (first, second):
            step()

    def note(self, part: str, name: str, data: bytes) -> None:
        """Logs the state after a step."""
        state = self.symmetric
        words = [
            data.hex() or "-", state.h.hex(), state.ck.hex(), state.cipher.key.hex() if state.cipher.key else "-",
            str(state.cipher.nonce),
        ]
        self.log.append(" ".join(["trace", self.role, part, "?", name, "? ?", *words]))

    def mix_prologue(self, prologue: bytes) -> None:
        is_left_out = self.mistake == "PrologueOmitted" or self.mistake == "EmptyPrologueOmitted" and not prologue
        if not is_left_out:
            self.symmetric.mix_hash(prologue)
        self.note("start", "prologue", b"")

    def mix_before(self) -> None:
        for role in ROLES:
            for letter in self.before[role]:
                key = public_of(self.keys[letter]) if role == self.role else self.remote[letter]
                if self.mistake != "PreMessageOmitted":
                    self.symmetric.mix_hash(key)
                if letter == "e" and self.has_psk() and self.mistake != "PskNotMixedAtE":
                    self.symmetric.mix_key(key)
                self.note("start", f"{role}-{letter}", b"")

    def has_psk(self) -> bool:
        return any("psk" in tokens for tokens in self.messages)

    def dh(self, token: str) -> bytes:
        if self.mistake == "EsSeSwapped" and self.role == "responder":
            token = {"es": "se", "se": "es"}.get(token, token)
        if self.mistake == "SsTakenForEs" and token == "ss":
            token = "es"
        own, other = token if self.role == "initiator" else token[::-1]
        if self.mistake == "BadKeyCrash":
            check_canonical(self.remote[other])
        if self.mistake in ("NothingRefused", "TurnNotChecked"):
            return agreement_of(self.keys.get(own), self.remote.get(other))
        try:
            result = agreement(self.keys[own], self.remote[other])
        except (KeyError, ValueError):  # a key that isn't there, or zeros
            if self.mistake == "BadKeyCrash":
                raise
            raise Refused("agreement") from None
        return result[::-1] if self.mistake == "DhReversed" else result

    def mix(self, token: str) -> None:
        if token == "psk":
            self.symmetric.mix_key_and_hash(self.psks.pop(0))
        else:
            self.symmetric.mix_key(self.dh(token))

    def mix_ephemeral(self, key: bytes, mistake: str) -> None:
        if self.mistake != mistake:
            self.symmetric.mix_hash(key)
        if self.has_psk() and self.mistake != "PskNotMixedAtE":
            self.symmetric.mix_key(key)

    def guard(self, is_write: bool) -> None:
        if self.mistake == "NothingRefused":
            return
        if self.ended and self.mistake != "HandshakeGoesOn":
            raise Refused("ended")
        is_turn = (self.at % 2 == ROLES.index(self.role)) == is_write
        if not is_turn and self.mistake != "TurnNotChecked":
            raise Refused("turn")

    def write(self, payload: bytes) -> bytes:
        if self.at == len(self.messages):
            return self.send(payload)
        self.guard(True)
        kept = self.kept()
        message = b""
        for token in self.messages[self.at]:
            message += self.noted(token, self.written(token))
        message += self.noted("payload", self.symmetric.encrypt_and_hash(payload, True))
        if len(message) > LONGEST and self.mistake not in ("LongMessageTaken", "NothingRefused"):
            self.put_back(kept)
            raise Refused("too-long")
        self.passed()
        return message

    def noted(self, name: str, data: bytes) -> bytes:
        self.note(str(self.at + 1), name, data)
        return data

    def kept(self) -> tuple:
        """What a message changes."""
        return list(self.psks), dict(self.remote), dict(self.symmetric.__dict__), dict(self.symmetric.cipher.__dict__)

    def put_back(self, kept: tuple) -> None:
        self.psks, self.remote, self.symmetric.__dict__, self.symmetric.cipher.__dict__ = kept

    def written(self, token: str) -> bytes:
        if token == "e":
            key = public_of(self.keys["e"])
            self.mix_ephemeral(key, "EphemeralNotHashedOnWrite")
            return key
        if token == "s":
            return self.written_static(public_of(self.keys["s"]))
        self.mix(token)
        return b""

    def written_static(self, key: bytes) -> bytes:
        is_clear = self.symmetric.cipher.key is None
        if self.mistake == "StaticInClear" or self.mistake == "TagOnClearKey" and is_clear:
            key += bytes(16 if self.mistake == "TagOnClearKey" else 0)
            self.symmetric.mix_hash(key)
            return key
        return self.symmetric.encrypt_and_hash(key)

    def read(self, message: bytes) -> bytes:
        if self.at == len(self.messages):
            return self.receive(message)
        self.guard(False)
        kept = self.kept()
        try:
            if len(message) > LONGEST and self.mistake not in ("LongMessageTaken", "NothingRefused"):
                raise Refused("too-long")
            for token in self.messages[self.at]:
                rest = self.taken(token, message)
                self.noted(token, message[: len(message) - len(rest)])
                message = rest
            payload = self.symmetric.decrypt_and_hash(message, True)
            self.noted("payload", message)
        except Refused:
            self.ended = True
            if self.mistake == "HandshakeGoesOn":
                self.put_back(kept)
            raise
        self.passed()
        return payload

    def taken(self, token: str, message: bytes) -> bytes:
        if token == "e":
            key, rest = self.cut(self.filled(message, 32), 32)
            self.remote["e"] = key
            self.mix_ephemeral(key, "EphemeralNotHashedOnRead")
            return rest
        if token == "s":
            return self.taken_static(message)
        self.mix(token)
        return message

    def taken_static(self, message: bytes) -> bytes:
        is_clear = self.symmetric.cipher.key is None
        if self.mistake == "StaticInClear" or self.mistake == "TagOnClearKey" and is_clear:
            key, rest = self.cut(message, 48 if self.mistake == "TagOnClearKey" else 32)
            self.symmetric.mix_hash(key)
            self.remote["s"] = key[:32]
            return rest
        length = 32 if is_clear else 48
        key, rest = self.cut(self.filled(message, length), length)
        self.remote["s"] = self.symmetric.decrypt_and_hash(key)
        return rest

    def filled(self, message: bytes, length: int) -> bytes:
        return message.ljust(length, b"\0") if self.mistake == "NothingRefused" else message

    @staticmethod
    def cut(message: bytes, length: int) -> tuple[bytes, bytes]:
        if len(message) < length:
            raise Refused("short")
        return message[:length], message[length:]

    def passed(self) -> None:
        self.at += 1
        if self.at < len(self.messages):
            return
        keys = self.symmetric.hkdf(self.symmetric.h if self.mistake == "SplitWithHash" else b"", 2)
        if self.mistake == "SplitSwapped":
            keys.reverse()
        self.ciphers = {role: Cipher(self.mistake, key) for role, key in zip(ROLES, keys)}
        for cipher in self.ciphers.values():
            cipher.nonce = int(self.mistake == "TransportNonceFromOne")

    def transport_data(self) -> bytes:
        return self.symmetric.h if self.mistake == "HashInTransport" else b""

    def one_way(self, role: str) -> None:
        if len(self.messages) == 1 and role == "responder" and self.mistake not in ("TurnNotChecked", "NothingRefused"):
            raise Refused("one-way")

    def send(self, payload: bytes) -> bytes:
        self.one_way(self.role)
        self.moved(payload)
        return self.ciphers[self.role].encrypt(self.transport_data(), payload)

    def receive(self, message: bytes) -> bytes:
        self.one_way(self.other())
        self.moved(message)
        return self.ciphers[self.other()].decrypt(self.transport_data(), message)

    def other(self) -> str:
        return ROLES[1 - ROLES.index(self.role)]

    def moved(self, data: bytes) -> None:
        if self.mistake == "HashMoves":
            self.symmetric.mix_hash(data)

    def remote_static(self) -> bytes | None:
        """The other party's static key, after the handshake."""
        return self.remote.get("e") if self.mistake == "RemoteKeyWrong" else self.remote.get("s")

    def direction(self, name: str) -> Cipher:
        return self.ciphers[self.role if name == "send" else self.other()]

    def rekey(self, direction: str) -> None:
        self.direction(direction).rekey()

    def set_nonce(self, direction: str, nonce: int) -> None:
        self.direction(direction).nonce = nonce

    def hash(self) -> bytes:
        return self.symmetric.h

    def frame(self, message: bytes) -> bytes:
        length = len(message) + 2 * (self.mistake == "FrameCountsItself")
        return length.to_bytes(2, "little" if self.mistake == "FrameLittleEndian" else "big") + message

    def unframe(self, data: bytes) -> bytes | None:
        """The message of a frame, None if it isn't whole."""
        length = int.from_bytes(data[:2], "little" if self.mistake == "FrameLittleEndian" else "big")
        length -= 2 * (self.mistake == "FrameCountsItself")
        if self.mistake == "FrameNotWaited":
            return data[2:]
        return data[2 : 2 + length] if len(data) >= 2 + length and len(data) >= 2 else None
