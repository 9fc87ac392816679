"""Messages that one check alone refuses: all that follows a change is sealed for it.

A changed `s` also changes the hash, so that the payload's tag would be wrong, too: a party that doesn't check the tag
of `s` would pass such a test. Here the rest of the message is what a party that took the change expects.
"""

from __future__ import annotations

from typing import Any

from cryptography.hazmat.primitives.ciphers.aead import ChaCha20Poly1305

from group import Group, other
from mistaken import Party

ONE = 0xAA  # the only byte of a long message


def careless(group: Group, role: str, until: int) -> Party:
    """A party that checks no tag and no length, before a message."""
    party = Party(group.as_json() | {"prologue": group.prologue}, role, "NothingRefused")
    for message in group.messages[:until]:
        if message.sender == role:
            party.write(message.payload)
        else:
            party.read(message.data)
    return party


def sealed(party: Party, text: bytes) -> bytes:
    """What a party that is about to read expects of a text."""
    cipher = party.symmetric.cipher
    assert cipher.key is not None
    return ChaCha20Poly1305(cipher.key).encrypt(cipher.bytes_of(cipher.nonce), text, party.symmetric.h)


def changed(group: Group, number: int, key: Any, at: int, mask: int) -> bytes:
    """A message whose encrypted `s`, the piece `key`, has byte `at` xor `mask`, and the rest is sealed for that."""
    message, reader = group.messages[number], other(group.messages[number].sender)
    party, made = careless(group, reader, number), b""
    for index, name in enumerate(party.messages[number]):
        if name not in ("e", "s"):
            party.mix(name)
            continue
        piece = message.data[len(made) :]
        length = 48 if name == "s" and party.symmetric.cipher.key else 32
        piece = piece[:length]
        if index > key.token and length == 48:
            piece = sealed(party, group.public(message.sender, "s"))
        if index == key.token:
            offset = at - key.start
            piece = piece[:offset] + bytes([piece[offset] ^ mask]) + piece[offset + 1 :]
        party.taken(name, piece)
        made += piece
    return made + sealed(party, message.payload)


def out_of_turn(group: Group, role: str, number: int) -> bytes:
    """The message that a party is to write, as it would be right if the other party wrote it."""
    party, made = careless(group, role, number), b""
    for name in party.messages[number] if number < group.handshake else []:
        if name not in ("e", "s"):
            party.mix(name)
            continue
        piece = group.public(role, name)
        if name == "s" and party.symmetric.cipher.key:
            piece = sealed(party, piece)
        party.taken(name, piece)
        made += piece
    payload = group.messages[number].payload
    return made + (sealed(party, payload) if party.symmetric.cipher.key else payload)


def one_way_answer(group: Group, number: int) -> bytes:
    """A transport message of the responder in a one-way pattern, by the second key of Split."""
    key = careless(group, "initiator", group.handshake).ciphers["responder"].key
    assert key is not None
    return ChaCha20Poly1305(key).encrypt(bytes(12), group.messages[number].payload, b"")


def of_one_byte(key: bytes, nonce: bytes, data: bytes, length: int) -> bytes:
    """The tag of a ciphertext of so many bytes ONE."""
    cipher, text = ChaCha20Poly1305(key), bytes([ONE]) * length
    payload = bytes(a ^ b for a, b in zip(cipher.encrypt(nonce, bytes(length), data), text))
    made = cipher.encrypt(nonce, payload, data)
    assert made[:-16] == text
    return made[-16:]


def long_message(group: Group, number: int, length: int) -> bytes:
    """The tag, or nothing, that ends a message of so many bytes, all others ONE: keys, too."""
    reader = other(group.messages[number].sender)
    party = careless(group, reader, number)
    if number >= group.handshake:
        cipher = party.ciphers[group.messages[number].sender]
        assert cipher.key is not None
        return of_one_byte(cipher.key, cipher.bytes_of(cipher.nonce), b"", length - 16)
    before = 0
    for name in party.messages[number]:
        if name in ("e", "s"):
            party.taken(name, bytes([ONE]) * 32)
            before += 32
        else:
            party.mix(name)
    cipher = party.symmetric.cipher
    if cipher.key is None:
        return b""
    return of_one_byte(cipher.key, cipher.bytes_of(cipher.nonce), party.symmetric.h, length - before - 16)
