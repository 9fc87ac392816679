"""The package for Python, and what a program in Python would take otherwise: dissononce, and the AEAD of cryptography.

Standard input is that of c/server.h.
"""
from __future__ import annotations

import sys
import time
from collections.abc import Callable

from cryptography.hazmat.primitives.ciphers.aead import ChaCha20Poly1305
from dissononce.cipher.chachapoly import ChaChaPolyCipher
from dissononce.dh.x25519.x25519 import X25519DH
from dissononce.hash.sha256 import SHA256Hash
from dissononce.processing.handshakepatterns.interactive.XX import XXHandshakePattern
from dissononce.processing.impl.cipherstate import CipherState
from dissononce.processing.impl.handshakestate import HandshakeState
from dissononce.processing.impl.symmetricstate import SymmetricState
from yulimosar import Config, Handshake, KeyPair

import channel

KEYS = KeyPair.generate(), KeyPair.generate()
THEIR_KEYS = X25519DH().generate_keypair(), X25519DH().generate_keypair()
NONCE = bytes(12)


def pass_messages(first: Handshake, second: Handshake) -> None:
    while not (first.done and second.done):
        second.read(first.write())
        first, second = second, first


def connect() -> tuple[Callable[[bytes], bytes], Callable[[bytes], bytes]]:
    """Both parties of XX: what seals at one, and what opens at the other."""
    client = Handshake(Config(pattern="XX", key=KEYS[0], accept_any_key=True), True)
    server = Handshake(Config(pattern="XX", key=KEYS[1], accept_any_key=True), False)
    pass_messages(client, server)
    return client.split()[0].seal, server.split()[1].open


def dissononce() -> tuple[Callable[[bytes], bytes], Callable[[bytes], bytes]]:
    def party(is_first: bool) -> HandshakeState:
        state = HandshakeState(SymmetricState(CipherState(ChaChaPolyCipher()), SHA256Hash()), X25519DH())
        state.initialize(XXHandshakePattern(), is_first, b"", s=THEIR_KEYS[is_first])
        return state

    client, server = party(True), party(False)
    ciphers = server_ciphers = None
    for writer, reader in ((client, server), (server, client), (client, server)):
        message, payload = bytearray(), bytearray()
        ciphers = writer.write_message(b"", message)
        server_ciphers = reader.read_message(bytes(message), payload)
    seals, opens = ciphers[0], server_ciphers[0]
    return (lambda text: seals.encrypt_with_ad(b"", text)), (lambda text: opens.decrypt_with_ad(b"", text))


def aead() -> tuple[Callable[[bytes], bytes], Callable[[bytes], bytes]]:
    cipher = ChaCha20Poly1305(bytes(32))
    return (lambda text: cipher.encrypt(NONCE, text, None)), (lambda text: cipher.decrypt(NONCE, text, None))


PAIRS = {"transport": connect, "dissononce.transport": dissononce, "cryptography.transport": aead}
SHAKES = {"XX": connect, "dissononce.XX": dissononce}


def timed(name: str, size: int, count: int) -> int:
    """The nanoseconds of processor time of so many calls."""
    if name in channel.CHANNELS:
        return channel.timed(channel.CHANNELS[name], size, count)
    if name in SHAKES:
        begun = time.process_time_ns()
        for _ in range(count):
            SHAKES[name]()
        return time.process_time_ns() - begun
    seals, opens = PAIRS[name]()
    text = bytes(size)
    begun = time.process_time_ns()
    for _ in range(count):
        opens(seals(text))
    return time.process_time_ns() - begun


for line in sys.stdin:
    words = line.split()
    if words == ["list"]:
        print(*PAIRS, *SHAKES, *channel.CHANNELS)
    else:
        print(timed(words[0], int(words[1]), int(words[2])))
    sys.stdout.flush()
