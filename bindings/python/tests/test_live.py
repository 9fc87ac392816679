"""Over TCP with dissononce. tests/test_command.py has the package for Go."""
import importlib
import random
import socket
import struct
import threading

import pytest
from loops import run
from toys import FUNDAMENTAL

from yulimosar import ChannelCut, Config, KeyPair, accept, connect, layout, open_connection

pytest.importorskip("dissononce", reason="python3-dissononce isn't installed")

from dissononce.cipher.chachapoly import ChaChaPolyCipher  # noqa: E402
from dissononce.dh.x25519.public import PublicKey  # noqa: E402
from dissononce.dh.x25519.x25519 import X25519DH  # noqa: E402
from dissononce.hash.sha256 import SHA256Hash  # noqa: E402
from dissononce.processing.impl.cipherstate import CipherState  # noqa: E402
from dissononce.processing.impl.handshakestate import HandshakeState  # noqa: E402
from dissononce.processing.impl.symmetricstate import SymmetricState  # noqa: E402
from dissononce.processing.modifiers.psk import PSKPatternModifier  # noqa: E402

PSK = bytes([7] * 32)
DATA = random.Random(4).randbytes(1 << 17)


def their_pattern(name):
    base, _, place = name.partition("psk")
    kind = "oneway" if base in ("N", "K", "X") else "interactive"
    module = importlib.import_module(f"dissononce.processing.handshakepatterns.{kind}.{base}")
    pattern = getattr(module, f"{base}HandshakePattern")()
    return PSKPatternModifier(int(place)).modify(pattern) if place else pattern


class Their:
    """dissononce's end: frames round its messages, and an empty message at the end."""

    def __init__(self, sock, name, initiator, own, other):
        self.sock, self.initiator, pattern = sock, initiator, their_pattern(name)
        self.state = HandshakeState(SymmetricState(CipherState(ChaChaPolyCipher()), SHA256Hash()), X25519DH())
        before = pattern.responder_pre_message_pattern if initiator else pattern.initiator_pre_message_pattern
        self.state.initialize(pattern, initiator, b"live", s=own, rs=PublicKey(other) if before else None,
                              psks=[PSK] if "psk" in name else None)
        for index in range(len(pattern.message_patterns)):
            if initiator == (index % 2 == 0):
                message = bytearray()
                ciphers = self.state.write_message(b"theirs", message)
                self.put(bytes(message))
            else:
                ciphers = self.state.read_message(self.frame(), bytearray())
        self.sealing, self.opening = ciphers if initiator else ciphers[::-1]

    def frame(self):
        size = struct.unpack(">H", self.exactly(2))[0]
        return self.exactly(size)

    def exactly(self, size):
        got = b""
        while len(got) < size:
            part = self.sock.recv(size - len(got))
            assert part, "the connection was cut"
            got += part
        return got

    def put(self, message):
        self.sock.sendall(struct.pack(">H", len(message)) + message)

    def send(self, data, ended=True):
        size = 1
        while data:
            self.put(self.sealing.encrypt_with_ad(b"", data[:size]))
            data, size = data[size:], size * 3 % 60000 + 1
        if ended:
            self.put(self.sealing.encrypt_with_ad(b"", b""))

    def take(self):
        got = b""
        while part := self.opening.decrypt_with_ad(b"", self.frame()):
            got += part
        return got


def sockets():
    with socket.create_server(("127.0.0.1", 0)) as listener:
        first = socket.create_connection(listener.getsockname())
        second, _ = listener.accept()
    first.settimeout(20)
    second.settimeout(20)
    return first, second


def names():
    for name in FUNDAMENTAL:
        yield from (name, *(f"{name}psk{place}" for place in range(len(layout(name).messages) + 1)))


@pytest.mark.parametrize("name", list(names()))
@pytest.mark.parametrize("initiator", [True, False])
def test_with_dissononce(name, initiator):
    """128 KiB there and, but with a one-way pattern, back."""
    theirs, ours = X25519DH().generate_keypair(), KeyPair.generate()
    read = layout(name)
    knows = read.knows(initiator)
    config = Config(pattern=name, prologue=b"live", key=ours, psks=[PSK] * read.psks, accept_any_key=True,
                    peer_key=theirs.public.data if knows else None)
    a, b = sockets()
    result = []

    def talk():
        try:
            end = Their(b, name, not initiator, theirs, ours.public)
            if initiator:
                result.append(end.take())
            if not (initiator and read.one_way):
                end.send(DATA)
            if not initiator and not read.one_way:
                result.append(end.take())
        except Exception as error:
            result.append(error)
            b.shutdown(socket.SHUT_RDWR)

    thread = threading.Thread(target=talk)
    thread.start()
    try:
        carry(name, initiator, a, config)
    finally:
        thread.join(20)
        b.close()
        assert not any(isinstance(it, Exception) for it in result), result
    assert read.one_way and not initiator or DATA in result


def carry(name, initiator, a, config):
    read = layout(name)
    with (connect if initiator else accept)(a, config) as channel:
        if initiator:
            channel.sendall(DATA)
            channel.shutdown(socket.SHUT_WR)
            if not read.one_way:
                assert receive(channel) == DATA
        else:
            got = receive(channel)
            assert got == DATA
            if not read.one_way:
                channel.sendall(got)


def receive(channel):
    got = bytearray()
    while part := channel.recv(65536):
        got += part
    return bytes(got)


def test_a_peer_that_sends_no_end():
    """What it has sent is read first; then the cut is reported."""
    theirs, ours = X25519DH().generate_keypair(), KeyPair.generate()
    a, b = sockets()

    def talk():
        with b:
            Their(b, "XX", False, theirs, ours.public).send(b"a line\nhalf a line", ended=False)

    thread = threading.Thread(target=talk)
    thread.start()

    async def main(_result):
        a.setblocking(False)
        config = Config(pattern="XX", prologue=b"live", key=ours, peer_key=theirs.public.data)
        reader, writer = await open_connection(None, None, config, sock=a)
        assert await reader.readline() == b"a line\n"
        with pytest.raises(ChannelCut):
            await reader.readline()
        writer.close()
    run(main)
    thread.join(20)
