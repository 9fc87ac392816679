"""Runs the example `echo` of this crate, whose path is the one argument, against python3-dissononce over TCP on
127.0.0.1: the fundamental patterns, without a secret and with one at each place, in both roles. 128 KiB go there and,
but with a one-way pattern, back."""

import contextlib
import socket
import struct
import subprocess
import sys

from dissononce.cipher.chachapoly import ChaChaPolyCipher
from dissononce.dh.x25519.public import PublicKey
from dissononce.dh.x25519.x25519 import X25519DH
from dissononce.hash.sha256 import SHA256Hash
from dissononce.processing.handshakepatterns.interactive import IK, IN, IX, KK, KN, KX, NK, NN, NX, XK, XN, XX
from dissononce.processing.handshakepatterns.oneway import K, N, X
from dissononce.processing.impl.cipherstate import CipherState
from dissononce.processing.impl.handshakestate import HandshakeState
from dissononce.processing.impl.symmetricstate import SymmetricState
from dissononce.processing.modifiers.psk import PSKPatternModifier

SECONDS = 20
SIZE = 1 << 17
MODULES = (N, K, X, NN, NK, NX, KN, KK, KX, XN, XK, XX, IN, IK, IX)
PATTERNS = [getattr(module, module.__name__.rsplit(".", 1)[1] + "HandshakePattern")() for module in MODULES]
PSK = bytes([7] * 32)


class End:
    """A party of dissononce's: frames round its messages."""

    def __init__(self, connection, pattern, initiator, own, other):
        self.connection, self.initiator = connection, initiator
        self.messages = len(pattern.message_patterns)
        self.one_way = self.messages == 1
        self.state = HandshakeState(SymmetricState(CipherState(ChaChaPolyCipher()), SHA256Hash()), X25519DH())
        before = pattern.responder_pre_message_pattern if initiator else pattern.initiator_pre_message_pattern
        psks = [PSK] if "psk" in pattern.name else None
        self.state.initialize(pattern, initiator, b"live", s=own, rs=other if before else None, psks=psks)
        self.pass_handshake()

    def pass_handshake(self):
        for index in range(self.messages):
            if self.initiator == (index % 2 == 0):
                message = bytearray()
                ciphers = self.state.write_message(b"theirs", message)
                self.put(bytes(message))
            else:
                ciphers = self.state.read_message(self.frame(), bytearray())
        self.sealing, self.opening = ciphers if self.initiator else ciphers[::-1]

    def exactly(self, count):
        got = b""
        while len(got) < count:
            part = self.connection.recv(count - len(got))
            assert part, "the connection was cut"
            got += part
        return got

    def frame(self):
        return self.exactly(struct.unpack(">H", self.exactly(2))[0])

    def put(self, message):
        self.connection.sendall(struct.pack(">H", len(message)) + message)

    def send(self, everything):
        """Sends it in messages of several lengths, and an empty one, which says that nothing more comes."""
        size = 1
        while everything:
            self.put(self.sealing.encrypt_with_ad(b"", everything[:size]))
            everything, size = everything[size:], size * 3 % 60000 + 1
        self.put(self.sealing.encrypt_with_ad(b"", b""))

    def take(self):
        """All that comes, until an empty message says that nothing more does."""
        everything = b""
        while part := self.opening.decrypt_with_ad(b"", self.frame()):
            everything += part
        return everything


@contextlib.contextmanager
def example(program, pattern, own, other, address):
    """The example as it runs; afterwards it has ended, with status 0."""
    secret = PSK.hex() if "psk" in pattern.name else "-"
    words = [program, pattern.name, own.private.data.hex(), other.public.data.hex(), secret, address]
    with subprocess.Popen(words, stdout=subprocess.PIPE, text=True) as process:
        try:
            yield process
            assert process.wait(SECONDS) == 0, "the example failed"
        finally:
            process.kill()


def to_rust(program, pattern, ours, theirs):
    """dissononce is the initiator."""
    with example(program, pattern, theirs, ours, "@127.0.0.1:0") as process:
        host, port = process.stdout.readline().strip().rsplit(":", 1)
        with socket.create_connection((host, int(port)), SECONDS) as connection:
            end = End(connection, pattern, True, ours, PublicKey(theirs.public.data))
            sent = bytes(range(256)) * (SIZE // 256)
            end.send(sent)
            assert end.one_way or end.take() == sent, "other bytes came back"


def from_rust(program, pattern, ours, theirs):
    """dissononce is the responder."""
    with socket.create_server(("127.0.0.1", 0)) as listener:
        listener.settimeout(SECONDS)
        with example(program, pattern, theirs, ours, "127.0.0.1:%d" % listener.getsockname()[1]) as process:
            connection, _ = listener.accept()
            with connection:
                connection.settimeout(SECONDS)
                end = End(connection, pattern, False, ours, PublicKey(theirs.public.data))
                everything = end.take()
                assert everything == bytes(i % 251 for i in range(SIZE)), "other bytes came"
                if not end.one_way:
                    end.send(everything)


def main():
    dh, count = X25519DH(), 0
    for plain in PATTERNS:
        secret = [PSKPatternModifier(place).modify(plain) for place in range(len(plain.message_patterns) + 1)]
        for pattern in [plain, *secret]:
            for run in (to_rust, from_rust):
                try:
                    run(sys.argv[1], pattern, dh.generate_keypair(), dh.generate_keypair())
                except Exception:
                    print(f"{pattern.name}, {run.__doc__}", file=sys.stderr)
                    raise
                count += 1
    print(f"{count} connections with dissononce")


main()
