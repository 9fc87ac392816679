"""One end over TCP, as examples/live/main.rs says: peer.py PATTERN OWN_SECRET PEER_KEY PSK ADDRESS ORDER SIZE, by
dissononce."""

import socket
import struct
import sys
import threading

from dissononce.cipher.chachapoly import ChaChaPolyCipher
from dissononce.dh.keypair import KeyPair
from dissononce.dh.x25519.private import PrivateKey
from dissononce.dh.x25519.public import PublicKey
from dissononce.dh.x25519.x25519 import X25519DH
from dissononce.exceptions.decrypt import DecryptFailedException
from dissononce.hash.sha256 import SHA256Hash
from dissononce.processing.handshakepatterns.interactive.IK import IKHandshakePattern
from dissononce.processing.handshakepatterns.interactive.KK import KKHandshakePattern
from dissononce.processing.handshakepatterns.interactive.NN import NNHandshakePattern
from dissononce.processing.handshakepatterns.interactive.XX import XXHandshakePattern
from dissononce.processing.impl.cipherstate import CipherState
from dissononce.processing.impl.handshakestate import HandshakeState
from dissononce.processing.impl.symmetricstate import SymmetricState
from dissononce.processing.modifiers.psk import PSKPatternModifier

PATTERNS = {"IK": IKHandshakePattern, "KK": KKHandshakePattern, "NN": NNHandshakePattern, "XX": XXHandshakePattern}


class Refused(Exception):
    """A message was refused."""


class Cut(Exception):
    """The connection has closed before the end of the stream."""


class End:
    """Frames round the messages of dissononce's; an empty one is the end."""

    def __init__(self, connection, name, initiator, own, peer, psk):
        self.connection = connection
        base, _, place = name.partition("psk")
        pattern = PATTERNS[base]()
        if place:
            pattern = PSKPatternModifier(int(place)).modify(pattern)
        state = HandshakeState(SymmetricState(CipherState(ChaChaPolyCipher()), SHA256Hash()), X25519DH())
        before = pattern.responder_pre_message_pattern if initiator else pattern.initiator_pre_message_pattern
        state.initialize(pattern, initiator, b"live", s=own, rs=peer if before else None, psks=[psk] if place else None)
        for index in range(len(pattern.message_patterns)):
            if initiator == (index % 2 == 0):
                message = bytearray()
                ciphers = state.write_message(b"", message)
                self.put(bytes(message))
            else:
                ciphers = self.refusing(lambda: state.read_message(self.frame(), bytearray()))
        self.sends, self.receives = ciphers if initiator else ciphers[::-1]

    def refusing(self, call):
        try:
            return call()
        except Cut:
            raise
        except (DecryptFailedException, ValueError, AssertionError, IndexError) as error:
            self.connection.close()
            raise Refused from error

    def exactly(self, count):
        got = b""
        while len(got) < count:
            try:
                part = self.connection.recv(count - len(got))
            except OSError as error:
                raise Cut from error
            if not part:
                raise Cut
            got += part
        return got

    def frame(self):
        return self.exactly(struct.unpack(">H", self.exactly(2))[0])

    def put(self, message):
        self.connection.sendall(struct.pack(">H", len(message)) + message)

    def write(self, payload):
        self.put(self.sends.encrypt_with_ad(b"", payload))

    def read(self):
        """The next payload, or no bytes at the end."""
        message = self.frame()
        return self.refusing(lambda: self.receives.decrypt_with_ad(b"", message))


def stream(initiator, size):
    """What a party sends."""
    return (bytes((i * 7 + initiator) % 251 for i in range(251)) * (size // 251 + 1))[:size]


def name_of(error):
    return "refused" if isinstance(error, Refused) else "cut" if isinstance(error, Cut) else "lost"


class Session:
    """Both directions of an end."""

    def __init__(self, end, initiator, first, size):
        self.end, self.initiator, self.first, self.size = end, initiator, first, size
        self.wrote, self.has_ended = 0, False
        self.can_end = threading.Event()
        self.whole = False

    def write(self):
        everything = stream(self.initiator, self.size)
        try:
            while self.wrote < self.size:
                part = everything[self.wrote : self.wrote + 10000]
                self.wrote += len(part)  # also where it fails after a part of it was sent
                self.end.write(part)
            if not self.first:
                self.can_end.wait()
            if self.first or self.whole:
                self.end.write(b"")
                self.has_ended = True
        except OSError:
            pass

    def run(self):
        writer = threading.Thread(target=self.write)
        writer.start()
        got, what = b"", "end"
        try:
            while part := self.end.read():
                got += part
            self.whole = True
        except (Refused, Cut, OSError) as error:
            what = name_of(error)
        self.can_end.set()
        writer.join()
        assert stream(not self.initiator, self.size).startswith(got), "other bytes"
        print(f"wrote {self.wrote} {'ended' if self.has_ended else 'open'}, read {len(got)} {what}")


def connect(address):
    host, port = address.lstrip("@").rsplit(":", 1)
    if not address.startswith("@"):
        return socket.create_connection((host, int(port)))
    with socket.create_server((host, int(port))) as listener:
        print("%s:%d" % listener.getsockname(), flush=True)
        return listener.accept()[0]


def main():
    name, own, peer, psk, address, order, size = sys.argv[1:]
    initiator = not address.startswith("@")
    pair = X25519DH().generate_keypair(PrivateKey(bytes.fromhex(own)))
    with connect(address) as connection:
        try:
            secret = None if psk == "-" else bytes.fromhex(psk)
            end = End(connection, name, initiator, pair, PublicKey(bytes.fromhex(peer)), secret)
        except (Refused, Cut, OSError) as error:
            print(f"wrote 0 open, read 0 {name_of(error)}")
            return
        Session(end, initiator, order == "first", int(size)).run()


main()
