"""A device of ESPHome, by dissononce: esphome_device.py PORT KEY serves one client after another. A client with another
key is refused with the text that ESPHome's devices send."""
import base64
import socket
import struct
import sys

from dissononce.cipher.chachapoly import ChaChaPolyCipher
from dissononce.dh.x25519.x25519 import X25519DH
from dissononce.hash.sha256 import SHA256Hash
from dissononce.processing.handshakepatterns.interactive.NN import NNHandshakePattern
from dissononce.processing.impl.cipherstate import CipherState
from dissononce.processing.impl.handshakestate import HandshakeState
from dissononce.processing.impl.symmetricstate import SymmetricState
from dissononce.processing.modifiers.psk import PSKPatternModifier

NAME = b"kitchen"


def read_frame(file):
    mark, size = struct.unpack(">BH", file.read(3))
    assert mark == 1
    return file.read(size)


def put(sock, content):
    sock.sendall(struct.pack(">BH", 1, len(content)) + content)


def serve(sock, key):
    """Shakes hands, answers a HelloRequest, and reads to the end."""
    with sock, sock.makefile("rb") as file:
        state = HandshakeState(SymmetricState(CipherState(ChaChaPolyCipher()), SHA256Hash()), X25519DH())
        pattern = PSKPatternModifier(0).modify(NNHandshakePattern())
        state.initialize(pattern, False, b"NoiseAPIInit\0\0", psks=[key])
        assert read_frame(file) == b""
        put(sock, b"\x01" + NAME + b"\0" + b"00:11:22:33:44:55\0")
        message, made = read_frame(file), bytearray()
        assert message[:1] == b"\0"
        try:
            state.read_message(message[1:], bytearray())
        except Exception:
            put(sock, b"\x01Handshake MAC failure")
            return
        receive, send = state.write_message(b"", made)
        put(sock, b"\0" + bytes(made))
        kind, size = struct.unpack(">HH", (hello := receive.decrypt_with_ad(b"", read_frame(file)))[:4])
        assert kind == 1 and len(hello) == 4 + size and b"yulimosar" in hello
        answer = b"\x08\x01\x10\x0a" + b"\x1a\x05other" + b"\x22" + bytes([len(NAME)]) + NAME
        for kind, content in ((7, b""), (2, answer)):    # a ping before it
            put(sock, send.encrypt_with_ad(b"", struct.pack(">HH", kind, len(content)) + content))
        assert receive.decrypt_with_ad(b"", read_frame(file)) == struct.pack(">HH", 5, 0)


with socket.create_server(("127.0.0.1", int(sys.argv[1]))) as listener:
    while True:
        serve(listener.accept()[0], base64.b64decode(sys.argv[2]))
