"""Asks a device of ESPHome for its name: esphome.py HOST[:PORT] KEY. KEY is that of `encryption:` under its `api:`.

The native API has frames of its own: the byte 1, the length in 2 bytes, and the content. The handshake is NNpsk0; its
messages stand in frames after a 0. A message after it is its type and its length, 2 bytes each, and a protobuf.
"""
import base64
import socket
import struct
import sys
from typing import BinaryIO

from yulimosar import Config, Handshake, NoiseError, Receiver, Sender

HELLO_REQUEST, HELLO_RESPONSE = 1, 2    # types of messages
DISCONNECT_REQUEST = 5
NAME = 4    # the field of a HelloResponse
SECONDS = 10


class Refused(Exception):
    """What the device says of a handshake that it refuses."""


def frame(content: bytes) -> bytes:
    """A frame."""
    return struct.pack(">BH", 1, len(content)) + content


def read_frame(file: BinaryIO) -> bytes:
    """The content of the next frame."""
    mark, size = struct.unpack(">BH", exactly(file, 3))
    if mark != 1:
        raise ValueError("the device's API isn't encrypted")
    return exactly(file, size)


def exactly(file: BinaryIO, size: int) -> bytes:
    """The next bytes."""
    data = file.read(size)
    if len(data) != size:
        raise EOFError("the device has closed the connection")
    return data


def shake(sock: socket.socket, file: BinaryIO, key: bytes) -> tuple[Sender, Receiver]:
    """Runs the handshake. An empty frame and the first message go out at once."""
    config = Config(pattern="NNpsk0", prologue=b"NoiseAPIInit\0\0", psks=[key])
    with Handshake(config, initiator=True) as handshake:
        sock.sendall(frame(b"") + frame(b"\0" + handshake.write()))
        if read_frame(file)[:1] != b"\1":
            raise ValueError("the device speaks another protocol than Noise")
        answer = read_frame(file)
        if answer[:1] != b"\0":
            raise Refused(answer[1:].decode(errors="replace"))
        handshake.read(answer[1:])
        return handshake.split()


def seal(sender: Sender, kind: int, content: bytes) -> bytes:
    """The frame of a message."""
    return frame(sender.seal(struct.pack(">HH", kind, len(content)) + content))


def read(receiver: Receiver, file: BinaryIO) -> tuple[int, bytes]:
    """The type and the content of the next message."""
    message = receiver.open(read_frame(file))
    kind, size = struct.unpack(">HH", message[:4])
    return kind, message[4:4 + size]


def text_of(content: bytes, wanted: int) -> str:
    """A field of text of a protobuf whose lengths and numbers are small."""
    at = 0
    while at < len(content):
        tag, value = content[at], content[at + 1]
        if tag & 7 == 2:
            if tag >> 3 == wanted:
                return content[at + 2:at + 2 + value].decode()
            at += value
        at += 2
    return ""


def main(address: str, key: str) -> None:
    """Says hello, and prints the device's name."""
    host, _, port = address.partition(":")
    with socket.create_connection((host, int(port or 6053)), SECONDS) as sock, sock.makefile("rb") as file:
        sender, receiver = shake(sock, file, base64.b64decode(key, validate=True))
        with sender, receiver:
            hello = b"\x0a\x09yulimosar\x10\x01\x18\x0a"    # the client's name, and the version 1.10 of the API
            sock.sendall(seal(sender, HELLO_REQUEST, hello))
            kind, content = read(receiver, file)
            while kind != HELLO_RESPONSE:
                kind, content = read(receiver, file)
            print(f"esphome: the device is {text_of(content, NAME)}")
            sock.sendall(seal(sender, DISCONNECT_REQUEST, b""))


try:
    main(sys.argv[1], sys.argv[2])
except (NoiseError, Refused, OSError, EOFError, ValueError) as fault:
    sys.exit(f"esphome: {fault}")
