"""Shakes hands with a Nebula node at 127.0.0.1 whose `cipher` is chachapoly, and sends it test requests:
nebula.py PORT CERTIFICATE KEY."""
import base64
import socket
import struct
import sys
import time
from collections.abc import Iterator
from pathlib import Path
from typing import Any

from yulimosar import CipherState, Config, Handshake, KeyPair

HANDSHAKE, TEST, REQUEST, REPLY = 0, 4, 0, 1  # kinds of packets, and of test packets
OWN_INDEX = 0x01020304


def pem(path: str) -> bytes:
    """What is in a file of nebula-cert."""
    return base64.b64decode("".join(line for line in Path(path).read_text().split("\n") if not line.startswith("-")))


def read_number(data: bytes, at: int) -> tuple[int, int]:
    """A number of a protobuf, and where it ends."""
    value, shift = 0, 0
    while data[at] > 127:
        value, shift, at = value | (data[at] & 127) << shift, shift + 7, at + 1
    return value | data[at] << shift, at + 1


def fields(data: bytes) -> Iterator[tuple[int, Any]]:
    """The fields of a protobuf: name and value, which is a number or bytes."""
    at = 0
    while at < len(data):
        key, at = read_number(data, at)
        value, at = read_number(data, at)
        if key & 7 == 2:
            yield key >> 3, data[at:at + value]
            at += value
        else:
            yield key >> 3, value


def number(value: int) -> bytes:
    """A number as a protobuf has it."""
    return bytes([value]) if value < 128 else bytes([value & 127 | 128]) + number(value >> 7)


def field(name: int, value: int | bytes) -> bytes:
    """A field of a protobuf."""
    if isinstance(value, int):
        return number(name << 3) + number(value)
    return number(name << 3 | 2) + number(len(value)) + value


def header(kind: int, subtype: int, index: int, counter: int) -> bytes:
    """The first 16 bytes of a packet. After the handshake they are the associated data, and the counter the nonce."""
    return struct.pack(">BBHIQ", 1 << 4 | kind, subtype, 0, index, counter)


def ping(node: socket.socket, send: CipherState, receive: CipherState, index: int) -> None:
    """Sends two test requests, and opens the replies, whose counters rise."""
    last = 2  # both parties count packets 1 and 2 as those of the handshake
    for _ in range(2):
        head = header(TEST, REQUEST, index, send.nonce)
        node.send(head + send.encrypt_with_ad(head, b""))  # Nebula 1.6.1 panics at a test request with a text
        packet = node.recv(9000)
        first, subtype, _, to, counter = struct.unpack(">BBHIQ", packet[:16])
        if (first & 15, subtype, to) != (TEST, REPLY, OWN_INDEX) or counter <= last:
            raise ValueError("another packet than a new reply")
        receive.set_nonce(counter)
        receive.decrypt_with_ad(packet[:16], packet[16:])
        last = counter
    print("nebula: two test requests were answered")


def main(port: str, certificate: str, key: str) -> None:
    """The pattern is IX; payloads are certificates without their public key (field 7), which the messages have."""
    stripped = b"".join(field(1, b"".join(field(n, v) for n, v in fields(value) if n != 7)) if name == 1
                        else field(name, value) for name, value in fields(pem(certificate)))
    config = Config(pattern="IX", key=KeyPair.from_secret(pem(key)), accept_any_key=True)
    with (socket.socket(socket.AF_INET, socket.SOCK_DGRAM) as node, Handshake(config, initiator=True) as handshake):
        node.settimeout(5)
        node.connect(("127.0.0.1", int(port)))
        details = field(1, stripped) + field(2, OWN_INDEX) + field(5, time.time_ns())
        node.send(header(HANDSHAKE, 0, 0, 1) + handshake.write(field(1, details)))
        answer = dict(fields(dict(fields(handshake.read(node.recv(9000)[16:])))[1]))
        name = dict(fields(dict(fields(answer[1]))[1]))[1].decode()
        print(f"nebula: a node that says its name is {name}; a program of yours checks its certificate here")
        send, receive = handshake.ciphers()
        with send, receive:
            send.set_nonce(3)
            ping(node, send, receive, answer[3])


main(*sys.argv[1:])
