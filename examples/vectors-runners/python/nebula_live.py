#!/usr/bin/env python3
"""Tries the cases of the suite that a Nebula node can be asked: nebula_live.py PORT CERTIFICATE KEY.

A node draws its own ephemeral keys, so the suite's bytes are of no use to it. Here it gets messages of this moment,
right and changed ones, as the suite changes them, and its answers are looked at: the node is the responder of IX at
127.0.0.1, with `cipher: chachapoly`. It needs the package of bindings/python. A line for each flag says what the node
did; the status is 0.

Nebula 1.6.1 does not answer to a cut first message (`MessageCut`), a changed `s` (`ClearKeyChanged`, by its
certificate), nor to a transport message that is changed, cut, repeated or its own (`TransportChanged`, `TransportCut`,
`TransportRepeated`, `TransportReflected`); each time the next right one is answered. Of a changed `e` it can't know:
the other party refuses its answer. A later transport message may come first. The same first message brings the same
answer again, and no new keys.
"""

from __future__ import annotations

import base64
import socket
import struct
import sys
import time
from collections.abc import Iterator
from pathlib import Path

from yulimosar import CipherState, Config, Handshake, KeyPair, NoiseError

HANDSHAKE, TEST, REQUEST, REPLY = 0, 4, 0, 1  # kinds of packets, and of test packets
WAIT = 0.4  # seconds until a node that hasn't answered is taken not to answer


def read_number(data: bytes, at: int) -> tuple[int, int]:
    """A number of a protobuf, and where it ends."""
    value, shift = 0, 0
    while data[at] > 127:
        value, shift, at = value | (data[at] & 127) << shift, shift + 7, at + 1
    return value | data[at] << shift, at + 1


def fields(data: bytes) -> Iterator[tuple[int, int | bytes]]:
    """The fields of a protobuf."""
    at = 0
    while at < len(data):
        key, at = read_number(data, at)
        value, at = read_number(data, at)
        if key & 7 == 2:
            yield key >> 3, data[at : at + value]
            at += value
        else:
            yield key >> 3, value


def number(value: int) -> bytes:
    return bytes([value]) if value < 128 else bytes([value & 127 | 128]) + number(value >> 7)


def field(name: int, value: int | bytes) -> bytes:
    if isinstance(value, int):
        return number(name << 3) + number(value)
    return number(name << 3 | 2) + number(len(value)) + value


def header(kind: int, subtype: int, index: int, counter: int) -> bytes:
    """The first 16 bytes of a packet, which are the associated data of a transport message; the counter is its
    nonce."""
    return struct.pack(">BBHIQ", 1 << 4 | kind, subtype, 0, index, counter)


def pem(path: str) -> bytes:
    return base64.b64decode(
        "".join(line for line in Path(path).read_text("ascii").split("\n") if not line.startswith("-"))
    )


class Peer:
    """A conversation with the node."""

    used = 0x100

    def __init__(self, port: int, certificate: str, key: str) -> None:
        self.node = socket.socket(socket.AF_INET, socket.SOCK_DGRAM)
        self.node.settimeout(WAIT)
        self.node.connect(("127.0.0.1", port))
        self.certificate, Peer.used = certificate, Peer.used + 1
        self.handshake = Handshake(
            Config(pattern="IX", key=KeyPair.from_secret(pem(key)), accept_any_key=True), initiator=True
        )
        self.first = self.handshake.write(self.payload())
        self.send: CipherState
        self.index = 0

    def payload(self) -> bytes:
        """The certificate without its public key, which the message has."""
        parts = list(fields(pem(self.certificate)))
        stripped = b"".join(
            field(1, b"".join(field(n, v) for n, v in fields(value) if n != 7)) if name == 1 else field(name, value)
            for name, value in parts
        )
        return field(1, field(1, stripped) + field(2, Peer.used) + field(5, time.time_ns()))

    def ask(self, packet: bytes, kind: tuple[int, int] = (TEST, REPLY)) -> bytes | None:
        """The node's answer of a kind, or none. The node sends other packets, too."""
        self.node.send(packet)
        try:
            while answer := self.node.recv(9000):
                if (answer[0] & 15, answer[1]) == kind:
                    return answer
        except TimeoutError:
            pass
        return None

    def greet(self, message: bytes) -> bytes | None:
        """The node's answer to a first message."""
        return self.ask(header(HANDSHAKE, 0, 0, 1) + message, (HANDSHAKE, 0))

    def open(self) -> None:
        """The right handshake."""
        answer = self.greet(self.first)
        assert answer, "the node doesn't answer to a right message"
        details = dict(fields(self.handshake.read(answer[16:])))[1]
        self.index = dict(fields(details))[3]
        self.send, _ = self.handshake.ciphers()
        self.send.set_nonce(3)  # both parties count packets 1 and 2 as those of the handshake

    def request(self) -> bytes:
        """The packet of a test request, which a node answers."""
        head = header(TEST, REQUEST, self.index, self.send.nonce)
        return head + self.send.encrypt_with_ad(head, b"")


def flipped(data: bytes, at: int) -> bytes:
    return data[:at] + bytes([data[at] ^ 1]) + data[at + 1 :]


def said(answers: list[bytes | None]) -> str:
    return ", ".join("answered" if it else "not answered" for it in answers)


def first_messages(words: tuple[int, str, str]) -> Iterator[tuple[str, str]]:
    """What a node makes of changed first messages: `e`, `s` and the payload are in the clear."""
    for length in (0, 31, 32, 63, 64):
        peer = Peer(*words)
        yield "MessageCut", f"message 1, the first {length} bytes: {said([peer.greet(peer.first[:length])])}"
    for what, at in (("e", 0), ("s", 32)):
        peer = Peer(*words)
        answer = peer.greet(flipped(peer.first, at))
        refused = ""
        if answer:
            try:
                peer.handshake.read(answer[16:])
                refused = "; this party ACCEPTED message 2"
            except NoiseError as error:
                refused = f"; this party refuses message 2: {error}"
        yield "ClearKeyChanged", f"message 1, {what} changed: {said([answer])}{refused}"
    peer = Peer(*words)
    one, two = peer.greet(peer.first), peer.greet(peer.first)
    yield "Repeated", f"message 1 twice: {said([one, two])}" + (", by the same bytes" if one == two else "")


def transport(words: tuple[int, str, str]) -> Iterator[tuple[str, str]]:
    """What it makes of transport messages; afterwards a right one is always sent."""
    peer = Peer(*words)
    peer.open()
    packet = peer.request()
    answer = peer.ask(packet)
    yield "FundamentalPattern", f"IX, and a test request: {said([answer])}"
    answers = [peer.ask(packet), peer.ask(peer.request())]
    yield "TransportRepeated", f"the same request again, then a new one: {said(answers)}"
    packet = peer.request()
    answers = [peer.ask(flipped(packet, len(packet) - 1)), peer.ask(packet)]
    yield "TransportChanged", f"the tag changed, then the right one: {said(answers)}"
    packet = peer.request()
    answers = [peer.ask(packet[:16]), peer.ask(packet[:24]), peer.ask(packet)]
    yield "TransportCut", f"no tag, half a tag, then the right one: {said(answers)}"
    packet = peer.request()
    answers = [peer.ask(packet + bytes(1)), peer.ask(packet)]
    yield "TransportByteAppended", f"a byte more, then the right one: {said(answers)}"
    assert answer
    mirrored = header(TEST, REQUEST, peer.index, peer.send.nonce) + answer[16:]
    answers = [peer.ask(mirrored), peer.ask(peer.request())]
    yield "TransportReflected", f"its own message as a request, then a right one: {said(answers)}"
    one, two = peer.request(), peer.request()
    yield "TransportReordered", f"the second request, then the first: {said([peer.ask(two), peer.ask(one)])}"
    lost = peer.request()
    yield "TransportLost", f"{len(lost)} bytes lost, then the next: {said([peer.ask(peer.request())])}"


def main(words: list[str]) -> int:
    if len(words) != 3:
        print(__doc__, file=sys.stderr)
        return 2
    setup = int(words[0]), words[1], words[2]
    for tries in (transport, first_messages):
        for flag, what in tries(setup):
            print(f"{flag:24} {what}")
    return 0


if __name__ == "__main__":
    sys.exit(main(sys.argv[1:]))
