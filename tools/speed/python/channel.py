"""Channels over TCP on this machine, of the package and of the module ssl: a process writes, and another reads.

SPEED_KEYS is a folder with a certificate for localhost. The module ssl takes no cipher suite for TLS 1.3: OPENSSL_CONF
has to name a file that does.
"""
from __future__ import annotations

import os
import socket
import ssl
import time
from collections.abc import Callable
from typing import Protocol

from yulimosar import Config, accept, connect

KEYS = os.environ.get("SPEED_KEYS", "")
SUITE = "TLS_CHACHA20_POLY1305_SHA256"
NN = Config(pattern="NN", accept_any_key=True)


class End(Protocol):
    """One end of a channel."""

    def recv(self, count: int, /) -> bytes:
        ...

    def sendall(self, data: bytes, /) -> None:
        ...


Wrap = Callable[[socket.socket, bool], End]


def by_noise(below: socket.socket, is_client: bool) -> End:
    return connect(below, NN) if is_client else accept(below, NN)


def by_ssl(below: socket.socket, is_client: bool) -> End:
    context = ssl.SSLContext(ssl.PROTOCOL_TLS_CLIENT if is_client else ssl.PROTOCOL_TLS_SERVER)
    context.minimum_version = ssl.TLSVersion.TLSv1_3
    if is_client:
        context.load_verify_locations(f"{KEYS}/ca.pem")
        made = context.wrap_socket(below, server_hostname="localhost")
    else:
        context.load_cert_chain(f"{KEYS}/cert.pem", f"{KEYS}/key.pem")
        made = context.wrap_socket(below, server_side=True)
    if (taken := made.cipher()) and taken[0] != SUITE:
        raise RuntimeError(f"ssl took {taken[0]}: OPENSSL_CONF has to name {SUITE}")
    return made


def read(listener: socket.socket, wrap: Wrap, wanted: int) -> int:
    """Reads so many bytes, and gives the nanoseconds of processor time that they took."""
    reader = wrap(listener.accept()[0], False)
    begun = time.process_time_ns()
    while wanted:
        if not (came := reader.recv(min(1 << 16, wanted))):
            raise EOFError
        wanted -= len(came)
    return time.process_time_ns() - begun


def read_apart(listener: socket.socket, wrap: Wrap, wanted: int) -> int:
    """Reads in a process of its own, which tells the time that it took by the pipe that is returned."""
    told, tells = os.pipe()
    if os.fork():
        os.close(tells)
        return told
    try:
        os.write(tells, str(read(listener, wrap, wanted)).encode())
    finally:
        os._exit(0)


def timed(wrap: Wrap, size: int, count: int) -> int:
    """The nanoseconds of processor time that both processes take for so many writes."""
    with socket.create_server(("127.0.0.1", 0)) as listener:
        told = read_apart(listener, wrap, size * count)
        writer, payload = wrap(socket.create_connection(listener.getsockname()), True), bytes(size)
    begun = time.process_time_ns()
    for _ in range(count):
        writer.sendall(payload)
    taken = time.process_time_ns() - begun
    taken += int(os.read(told, 32))    # and only then the socket is closed: a ticket of TLS may be unread in it
    os.wait()
    os.close(told)
    return taken


CHANNELS = {"channel": by_noise, **({"ssl.channel": by_ssl} if KEYS else {})}
