"""What is between clients and a server over UDP, and strangers beside them."""

from __future__ import annotations

import asyncio
import contextlib
import hashlib
import os
import random
import socket
from collections.abc import Callable, Iterator

HOST, HOST_6 = "127.0.0.1", "::1"


def socket_at(address: str) -> socket.socket:
    """A socket at an address of IPv4 or IPv6."""
    own = socket.socket(socket.AF_INET6 if ":" in address else socket.AF_INET, socket.SOCK_DGRAM)
    own.setsockopt(socket.SOL_SOCKET, socket.SO_RCVBUF, 4 << 20)
    own.bind((address, 0))
    own.setblocking(False)
    return own


def server_of(address: str) -> str:
    """The address at which a party of this one finds the server."""
    return HOST_6 if ":" in address else HOST


def first_messages(count: int) -> Iterator[bytes]:
    """First messages of XX, NN, NX: each a public key that nobody has drawn, as 33 bytes."""
    for _ in range(count):
        yield b"\0" + os.urandom(32)


class Stranger:
    """A socket at an address of its own."""

    def __init__(self, address: str) -> None:
        self._socket, self._server = socket_at(address), server_of(address)
        self.sent = 0    # bytes

    def send(self, datagram: bytes, port: int) -> None:
        """Sends a datagram to the server."""
        self.sent += len(datagram)
        with contextlib.suppress(OSError):
            self._socket.sendto(datagram, (self._server, port))

    def datagrams(self) -> list[bytes]:
        """What has come."""
        found = []
        with contextlib.suppress(OSError):
            while True:
                found.append(self._socket.recv(65536))
        return found

    def received(self) -> int:
        """How many bytes have come."""
        return sum(map(len, self.datagrams()))

    def at_each(self, call: Callable[[bytes], None]) -> None:
        """Calls a function with each datagram that comes."""
        def read() -> None:
            for datagram in self.datagrams():
                call(datagram)

        asyncio.get_running_loop().add_reader(self._socket.fileno(), read)

    def close(self) -> None:
        asyncio.get_running_loop().remove_reader(self._socket.fileno())
        self._socket.close()


class Flood:
    """Strangers who send first messages; those who answer repeat each with the cookie that comes."""

    def __init__(self, port: int, addresses: list[str], rate: int, answers: bool) -> None:
        self._port, self._rate, self._answers = port, rate, answers
        self._strangers = [Stranger(address) for address in addresses]
        self.sent = self.shown = self.begun = 0    # first messages, those with a cookie, and handshakes that began
        self._answered = 0
        self._since = asyncio.get_running_loop().time()

    @property
    def seconds(self) -> float:
        """How long it lasts."""
        return asyncio.get_running_loop().time() - self._since

    @classmethod
    @contextlib.asynccontextmanager
    async def of(cls, port: int, addresses: list[str], rate: int, answers: bool = False):
        """Floods a server."""
        flood = cls(port, addresses, rate, answers)
        task = asyncio.get_running_loop().create_task(flood._run())
        try:
            yield flood
        finally:
            task.cancel()
            with contextlib.suppress(asyncio.CancelledError):
                await task
            for stranger in flood._strangers:
                stranger.close()

    async def has_sent(self, count: int) -> None:
        """Waits until so many datagrams were sent."""
        while self.sent < count:
            await asyncio.sleep(0.01)

    async def has_shown(self, count: int) -> None:
        """Waits until so many first messages were sent with the cookie that came."""
        while self.shown < count:
            await asyncio.sleep(0.01)

    def answered(self) -> int:
        """How many of those who don't answer have got message 1."""
        self._answered += sum(it[:1] == b"\x01" for stranger in self._strangers for it in stranger.datagrams())
        return self._answered

    async def _run(self) -> None:
        loop = asyncio.get_running_loop()
        begun, sent = loop.time(), dict[bytes, bytes]()    # first messages by their hashes
        for stranger in self._strangers if self._answers else ():
            stranger.at_each(lambda datagram, it=stranger: self._answer(it, datagram, sent))
        while True:
            due = min(int((loop.time() - begun) * self._rate), self.sent + 100)
            for message in first_messages(due - self.sent):
                if self._answers:
                    sent[hashlib.sha256(message[1:]).digest()[:16]] = message[1:]
                self._strangers[self.sent % len(self._strangers)].send(message, self._port)
                self.sent += 1
            while len(sent) > 5000:
                del sent[next(iter(sent))]
            await asyncio.sleep(0.01)

    def _answer(self, stranger: Stranger, datagram: bytes, sent: dict[bytes, bytes]) -> None:
        """Sends a first message again, with the cookie that has come for it."""
        self.begun += datagram[:1] == b"\x01"
        if datagram[:1] == b"\x09" and datagram[1:17] in sent:
            self.shown += 1
            stranger.send(b"\x0a" + datagram[17:] + sent[datagram[1:17]], self._port)


class Relay(asyncio.DatagramProtocol):
    """Passes datagrams between clients and a server, each way after `delay` seconds, but for `loss` of them. The server
    sees an address for each client; or `source` with a port for each, as of a NAT; with `sticky` one for all, in turn.
    """

    def __init__(self, server: int, delay: float, source: str | None, sticky: bool, loss: float) -> None:
        self._server, self._delay, self._source, self._sticky, self._loss = server, delay, source, sticky, loss
        self._dice = random.Random(1)
        self._ways: dict[object, tuple[_Sender, object]] = {}
        self._hook: tuple[int, Callable[[bytes], bool]] | None = None
        self._closing: list[_Sender] = []
        self._holds, self.held = False, b""
        self.port = 0
        self.is_open = True    # what comes for the server while it isn't is lost
        self.went: list[bytes] = []    # the last datagrams for the server
        self.begun: set[bytes] = set()    # the first messages of clients

    @classmethod
    @contextlib.asynccontextmanager
    async def between(cls, server: int, delay: float = 0.0, source: str | None = None, sticky: bool = False,
                      loss: float = 0.0):
        """Relays to a server's port."""
        loop = asyncio.get_running_loop()
        transport, relay = await loop.create_datagram_endpoint(
            lambda: cls(server, delay, source, sticky, loss), local_addr=(HOST, 0)
        )
        relay._transport = transport
        relay.port = transport.get_extra_info("sockname")[1]
        try:
            yield relay
        finally:
            for it in [transport, *(way[0] for way in relay._ways.values()), *relay._closing]:
                it.close()
            await asyncio.sleep(0)

    def once_back(self, kind: int, hook: Callable[[bytes], bool]) -> None:
        """Calls a function at the first datagram of a kind from the server, which says whether that is passed on."""
        self._hook = kind, hook

    def hold(self) -> None:
        """Keeps the next transport datagram to the server, and doesn't pass it on: `held`."""
        self._holds = True

    def move(self, source: str) -> None:
        """Another address for all clients; what comes to the one before is lost."""
        self._source = source
        for transport, _ in self._ways.values():
            transport.stop()
        self._closing += [way[0] for way in self._ways.values()]
        self._ways.clear()

    def datagram_received(self, data: bytes, addr: object) -> None:
        if self._holds and data[:1] == b"\x08":
            self._holds, self.held = False, data
            return
        self.went = [*self.went[-20:], data]
        if data[:1] in (b"\x00", b"\x0a"):
            self.begun.add(data[1 if data[:1] == b"\x00" else 17:])
        if self.is_open:
            asyncio.get_running_loop().call_later(self._delay, self._there, data, addr)

    def _there(self, data: bytes, addr: object) -> None:
        name = None if self._sticky else addr
        transport, _ = self._ways.get(name, (None, None))
        if transport is None:
            transport = self._way(name)
        self._ways[name] = transport, addr
        if self._dice.random() >= self._loss:
            transport.sendto(data, (server_of(self._source or HOST), self._server))

    def _way(self, name: object) -> _Sender:
        """A socket of its own, by which the server sees a client."""
        own = socket_at(self._source or f"127.9.{len(self._ways) // 250}.{len(self._ways) % 250 + 1}")
        asyncio.get_running_loop().add_reader(own.fileno(), self._back, own, name)
        return _Sender(own)

    def _back(self, own: socket.socket, name: object) -> None:
        try:
            data = own.recv(65536)
        except OSError:
            return
        if self._hook is not None and data[:1] == bytes([self._hook[0]]):
            hook, self._hook = self._hook[1], None
            if not hook(data):
                return
        _, client = self._ways.get(name, (None, None))
        if client is not None and self._dice.random() >= self._loss:
            asyncio.get_running_loop().call_later(self._delay, self._send, data, client)

    def _send(self, data: bytes, client: object) -> None:
        if not self._transport.is_closing():
            self._transport.sendto(data, client)


class _Sender:
    """A socket with a transport's calls."""

    def __init__(self, own: socket.socket) -> None:
        self._own = own

    def sendto(self, data: bytes, to: object) -> None:
        with contextlib.suppress(OSError):
            self._own.sendto(data, to)

    def stop(self) -> None:
        asyncio.get_running_loop().remove_reader(self._own.fileno())

    def close(self) -> None:
        self.stop()
        self._own.close()
