"""Writes the listings of docs/PYTHON.md as programs: listings.py FOLDER. server.py and client.py are as they stand, at
a free port; pieces.py runs the others."""
import re
import socket
import sys
from pathlib import Path

TOP = Path(__file__).resolve().parent.parent.parent
PIECES = '''import asyncio
import socket
import threading
from typing import Any, Protocol

from yulimosar import (
    Channel, Config, Data, DatagramPeer, DatagramProtocol, End, Event, Handshake, Pending, accept, connect,
    start_server,
)


class trio:
    class SocketStream(Protocol):
        async def send_all(self, data: bytes) -> None: ...
        async def receive_some(self) -> bytes: ...


def say(address: Any, config: Config) -> bytes:
    WITH_A_SOCKET
    return answer


EVENTS


DATAGRAMS


MESSAGES


def serve(listener: socket.socket, config: Config) -> None:
    with accept(listener.accept()[0], config) as channel:
        channel.sendall(channel.makefile("rb").read())


class Stream:
    def __init__(self, reader: asyncio.StreamReader, writer: asyncio.StreamWriter) -> None:
        self.reader, self.writer = reader, writer

    async def send_all(self, data: bytes) -> None:
        self.writer.write(data)
        await self.writer.drain()

    async def receive_some(self) -> bytes:
        return await self.reader.read(100)


async def echo(reader: Any, writer: Any) -> None:
    async with writer:
        writer.write(await reader.readexactly(5))


async def over_a_channel(config: Config) -> list[Event]:
    async with await start_server(echo, "127.0.0.1", 0, config) as server:
        reader, writer = await asyncio.open_connection(*server.sockets[0].getsockname())
        channel, got = Channel(config, True), list[Event]()
        while not got or got[-1] != End():
            got.append(await next_event(channel, Stream(reader, writer)))
            if len(got) == 1:
                channel.write(b"hello")
        writer.close()
    return got


class Asks(DatagramProtocol):
    def __init__(self, config: Config) -> None:
        super().__init__(config, initiator=True)
        self.came: asyncio.Queue[bytes] = asyncio.Queue()

    def payload_received(self, peer: DatagramPeer, payload: bytes) -> None:
        self.came.put_nowait(payload)


async def over_datagrams(config: Config) -> bytes:
    with socket.socket(socket.AF_INET, socket.SOCK_DGRAM) as free:
        free.bind(("127.0.0.1", 0))
        address = free.getsockname()
    await serve_datagrams(address, config)
    loop = asyncio.get_running_loop()
    transport, asks = await loop.create_datagram_endpoint(lambda: Asks(config), remote_addr=address)
    (await asks.connected).send(b"hello")
    answer = await asks.came.get()
    transport.close()
    return answer


config = Config(pattern="NN", accept_any_key=True)
with socket.create_server(("127.0.0.1", 0)) as listener:
    threading.Thread(target=serve, args=(listener, config)).start()
    assert say(listener.getsockname(), config) == b"hello\\n"
assert asyncio.run(over_a_channel(config))[1:] == [Data(b"hello"), End()]
assert asyncio.run(over_datagrams(config)) == b"hello"
'''


def main() -> None:
    """Writes the programs."""
    folder = Path(sys.argv[1])
    folder.mkdir()
    text = (TOP / "docs/PYTHON.md").read_text(encoding="utf-8")
    listings = re.findall(r"^```python\n(.*?)^```$", text, re.S | re.M)
    server, client, with_a_socket, events, datagrams, messages = listings
    with socket.create_server(("127.0.0.1", 0)) as free:
        port = str(free.getsockname()[1])
    for name, listing in (("server", server), ("client", client)):
        assert listing.count("9000") == 1
        (folder / f"{name}.py").write_text(listing.replace("9000", port), encoding="utf-8")
    pieces = PIECES.replace("WITH_A_SOCKET", with_a_socket.rstrip().replace("\n", "\n    "))
    for name, listing in (("EVENTS", events), ("DATAGRAMS", datagrams), ("MESSAGES", messages)):
        pieces = pieces.replace(name, listing.rstrip())
    (folder / "pieces.py").write_text(pieces, encoding="utf-8")


main()
