"""Datagrams: udp.py serve [PORT], and then udp.py ping [PORT]. The handshake is NNpsk0, so both have a file `secret` of
32 bytes.

DatagramProtocol sees to the handshake: its messages may be lost, repeated or late, and anybody may send others. What
comes after it may be lost, too, and is given out at most once: so the client asks again.
"""
import asyncio
import sys
from pathlib import Path

from yulimosar import Config, DatagramPeer, DatagramProtocol


def config() -> Config:
    """What both parties start from."""
    return Config(pattern="NNpsk0", prologue=b"udp 3", psks=[Path("secret").read_bytes()])


class Server(DatagramProtocol):
    """Sends back what it gets."""

    def peer_connected(self, peer: DatagramPeer) -> None:
        print(f"udp: a client at {peer.address[0]}", file=sys.stderr)

    def payload_received(self, peer: DatagramPeer, payload: bytes) -> None:
        peer.send(payload)


class Client(DatagramProtocol):
    """Puts what comes into a queue."""

    def __init__(self) -> None:
        super().__init__(config(), initiator=True)
        self.came: asyncio.Queue[bytes] = asyncio.Queue()

    def payload_received(self, peer: DatagramPeer, payload: bytes) -> None:
        self.came.put_nowait(payload)


async def ask(client: Client, peer: DatagramPeer, number: int, text: bytes) -> bytes:
    """The answer to a text. Its number tells it from an answer to an earlier one that comes late."""
    for _ in range(20):
        peer.send(bytes([number]) + text)
        try:
            async with asyncio.timeout(1):
                while (answer := await client.came.get())[0] != number:
                    pass
                return answer[1:]
        except TimeoutError:
            pass
    raise TimeoutError("the server doesn't answer")


async def ping(port: int) -> None:
    """Shakes hands, and sends three texts."""
    transport, client = await asyncio.get_running_loop().create_datagram_endpoint(
        Client, remote_addr=("127.0.0.1", port))
    peer = await client.connected
    for number, text in enumerate((b"one", b"two", b"three")):
        answer = await ask(client, peer, number, text)
        print(f"udp: the server says: {answer.decode()}")
    transport.close()


async def serve(port: int) -> None:
    """Serves for ever."""
    await asyncio.get_running_loop().create_datagram_endpoint(
        lambda: Server(config(), initiator=False), local_addr=("127.0.0.1", port))
    await asyncio.Event().wait()


asyncio.run({"serve": serve, "ping": ping}[sys.argv[1]](int(sys.argv[2]) if len(sys.argv) > 2 else 4045))
