"""A party over UDP for checks/udp/run.py, with the words of bindings/go/internal/udppeer:

    udp_peer.py serve PATTERN ADDRESS PORT BUSY PAYLOAD     sends back each payload
    udp_peer.py ask PATTERN ADDRESS PORT COUNT SECONDS      so many clients, each of which wants one text sent back

The static keys are X25519's of the secrets 01.., of the initiator, and 02..; each psk is 03.., and the prologue `udp`.
PAYLOAD is how many bytes go with the second message. A server prints its port, and each peer; `ask` prints what came of
each client, and at last how many have got their text. A line from standard input is another text, which the first
client asks for; its end ends the program.
"""
import asyncio
import contextlib
import sys

from yulimosar import Config, DatagramProtocol, HandshakeTimeout, KeyPair, layout


def config_of(pattern, initiator, seconds=10.0, payload=0):
    """What a party starts from."""
    keys = [KeyPair.from_secret(bytes([n] * 32)) for n in (1, 2)]
    own, other = keys if initiator else keys[::-1]
    read = layout(pattern)
    has_static = ["s" in before or any("s" in it.tokens for it in read.messages if it.initiator == first)
                  for before, first in ((read.initiator_before, True), (read.responder_before, False))]
    peer = {"peer_key": other.public} if has_static[initiator] else {"accept_any_key": True}
    return Config(pattern=pattern, prologue=b"udp", key=own if has_static[not initiator] else None, **peer,
                  psks=[bytes([3] * 32)] * read.psks, handshake_timeout=seconds,
                  payloads=() if initiator or not payload else (b"", bytes(payload)))


def say(text):
    print(text, flush=True)


class Server(DatagramProtocol):
    """Sends back what comes."""

    def peer_connected(self, peer):
        say(f"connected {peer.address[0]}")

    def peer_lost(self, peer, fault):
        say(f"lost {peer.address[0]}")

    def payload_received(self, peer, payload):
        peer.send(payload)


class Client(DatagramProtocol):
    """Puts what comes into a queue."""

    def __init__(self, config):
        super().__init__(config, initiator=True)
        self.came = asyncio.Queue()

    def payload_received(self, peer, payload):
        self.came.put_nowait(payload)


async def ask(client, text, seconds):
    """Sends a text until it comes back."""
    async with asyncio.timeout(seconds):
        peer = await client.connected
        while True:
            peer.send(text)
            with contextlib.suppress(TimeoutError):
                async with asyncio.timeout(0.5):
                    while await client.came.get() != text:
                        pass
                    return


async def lines():
    """The lines of standard input."""
    loop, reader = asyncio.get_running_loop(), asyncio.StreamReader()
    await loop.connect_read_pipe(lambda: asyncio.StreamReaderProtocol(reader), sys.stdin)
    while line := await reader.readline():
        yield line.strip()


async def serve(pattern, address, port, busy, payload):
    loop = asyncio.get_running_loop()
    config = config_of(pattern, False, payload=int(payload))
    transport, _ = await loop.create_datagram_endpoint(lambda: Server(config, False, busy=int(busy)),
                                                       local_addr=(address, int(port)))
    say(f"ready {transport.get_extra_info('sockname')[1]}")
    async for _ in lines():
        pass
    transport.close()


async def clients(pattern, address, port, count, seconds):
    loop, config, made = asyncio.get_running_loop(), config_of(pattern, True, float(seconds)), []
    for _ in range(int(count)):
        made.append((await loop.create_datagram_endpoint(lambda: Client(config), remote_addr=(address, int(port))))[1])

    async def one(number, client):
        try:
            await ask(client, b"text %d" % number, float(seconds))
        except (HandshakeTimeout, TimeoutError) as error:
            say(f"client {number}: {error!r}")
            return False
        return True

    got = await asyncio.gather(*(one(number, client) for number, client in enumerate(made)))
    say(f"{sum(got)} of {len(got)}")
    async for line in lines():
        try:
            await ask(made[0], line, 10)
            say(f"again {line.decode()}")
        except TimeoutError:
            say("silence")


asyncio.run({"serve": serve, "ask": clients}[sys.argv[1]](*sys.argv[2:]))
