"""Channels over datagrams: networks that lose, repeat, delay and forge, and the DatagramProtocol of asyncio."""
import asyncio
import contextlib
import copy
import gc
import logging
import pickle
import random

import pytest
from loops import each_loop, run, settle, until
from toys import Xor, configs

from yulimosar import (CallError, Code, Config, ConfigError, DatagramChannel, DatagramProtocol, Handshake,
                       HandshakeTimeout, MessageRefused, PeerRefused, layout, udp)

assert each_loop    # a fixture of the tests with a loop
LONG = "MINE5:\n  -> e\n  <- e, ee\n  -> s, se\n  <- s, es\n"
PATTERNS = ["NNpsk0", "XX", "IK", "KK", "XXpsk3", LONG]


# Handshake.try_read.

def pair(pattern, **words):
    first, second = configs(pattern, **words)
    return Handshake(first, True), Handshake(second, False)


@pytest.mark.parametrize("pattern", ["NNpsk0", "XX", "IK", "KK", "XXpsk3"])
def test_a_refused_try_changes_nothing(pattern):
    """Each byte of each message changed, other lengths, and more strangers than there is room for results of X25519."""
    initiator, responder = pair(pattern)
    ends = initiator, responder
    for index in range(len(layout(pattern).messages)):
        writer, reader = ends if index % 2 == 0 else ends[::-1]
        sent, hash_ = writer.write(b"payload"), reader.hash
        tries = [sent[:at] + bytes([sent[at] ^ 1]) + sent[at + 1:] for at in range(len(sent))]
        tries += [sent[:at] for at in range(len(sent))] + [bytes(65536), sent + b"x"]
        for forged in tries:
            if not is_plain(pattern, index, forged, sent):
                with pytest.raises(MessageRefused):
                    reader.try_read(forged)
                assert (reader.hash, reader.message, reader.closed) == (hash_, index, False)
        assert reader.try_read(sent) == b"payload"
    assert initiator.hash == responder.hash


def is_plain(pattern, index, forged, sent):
    """Whether a stranger can send that message: nothing in it is encrypted."""
    return not layout(pattern).messages[index].pieces[-1].name == "tag" and 32 <= len(forged) <= 65535


def test_a_try_that_the_config_refuses_changes_nothing():
    """A message of somebody else, who has a key of his own, and one of whose keys `verify` says nothing good."""
    first, second = configs("XX")
    initiator = Handshake(first, True)
    message = initiator.write()
    for _ in range(20):
        words = {"key": Xor(), "accept_any_key": True, "prologue": b"test", "ephemeral": Xor}
        stranger = Handshake(Config(pattern="XX", **words), False)
        stranger.read(message)
        with pytest.raises(MessageRefused) as caught:
            initiator.try_read(stranger.write())
        assert isinstance(caught.value.cause, PeerRefused) and initiator.message == 1
    responder = Handshake(second, False)
    responder.read(message)
    initiator.try_read(responder.write())
    responder.read(initiator.write())
    assert initiator.hash == responder.hash


def test_a_try_by_a_stranger_who_claims_anothers_key():
    """The secret that `psk_for` chose for the claimed key isn't kept for the party that has it."""
    first, second = configs("IKpsk1")
    secrets = {first.key.public: first.psks[0], bytes(32): bytes(32)}
    words = {"pattern": "IKpsk1", "key": second.key, "prologue": b"test", "ephemeral": Xor}
    responder = Handshake(Config(**words, verify=lambda key: True, psk_for=lambda key: [secrets[key]]), False)
    for _ in range(12):
        words = {"pattern": "IKpsk1", "key": Xor(bytes(32)), "prologue": b"test", "ephemeral": Xor}
        stranger = Config(**words, psks=[bytes([9] * 32)], peer_key=second.key.public)
        with pytest.raises(MessageRefused):
            responder.try_read(Handshake(stranger, True).write())
    initiator = Handshake(first, True)
    responder.try_read(initiator.write())
    initiator.try_read(responder.write())
    assert initiator.hash == responder.hash


def test_a_try_out_of_turn():
    initiator, responder = pair("NN")
    with pytest.raises(CallError) as caught:
        initiator.try_read(b"")
    assert caught.value.code == Code.NOT_YOUR_TURN
    initiator.close()
    with pytest.raises(CallError):
        initiator.try_read(b"")
    responder.close()


# A channel, without input and output.

class Network:
    """What both parties send comes after some steps, or not, or more than once; strangers send, too."""

    def __init__(self, pattern, seed, loss=0.0, repeat=0.0, delay=0, forge=0):
        self.random, self.loss, self.repeat, self.delay, self.forge = random.Random(seed), loss, repeat, delay, forge
        first, second = configs(pattern)
        self.ends = DatagramChannel(first, True), DatagramChannel(second, False)
        self.queue, self.sent, self.got, self.now = [], [], [[], []], 0

    def step(self):
        for index, end in enumerate(self.ends):
            if self.now % 3 == 0:
                end.repeat()
            for datagram in end.datagrams_to_send():
                self.sent.append(datagram)
                for _ in range(1 + (self.random.random() < self.repeat)):
                    if self.random.random() >= self.loss:
                        self.queue.append((self.now + self.random.randint(0, self.delay), 1 - index, datagram))
        for _ in range(self.forge):
            self.queue.append((self.now, self.random.randrange(2), self.forged()))
        due = [it for it in self.queue if it[0] <= self.now]
        self.queue = [it for it in self.queue if it[0] > self.now]
        self.random.shuffle(due)
        for _, index, datagram in due:
            payload = self.ends[index].receive(datagram)
            if payload is not None:
                self.got[index].append(payload)
        self.now += 1

    def forged(self):
        """Random bytes of each kind, and what was sent before, changed, shortened or as it was."""
        kind, data = self.random.randrange(4), bytearray(self.random.choice(self.sent or [b"\0"]))
        if kind == 0:
            return bytes([self.random.randrange(6)]) + self.random.randbytes(self.random.randrange(120))
        if kind == 1:
            data[self.random.randrange(1, max(len(data), 2)) % len(data)] ^= 1 << self.random.randrange(8)
        elif kind == 2:
            del data[self.random.randrange(len(data)):]
        return bytes(data)

    def run(self, most=2000):
        while not all(end.agreed for end in self.ends):
            self.step()
            assert self.now < most, "the handshake doesn't come to its end"
        assert self.ends[0].agreed.hash == self.ends[1].agreed.hash
        for number in range(5):
            for end in self.ends:
                end.send(bytes([number + 1]))
        self.step()
        for _ in range(self.delay + 2):
            self.step()
        for got in self.got:
            assert len(got) == len(set(got)), "a payload came twice"
        return self


@pytest.mark.parametrize("pattern", PATTERNS)
def test_a_network_that_does_nothing(pattern):
    """Each party sends its messages, and that it has the keys: nothing else, and all payloads come."""
    network = Network(pattern, 1).run()
    assert [sorted(got) for got in network.got] == [[bytes([n + 1]) for n in range(5)]] * 2
    assert network.now < 12
    for end in network.ends:
        end.repeat()
        assert not end.datagrams_to_send()


@pytest.mark.parametrize("pattern", PATTERNS)
def test_networks_that_lose_repeat_and_delay(pattern):
    for seed in range(60):
        Network(pattern, seed, loss=0.5, repeat=0.5, delay=12).run()


@pytest.mark.parametrize("pattern", ["NNpsk0", "IK", "KK"])
def test_strangers(pattern):
    """They send between all that is sent. In XX anybody sends a first message: the protocol has a channel for each."""
    for seed in range(30):
        Network(pattern, seed, loss=0.2, repeat=0.3, delay=5, forge=3).run()


@pytest.mark.parametrize("pattern", PATTERNS)
def test_a_message_that_comes_again_is_answered_by_the_same_bytes(pattern):
    first, second = configs(pattern)
    ends = DatagramChannel(first, True), DatagramChannel(second, False)
    sent = ends[0].datagrams_to_send()
    for index in range(len(layout(pattern).messages) - 1):
        reader = ends[1 - index % 2]
        reader.receive(sent[0])
        answer = reader.datagrams_to_send()
        for _ in range(3):
            assert reader.receive(sent[0]) is None and reader.datagrams_to_send() == answer[:1]
        sent = answer
    assert not any(end.agreed for end in ends)


def test_what_a_channel_refuses():
    for config, error in ((configs("N")[0], ConfigError), (Config(pattern="NN"), ConfigError)):
        with pytest.raises(error):
            DatagramChannel(config, True)
    with pytest.raises(CallError):
        DatagramChannel(configs("NN")[0], True, window=65)
    channel = DatagramChannel(configs("NN")[0], True)
    for call in (lambda: channel.send(b"x"), lambda: channel.send(b"")):
        with pytest.raises(CallError):
            call()
    assert channel.receive(b"") is None and channel.receive(b"\x08" + bytes(40)) is None
    channel.close()
    assert channel.receive(b"\1" + bytes(48)) is None and not channel.datagrams_to_send()
    network = Network("NN", 1).run()
    with pytest.raises(ValueError):
        network.ends[0].send(b"")
    network.ends[0].close()
    assert network.ends[0].receive(b"\x08" + bytes(40)) is None


def test_a_channel_is_not_copied():
    before, done = DatagramChannel(configs("NN")[0], True), Network("NN", 1).run().ends[0]
    for it in (before, done):
        for call in (copy.copy, copy.deepcopy, pickle.dumps):
            with pytest.raises(TypeError, match="a DatagramChannel isn't copied"):
                call(it)


def test_a_key_of_low_order_is_dropped():
    """`ee` of a stranger's first message is computed where the second is written."""
    channel = DatagramChannel(Config(pattern="NN", accept_any_key=True), False)
    assert channel.receive(b"\0" + bytes(32)) is None
    assert not channel.begun and channel.fault is not None and not channel.datagrams_to_send()


# The protocol of asyncio.

class Parties(DatagramProtocol):
    """Notes what is called; a responder sends payloads back."""

    def __init__(self, config, initiator, **words):
        super().__init__(config, initiator, **words)
        self.peers, self.lost, self.came = [], [], asyncio.Queue()

    def peer_connected(self, peer):
        self.peers.append(peer)

    def payload_received(self, peer, payload):
        self.came.put_nowait(payload)
        if not self._initiator:
            peer.send(payload)

    def peer_lost(self, peer, fault):
        self.lost.append((peer, fault))


class Relay(asyncio.DatagramProtocol):
    """Between clients and a server: it repeats, delays, drops and forges. Clients see one address, and the server
    another for each client."""

    def __init__(self, address, delay=0.0, repeats=0, drops=0.0, forges=False, seed=1):
        self.address, self.delay, self.repeats, self.drops, self.forges = address, delay, repeats, drops, forges
        self.random, self.ways, self.tasks = random.Random(seed), {}, set()

    def connection_made(self, transport):
        self.transport = transport

    def datagram_received(self, data, addr):
        task = asyncio.get_running_loop().create_task(self.there(data, addr))
        self.tasks.add(task)
        task.add_done_callback(self.tasks.discard)

    async def there(self, data, addr):
        if addr not in self.ways:
            loop = asyncio.get_running_loop()
            self.ways[addr] = loop.create_task(loop.create_datagram_endpoint(lambda: Back(self, addr),
                                                                             remote_addr=self.address))
        way, _ = await asyncio.shield(self.ways[addr])
        self.pass_on(data, way.sendto)

    def pass_on(self, data, send):
        loop = asyncio.get_running_loop()
        if self.forges:
            changed = bytearray(data)
            changed[self.random.randrange(len(data))] ^= 1 << self.random.randrange(8)
            others = self.random.randbytes(60)
            for forged in (bytes(changed), data[:-1], data[:1] + others, b"\0" + others, b"\0" + bytes(40), b"", b"\1"):
                send(forged)
        for _ in range(1 + self.repeats):
            if self.random.random() >= self.drops:
                loop.call_later(self.delay * (0.5 + self.random.random()), self.send, send, data)

    def send(self, send, data):
        if not self.transport.is_closing():
            send(data)

    async def close(self):
        self.transport.close()
        for task in self.tasks | set(self.ways.values()):
            with contextlib.suppress(asyncio.CancelledError):
                made = await task
                if made:
                    made[0].close()


class Back(asyncio.DatagramProtocol):
    def __init__(self, relay, client):
        self.relay, self.client = relay, client

    def datagram_received(self, data, addr):
        self.relay.pass_on(data, lambda it: self.relay.transport.sendto(it, self.client))


@contextlib.asynccontextmanager
async def server_behind(config, relay=None, **words):
    """A server, maybe behind a relay; the protocol and the address for clients."""
    loop = asyncio.get_running_loop()
    transport, server = await loop.create_datagram_endpoint(lambda: Parties(config, False, **words),
                                                            local_addr=("127.0.0.1", 0))
    address, between = transport.get_extra_info("sockname"), None
    if relay is not None:
        _, between = await loop.create_datagram_endpoint(lambda: Relay(address, **relay), local_addr=("127.0.0.1", 0))
        address = between.transport.get_extra_info("sockname")
    try:
        yield server, address
    finally:
        if between is not None:
            await between.close()
        transport.close()
        await settle()


@contextlib.asynccontextmanager
async def client_at(address, config):
    loop = asyncio.get_running_loop()
    transport, client = await loop.create_datagram_endpoint(lambda: Parties(config, True), remote_addr=address)
    try:
        yield client
    finally:
        transport.close()
        await asyncio.sleep(0)


async def ask(client, peer, payload):
    """Sends a payload until it comes back."""
    for _ in range(200):
        peer.send(payload)
        with contextlib.suppress(TimeoutError):
            async with asyncio.timeout(0.3):
                while await client.came.get() != payload:
                    pass
                return
    raise AssertionError("nothing comes back")


@pytest.mark.parametrize("pattern", ["NNpsk0", "XX", "IK", LONG])
@pytest.mark.parametrize("relay", [
    None, {"repeats": 2}, {"delay": 0.7}, {"delay": 0.05, "drops": 0.4, "repeats": 1}, {"forges": True, "repeats": 1}],
    ids=["direct", "repeats", "delays", "drops", "forges"])
def test_a_conversation(each_loop, pattern, relay):
    if relay == {"delay": 0.7} and (each_loop, pattern) not in (("asyncio", "XX"), ("uvloop", "NNpsk0")):
        pytest.skip("once with each loop is enough")

    async def main(_result):
        first, second = configs(pattern, handshake_timeout=60)
        async with server_behind(second, relay) as (server, address), client_at(address, first) as client:
            peer = await client.connected
            for text in (b"one", b"two", b"three"):
                await ask(client, peer, text)
            assert len(server.peers) == 1 and client.peers == [peer] and peer.address is None
            assert server.peers[0].noise.hash == peer.noise.hash and not server.lost
            peer.close()
            with pytest.raises(CallError):
                peer.send(b"late")
    run(main)


def test_many_clients_and_strangers(each_loop):
    """Others send junk from addresses of their own: they make no peer, and no memory grows."""
    async def main(_result):
        first, second = configs("XX")
        async with server_behind(second) as (server, address):
            loop = asyncio.get_running_loop()
            junk, _ = await loop.create_datagram_endpoint(asyncio.DatagramProtocol, remote_addr=address)
            for number in range(300):
                junk.sendto(b"\0" + number.to_bytes(32, "big"))
                junk.sendto(b"\2" + bytes(64))
                await asyncio.sleep(0)
            async with contextlib.AsyncExitStack() as stack:
                clients = [await stack.enter_async_context(client_at(address, first)) for _ in range(20)]
                peers = await asyncio.gather(*(client.connected for client in clients))
                await asyncio.gather(*(ask(client, peer, b"text") for client, peer in zip(clients, peers)))
                assert len(server._peers) == 20 and len(server._begun) <= udp.MOST_BEGUN
            junk.close()
    run(main)


def test_a_handshake_from_the_same_address_replaces_the_peer_once_it_opens(each_loop):
    """A recorded first message that comes again later doesn't: the old channel goes on beside it."""
    async def main(_result):
        first, second = configs("IK")
        async with server_behind(second, {}) as (server, address):
            relay_client, loop = [], asyncio.get_running_loop()
            transport, raw = await loop.create_datagram_endpoint(lambda: Recorder(relay_client), remote_addr=address)
            old = DatagramChannel(first, True)
            await raw.shake(old)
            stale = DatagramChannel(first, True)
            transport.sendto(stale.datagrams_to_send()[0])    # a handshake that never shows that it has the keys
            await asyncio.sleep(0.1)
            assert len(server.peers) == 1 and not server.lost
            old.send(b"still there")
            assert await raw.answer(old) == b"still there" and not server.lost
            new = DatagramChannel(first, True)
            await raw.shake(new)
            await until(lambda: len(server.peers) == 2)
            assert server.lost == [(server.peers[0], None)]
            new.send(b"and back")
            assert await raw.answer(new) == b"and back"
            for channel in (old, stale, new):
                channel.close()
            transport.close()
    run(main)


def test_strangers_do_not_displace_a_handshake_that_is_done(each_loop):
    """The client has all it needs, and the server hasn't heard of it, while others begin more than it holds."""
    async def main(_result):
        first, second = configs("XX", handshake_timeout=60)
        async with server_behind(second, busy=udp.MOST_BEGUN + 1) as (server, address):
            loop = asyncio.get_running_loop()
            transport, raw = await loop.create_datagram_endpoint(lambda: Recorder([]), remote_addr=address)
            channel = DatagramChannel(first, True)
            while channel.agreed is None:
                for datagram in channel.datagrams_to_send():
                    transport.sendto(datagram)
                channel.receive(await raw.came.get())
            channel.datagrams_to_send()    # it doesn't come
            for number in range(1, udp.MOST_BEGUN + 150):
                transport.sendto(b"\0" + number.to_bytes(32, "big"))
                await asyncio.sleep(0.001)
            await until(lambda: len(server._begun) == udp.MOST_BEGUN)
            channel.send(b"text")
            assert await raw.answer(channel) == b"text" and len(server.peers) == 1
            channel.close()
            transport.close()
    run(main)


class Recorder(asyncio.DatagramProtocol):
    """A client's socket without a protocol."""

    def __init__(self, came):
        self.came = asyncio.Queue()

    def connection_made(self, transport):
        self.transport = transport

    def datagram_received(self, data, addr):
        self.came.put_nowait(data)

    async def shake(self, channel):
        while channel.agreed is None:
            await self.answer(channel, wait=False)

    async def answer(self, channel, wait=True):
        async with asyncio.timeout(20):
            while True:
                for datagram in channel.datagrams_to_send():
                    self.transport.sendto(datagram)
                payload = channel.receive(await self.came.get())
                for datagram in channel.datagrams_to_send():
                    self.transport.sendto(datagram)
                if payload is not None or not wait:
                    return payload


def test_limits(each_loop, monkeypatch):
    """Of peers, of handshakes that aren't done, of silence."""
    monkeypatch.setattr(udp, "MOST_BEGUN", 4)

    async def main(_result):
        first, second = configs("XX")
        async with server_behind(second, most_peers=2, idle=4) as (server, address):
            async with contextlib.AsyncExitStack() as stack:
                for _ in range(3):
                    client = await stack.enter_async_context(client_at(address, first))
                    await ask(client, await client.connected, b"text")
                assert [peer for peer, fault in server.lost if fault is None] == server.peers[:1]
                await until(lambda: len(server.lost) == 3)
                assert isinstance(server.lost[-1][1], TimeoutError) and not server._peers and not server._firsts
    run(main)


def test_a_payload_that_no_datagram_takes(each_loop):
    """The largest one comes; of a larger one the system would say so where nobody hears it."""
    async def main(_result):
        first, second = configs("NN")
        async with server_behind(second) as (_, address), client_at(address, first) as client:
            peer = await client.connected
            await ask(client, peer, bytes(65474))
            with pytest.raises(ValueError, match="at most 65474 bytes"):
                peer.send(bytes(65475))
    run(main)


def test_the_first_message_is_sent_once_until_it_is_due_again(each_loop):
    async def main(_result):
        loop = asyncio.get_running_loop()
        transport, silent = await loop.create_datagram_endpoint(lambda: Recorder(None), local_addr=("127.0.0.1", 0))
        first, _ = configs("NN")
        begun = loop.time()
        async with client_at(transport.get_extra_info("sockname"), first):
            sent = [await silent.came.get(), await silent.came.get()]
            assert sent[0] == sent[1] and loop.time() - begun >= udp.RESEND / 2
        transport.close()
    run(main)


def test_a_handshake_that_does_not_succeed(each_loop):
    """Nobody answers; the server has another psk; and the socket is closed."""
    async def main(_result):
        loop = asyncio.get_running_loop()
        silent, _ = await loop.create_datagram_endpoint(asyncio.DatagramProtocol, local_addr=("127.0.0.1", 0))
        first, second = configs("NNpsk0", handshake_timeout=0.6)
        async with client_at(silent.get_extra_info("sockname"), first) as client:
            with pytest.raises(HandshakeTimeout):
                await client.connected
        async with client_at(silent.get_extra_info("sockname"), first) as client:
            pass
        with pytest.raises(HandshakeTimeout):
            await client.connected
        silent.close()
        first, second = configs("XX", handshake_timeout=3)    # the server answers within it
        other = Config(pattern="XX", key=Xor(), accept_any_key=True, prologue=b"test", ephemeral=Xor)
        async with server_behind(other) as (_, address), client_at(address, first) as client:
            with pytest.raises(HandshakeTimeout) as caught:
                await client.connected
            assert isinstance(caught.value.__cause__.cause, PeerRefused)
        refuses = Config(pattern="NK", peer_key=second.key.public, verify=lambda key: False, ephemeral=Xor)
        async with server_behind(other) as (_, address), client_at(address, refuses) as client:
            with pytest.raises(MessageRefused):
                await client.connected
    run(main)


def test_a_fault_of_the_servers_program_is_logged_as_an_error(each_loop):
    def verify(_key):
        raise TypeError("a bug")

    records = []
    handler = logging.Handler()
    handler.emit = records.append
    logging.getLogger("yulimosar").addHandler(handler)

    async def main(_result):
        first, second = configs("IK", handshake_timeout=60)
        broken = Config(pattern="IK", key=second.key, verify=verify, prologue=b"test", ephemeral=Xor)
        async with server_behind(broken) as (_, address), client_at(address, first) as client:
            await until(lambda: records)
        with pytest.raises(HandshakeTimeout):
            await client.connected
    try:
        run(main)
    finally:
        logging.getLogger("yulimosar").removeHandler(handler)
    assert {record.levelno for record in records} == {logging.ERROR} and records[0].exc_info


def test_nothing_is_left():
    gc.collect()
    from yulimosar.memory import _all
    before = len(_all)
    for seed in range(20):
        Network("XX", seed, loss=0.3, repeat=0.3, delay=4).run()
    gc.collect()
    assert len(_all) <= before
