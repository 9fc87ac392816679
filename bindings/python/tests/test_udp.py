"""Cookies, three times the bytes, restarts and roaming of the DatagramProtocol (docs/UDP.md)."""
import asyncio
import contextlib
import hashlib

import pytest
from loops import each_loop, run, until
from test_datagrams import Recorder, ask, client_at, server_behind
from toys import configs

from yulimosar import DatagramChannel, HandshakeTimeout, rules, udp

assert each_loop    # a fixture of the tests with a loop


class Raw(Recorder):
    """A client's socket without a protocol, which shows what comes."""

    async def next(self, seconds=20):
        async with asyncio.timeout(seconds):
            return await self.came.get()


@contextlib.asynccontextmanager
async def raw_at(address):
    loop = asyncio.get_running_loop()
    transport, raw = await loop.create_datagram_endpoint(lambda: Raw([]), remote_addr=address)
    try:
        yield raw
    finally:
        transport.close()
        await asyncio.sleep(0)


def first_message(number):
    return b"\0" + number.to_bytes(32, "big")


def test_at_load_nothing_is_kept_or_computed_without_a_cookie(each_loop, monkeypatch):
    made = []

    class Counted(DatagramChannel):
        def __init__(self, *words):
            super().__init__(*words)
            made.append(self)

    async def main(_result):
        first, second = configs("XX")
        async with server_behind(second) as (server, address), raw_at(address) as raw:
            monkeypatch.setattr(udp, "DatagramChannel", Counted)
            for number in range(1, 101):
                raw.transport.sendto(first_message(number))
            came = [await raw.next() for _ in range(100)]
            assert [it[0] for it in came] == [1] * 16 + [9] * 84 and len(made) == len(server._begun) == 16
            for number, reply in enumerate(came[16:], 17):
                assert reply[1:17] == hashlib.sha256(first_message(number)[1:]).digest()[:16] and len(reply) == 33
            message, cookie = first_message(100)[1:], came[-1][17:]
            for wrong in (bytes(16), came[-2][17:], cookie[:-1] + bytes([cookie[-1] ^ 1])):
                raw.transport.sendto(b"\x0a" + wrong + message)
                assert (await raw.next())[0] == 9 and len(made) == 16
            async with raw_at(address) as other:    # the cookie is of another address
                other.transport.sendto(b"\x0a" + cookie + message)
                assert (await other.next())[0] == 9 and len(made) == 16
            for _ in range(3):    # the same answer each time
                raw.transport.sendto(b"\x0a" + cookie + message)
                assert (await raw.next())[0] == 1 and len(made) == 17
            async with client_at(address, first) as client:
                await ask(client, await client.connected, b"text")
    run(main)


def test_cookies_of_old_secrets(each_loop):
    """One of the secret before is right, and none of an older one."""
    async def main(_result):
        _, second = configs("XX")
        async with server_behind(second, busy=0) as (server, address), raw_at(address) as raw:
            replies = []
            for number in (1, 2):
                raw.transport.sendto(first_message(number))
                replies.append(await raw.next())
            for number, (reply, kind) in enumerate(zip(replies, (1, 9)), 1):
                server._cookies._secrets = [(it, drawn - rules.PERIOD - 10) for it, drawn in server._cookies._secrets]
                raw.transport.sendto(b"\x0a" + reply[17:] + first_message(number)[1:])
                assert (await raw.next())[0] == kind
    run(main)


def test_a_reply_that_is_not_for_the_message_sends_nothing():
    channel = DatagramChannel(configs("XX")[0], True)
    (first,) = channel.datagrams_to_send()
    reply = rules.reply(first[1:], bytes(16))
    for wrong in (rules.reply(first, bytes(16)), reply[:-1], reply + b"\0", b"\x09" + bytes(32)):
        assert channel.receive(wrong) is None and not channel.datagrams_to_send() and not channel.challenged
    channel.receive(reply)
    assert channel.datagrams_to_send() == [b"\x0a" + bytes(16) + first[1:]] and channel.challenged
    channel.receive(rules.reply(first[1:], bytes([1] * 16)))
    assert not channel.datagrams_to_send()    # it goes with the next repetition
    channel.repeat()
    assert channel.datagrams_to_send() == [b"\x0a" + bytes([1] * 16) + first[1:]]
    channel.close()
    channel.receive(reply)
    assert not channel.datagrams_to_send()


def test_a_long_answer_needs_a_cookie_and_the_log_says_so(each_loop):
    async def main(log):
        first, second = configs("XX", payloads=[b"", bytes(300)])
        async with server_behind(second) as (_, address):
            for _ in range(2):
                async with client_at(address, first) as client:
                    await ask(client, await client.connected, b"text")
        assert len([line for line in log.lines if "needs a cookie" in line and "33 bytes" in line]) == 1
    run(main)


def test_who_is_asked_for_cookies_for_ever_is_told(each_loop):
    class Asks(asyncio.DatagramProtocol):
        def connection_made(self, transport):
            self.transport = transport

        def datagram_received(self, data, addr):
            message = data[1:] if data[0] == 0 else data[17:]
            self.transport.sendto(rules.reply(message, bytes(16)), addr)

    async def main(_result):
        loop = asyncio.get_running_loop()
        transport, _ = await loop.create_datagram_endpoint(Asks, local_addr=("127.0.0.1", 0))
        first, _ = configs("XX", handshake_timeout=3)    # the responder answers within it
        async with client_at(transport.get_extra_info("sockname"), first) as client:
            with pytest.raises(HandshakeTimeout, match="asked for a cookie"):
                await client.connected
        transport.close()
    run(main)


def test_an_initiator_begins_anew_beside_the_others(each_loop, monkeypatch):
    """Each second, and of those that aren't answered it repeats the newest alone; there are never more than eight."""
    monkeypatch.setattr(udp, "RESTART", 0.05)
    monkeypatch.setattr(udp, "RESEND", 0.05)

    async def main(_result):
        loop, came = asyncio.get_running_loop(), []

        class Silent(asyncio.DatagramProtocol):
            def datagram_received(self, data, addr):
                came.append(data)

        transport, _ = await loop.create_datagram_endpoint(Silent, local_addr=("127.0.0.1", 0))
        first, _ = configs("XX", handshake_timeout=60)
        async with client_at(transport.get_extra_info("sockname"), first) as client:
            await until(lambda: len(set(came)) >= 12)
            assert len(client._begun) == udp.MOST_TRIED
            order = [came.index(it) for it in came]
            assert order == sorted(order), "an older one was repeated"
        transport.close()
    run(main)


class Mute(asyncio.DatagramProtocol):
    """A responder that answers message 0 alone, until it `answers` transport datagrams."""

    def __init__(self, config):
        self.config, self.channels, self.came, self.answers = config, {}, [], False

    def connection_made(self, transport):
        self.transport = transport

    def datagram_received(self, data, addr):
        if data[0] == 0:
            if data not in self.channels:
                self.channels[data] = DatagramChannel(self.config, False)
            channel = self.channels[data]
        else:
            self.came.append(data[1:9])
            channel = next(it for it in self.channels.values() if it.index == data[1:9])
        if data[0] == 0 or self.answers:
            channel.receive(data)
            for datagram in channel.datagrams_to_send():
                self.transport.sendto(datagram, addr)


def test_an_initiator_that_has_read_the_last_message_holds_to_it(each_loop, monkeypatch):
    """It closes this handshake before it begins another. Else the responder could have a session of the second, whose
    empty datagram replaced the first, while an answer that was under way has the initiator choose the first."""
    monkeypatch.setattr(udp, "RESTART", 0.05)
    monkeypatch.setattr(udp, "RESEND", 0.02)
    monkeypatch.setattr(udp, "ALONE", 0.5)

    async def main(_result):
        first, second = configs("NNpsk0", handshake_timeout=60)
        transport, mute = await asyncio.get_running_loop().create_datagram_endpoint(
            lambda: Mute(second), local_addr=("127.0.0.1", 0)
        )
        async with client_at(transport.get_extra_info("sockname"), first) as client:
            begun = asyncio.get_running_loop().time()
            await until(lambda: len(set(mute.came)) >= 2)
            assert asyncio.get_running_loop().time() - begun > 0.5, "another was begun beside it"
            mute.answers = True
            peer = await client.connected
            order = [mute.came.index(it) for it in mute.came]
            assert order == sorted(order), "one that was given up was repeated"
            assert [*client._peers] == [mute.came[-1]]
            peer.close()
        transport.close()
    run(main)


def test_a_session_moves_with_its_newest_datagram_alone(each_loop):
    async def main(_result):
        first, second = configs("XX")
        async with server_behind(second) as (server, address), raw_at(address) as raw, raw_at(address) as other:
            channel = DatagramChannel(first, True)
            while channel.agreed is None:
                for datagram in channel.datagrams_to_send():
                    raw.transport.sendto(datagram)
                channel.receive(await raw.next())
            channel.send(b"first")
            channel.send(b"second")
            *_, late, newest = channel.datagrams_to_send()
            raw.transport.sendto(newest)
            await until(lambda: server.peers)
            before = server.peers[0].address
            await until(lambda: server.came.qsize() == 1)
            for datagram in (newest, late[:-1] + bytes([late[-1] ^ 1]), late, newest[:9] + bytes(40)):
                other.transport.sendto(datagram)
            await until(lambda: server.came.qsize() == 2)    # the late one was opened
            assert server.peers[0].address == before
            channel.send(b"third")
            other.transport.sendto(channel.datagrams_to_send()[-1])
            await until(lambda: server.peers[0].address == other.transport.get_extra_info("sockname"))
            assert len(server.peers) == 1 and not server.lost
            channel.close()
    run(main)


def test_an_established_session_answers_no_message_of_a_handshake(each_loop):
    """Not at the server, where an answer might be long, and not of a client that is at another address."""
    async def main(_result):
        first, second = configs("IK", payloads=[b"", bytes(100)])
        async with server_behind(second) as (server, address), raw_at(address) as raw, raw_at(address) as other:
            channel = DatagramChannel(first, True)
            message = channel._own
            await raw.shake(channel)
            await until(lambda: server.peers)
            for one in (raw, other):
                for _ in range(3):
                    one.transport.sendto(message)
            channel.send(b"text")
            assert await raw.answer(channel) == b"text"
            assert other.came.empty() and not server._begun
            channel.close()
    run(main)


def test_a_session_of_another_key_at_the_address_does_not_replace(each_loop):
    """As behind a NAT that has given a port away: the old one goes on where it is now."""
    async def main(_result):
        first, second = configs("XX")
        _, third = configs("XX")
        any_key = {"pattern": "XX", "key": second.key, "prologue": b"test", "accept_any_key": True,
                   "ephemeral": second.ephemeral}
        server_config = type(second)(**any_key)
        async with server_behind(server_config) as (server, address), raw_at(address) as raw, raw_at(address) as moved:
            channels = [DatagramChannel(type(first)(**{**any_key, "key": key}), True) for key in (first.key, third.key)]
            for channel in channels:
                await raw.shake(channel)
                await until(lambda: len(server.peers) == channels.index(channel) + 1)
            assert not server.lost and server.peers[0].noise.peer_key == first.key.public
            channels[0].send(b"still here")
            assert await moved.answer(channels[0]) == b"still here"
            for channel in channels:
                channel.close()
    run(main)


def test_a_peer_that_is_closed_as_it_connects_gets_no_payload(each_loop, monkeypatch):
    closed = []

    def close(_protocol, peer):
        closed.append(peer)
        peer.close()

    async def main(_result):
        first, second = configs("XX")
        async with server_behind(second) as (server, address), raw_at(address) as raw:
            monkeypatch.setattr(type(server), "peer_connected", close)
            channel = DatagramChannel(first, True)
            while channel.agreed is None:
                for datagram in channel.datagrams_to_send():
                    raw.transport.sendto(datagram)
                channel.receive(await raw.next())
            channel.send(b"text")
            raw.transport.sendto(channel.datagrams_to_send()[-1])    # the first that opens has a payload
            await until(lambda: closed)
            assert server.came.empty() and not server._peers and not server._firsts
            channel.close()
    run(main)


def test_a_handshake_that_is_done_has_its_time_anew(each_loop):
    """Else a client that is the first to know of the session would have one of which the server knows nothing."""
    async def main(_result):
        first, second = configs("XX", handshake_timeout=5)
        async with server_behind(second) as (server, address), raw_at(address) as raw:
            channel = DatagramChannel(first, True)
            raw.transport.sendto(channel.datagrams_to_send()[0])
            channel.receive(await raw.next())
            await asyncio.sleep(3)
            raw.transport.sendto(channel.datagrams_to_send()[0])
            while channel.agreed is None:
                channel.receive(await raw.next())
            await asyncio.sleep(2.5)    # 5.5 s after message 0
            channel.send(b"text")
            raw.transport.sendto(channel.datagrams_to_send()[-1])
            await until(lambda: server.peers)
            channel.close()
    run(main)


def test_a_session_that_begins_at_another_address_than_its_handshake_replaces_none(each_loop):
    """Where clients have no static key, somebody who sends in the name of another could end that one's session."""
    async def main(_result):
        first, second = configs("NN")
        async with server_behind(second) as (server, address), raw_at(address) as raw, raw_at(address) as other:
            channel, stranger = DatagramChannel(first, True), DatagramChannel(first, True)
            await raw.shake(channel)
            await until(lambda: len(server.peers) == 1)
            for datagram in stranger.datagrams_to_send():
                other.transport.sendto(datagram)
            stranger.receive(await other.next())
            for datagram in stranger.datagrams_to_send():    # the empty one, which opens
                raw.transport.sendto(datagram)
            await until(lambda: len(server.peers) == 2)
            assert not server.lost
            channel.send(b"still here")
            assert await raw.answer(channel) == b"still here"
            for it in (channel, stranger):
                it.close()
    run(main)


def test_nothing_is_kept_for_a_socket_that_takes_no_more(each_loop):
    """asyncio keeps what a socket doesn't take: strangers could make that grow."""
    class Full(asyncio.DatagramTransport):
        sent, kept = 0, 0

        def sendto(self, data, addr=None):
            self.sent, self.kept = self.sent + 1, self.kept + len(data)
            if self.kept > 1 << 16:
                server.pause_writing()

    async def main(_result):
        nonlocal server
        server = udp.DatagramProtocol(configs("XX")[1], False)
        full = Full()
        server.connection_made(full)
        for number in range(5000):
            server.datagram_received(first_message(number), ("127.0.0.1", 1 + number))
        assert full.kept < 66000
        before, full.kept = full.sent, 0
        server.resume_writing()
        server.datagram_received(first_message(5000), ("127.0.0.1", 9999))
        assert full.sent == before + 1
        server.connection_lost(None)
    server = None
    run(main)


def test_what_silence_is(each_loop):
    """Late datagrams that open keep a session; those that are forged or repeated, and messages, don't."""
    async def main(_result):
        first, second = configs("XX")
        async with server_behind(second, idle=3) as (server, at), raw_at(at) as quiet, raw_at(at) as late:
            channels = [DatagramChannel(first, True) for _ in range(2)]
            for number, raw in enumerate((quiet, late)):
                await raw.shake(channels[number])
                channels[number].send(b"text")
                assert await raw.answer(channels[number]) == b"text"
            for _ in range(20):
                for channel in channels:
                    channel.send(b"text")
            sealed = [channel.datagrams_to_send() for channel in channels]
            for number in range(19, 0, -1):
                for datagram in (sealed[0][number][:-1] + b"?", sealed[0][19][:9], channels[0]._own):
                    quiet.transport.sendto(datagram)
                late.transport.sendto(sealed[1][number])
                await asyncio.sleep(0.3)
                if server.lost:
                    break
            assert [(peer, type(fault)) for peer, fault in server.lost] == [(server.peers[0], TimeoutError)]
            for channel in channels:
                channel.close()
    run(main)
