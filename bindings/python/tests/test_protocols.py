"""asyncio's protocols over a channel: create_connection and create_server, as `ssl=` gives them."""
import asyncio
import contextlib
import socket

import pytest
from loops import each_loop, run, settle, until    # noqa: F401
from toys import configs

from yulimosar import ChannelCut, ConfigError, create_connection, create_server

pytestmark = pytest.mark.usefixtures("each_loop")


class Recorder(asyncio.Protocol):
    """What a protocol is told."""

    def __init__(self, answers=False, half_open=False):
        self.told, self.data = [], b""
        self.answers, self.half_open = answers, half_open

    def connection_made(self, transport):
        self.transport = transport
        self.told.append("made")

    def data_received(self, data):
        assert type(data) is bytes
        self.data += data
        if self.answers:
            self.transport.write(data)

    def eof_received(self):
        self.told.append("eof")
        return self.half_open

    def connection_lost(self, exc):
        self.told.append(exc)

    def pause_writing(self):
        self.told.append("pause")

    def resume_writing(self):
        self.told.append("resume")


class Buffered(asyncio.BufferedProtocol):
    """The same with a buffer of its own, which has room for little."""

    def __init__(self, size=1000):
        self.told, self.data, self.room = [], b"", bytearray(size)

    def connection_made(self, transport):
        self.transport = transport
        self.told.append("made")

    def get_buffer(self, sizehint):
        assert sizehint > 0
        return self.room

    def buffer_updated(self, nbytes):
        self.data += self.room[:nbytes]

    def eof_received(self):
        self.told.append("eof")

    def connection_lost(self, exc):
        self.told.append(exc)


@contextlib.asynccontextmanager
async def joined(server_side, client_side, pattern="XX", **words):
    """A client's transport, and the protocols of both."""
    client, server = configs(pattern, **words)
    made = []

    def factory():
        made.append(server_side())
        return made[-1]

    listening = await create_server(factory, "127.0.0.1", 0, server)
    try:
        transport, protocol = await create_connection(client_side, *listening.sockets[0].getsockname(), client)
        try:
            await until(lambda: made and made[0].told)
            yield transport, protocol, made[0]
        finally:
            transport.abort()
            await settle()
    finally:
        listening.close()
        await listening.wait_closed()


def test_protocols_carry_bytes_to_their_end():
    async def main(_log):
        async with joined(lambda: Recorder(answers=True), Recorder) as (transport, ours, theirs):
            assert ours.told == theirs.told == ["made"] and ours.transport is transport
            agreed = transport.get_extra_info("noise")
            assert agreed.hash == theirs.transport.get_extra_info("noise").hash and agreed.initiator
            assert transport.get_protocol() is ours and not transport.is_closing()
            transport.write(b"hello " * 50000)
            await until(lambda: len(ours.data) == 300000)
            assert ours.data == theirs.data == b"hello " * 50000
            transport.close()
            await until(lambda: len(theirs.told) == 3 and len(ours.told) > 1)
            assert theirs.told == ["made", "eof", None] and ours.told[-1] is None and transport.is_closing()
    run(main)


def test_a_buffered_protocol_gets_all_in_its_buffer():
    async def main(_log):
        async with joined(Recorder, Buffered) as (_transport, ours, theirs):
            theirs.transport.write(bytes(range(256)) * 1000)
            theirs.transport.write_eof()
            await until(lambda: "eof" in ours.told)
            assert ours.data == bytes(range(256)) * 1000
            other = Recorder()
            ours.transport.set_protocol(other)
            await until(lambda: other.told or len(ours.told) == 3)
            assert (other.told or ours.told[2:]) == [None]
    run(main)


def test_an_empty_buffer_is_reported():
    async def main(_log):
        async with joined(Recorder, lambda: Buffered(0)) as (_transport, ours, theirs):
            theirs.transport.write(b"x")
            await until(lambda: len(ours.told) == 2)
            assert isinstance(ours.told[1], RuntimeError) and not ours.data
            await until(lambda: len(theirs.told) == 2)
            assert isinstance(theirs.told[1], ChannelCut)
    run(main, faults=1)


def test_a_half_that_has_ended_may_still_get_more():
    async def main(_log):
        async with joined(lambda: Recorder(half_open=True), Recorder) as (transport, ours, theirs):
            transport.write_eof()
            await until(lambda: "eof" in theirs.told)
            theirs.transport.write(b"later")
            theirs.transport.close()
            await until(lambda: ours.told[-1] is None)
            assert ours.data == b"later" and ours.told == ["made", "eof", None]
    run(main)


def test_a_cut_is_told_as_one():
    async def main(_log):
        async with joined(Recorder, Recorder) as (transport, ours, theirs):
            transport.abort()
            await until(lambda: len(theirs.told) == 2)
            assert isinstance(theirs.told[1], ChannelCut) and ours.told[1:] in ([], [None])
    run(main)


@pytest.mark.parametrize("call", ["data_received", "eof_received", "connection_made"])
def test_a_protocol_that_raises_loses_its_connection(call):
    """Its error goes to the loop's handler and to connection_lost, and it is given nothing more."""
    class Raises(Recorder):
        pass

    def broken(self, *_words):
        self.told.append(call)
        raise ZeroDivisionError

    setattr(Raises, call, broken)

    async def main(_log):
        async with joined(Raises, Recorder) as (transport, ours, theirs):
            with contextlib.suppress(Exception):
                for _ in range(20):
                    transport.write(b"x" * 1000)
                    await asyncio.sleep(0)
                transport.write_eof()
            await until(lambda: isinstance(theirs.told[-1], ZeroDivisionError) and len(ours.told) == 2)
            assert theirs.told.count(call) == 1 and isinstance(ours.told[1], ChannelCut)
    run(main, faults=1)


def test_writing_is_held_up_while_the_other_party_reads_nothing():
    async def main(_log):
        async with joined(Recorder, Recorder) as (transport, ours, theirs):
            theirs.transport.pause_reading()
            assert not theirs.transport.is_reading()
            sent = 0
            while "pause" not in ours.told:
                transport.write(bytes(100000))
                sent += 100000
                await asyncio.sleep(0)
            theirs.transport.resume_reading()
            await until(lambda: ours.told[-1] == "resume" and len(theirs.data) == sent)
    run(main)


def test_a_handshake_that_fails_raises_and_tells_the_protocol_nothing():
    async def main(log):
        client, server = configs("NNpsk0", psks=(b"x" * 32,))[0], configs("NNpsk0")[1]
        made, protocol = [], Recorder()
        listening = await create_server(lambda: made.append(Recorder()) or made[-1], "127.0.0.1", 0, server)
        with pytest.raises(ChannelCut):
            await create_connection(lambda: protocol, *listening.sockets[0].getsockname(), client)
        await until(lambda: log.lines)
        assert not protocol.told and not made[0].told and log.lines[0].startswith("handshake with ")
        listening.close()
        with pytest.raises(ConfigError):
            await create_connection(Recorder, "127.0.0.1", 9, configs("NNpsk0", psks=())[0])
        with pytest.raises(ConfigError):
            await create_server(Recorder, "127.0.0.1", 0, configs("NNpsk0", psks=())[1])
    run(main)


def test_a_cancelled_call_leaves_nothing():
    async def main(_log):
        near, far = socket.socketpair()
        near.setblocking(False)
        with far:
            task = asyncio.create_task(create_connection(Recorder, None, None, configs("NN")[0], sock=near))
            await asyncio.sleep(0.05)
            task.cancel()
            with pytest.raises(asyncio.CancelledError):
                await task
            await settle()
            far.settimeout(30)
            while far.recv(4096):
                pass
    run(main)
