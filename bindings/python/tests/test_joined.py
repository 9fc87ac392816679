"""Frames of a channel for asyncio that go and come together, and what is as before: order, limits, cancellation."""
import asyncio
from types import SimpleNamespace

import pytest
from loops import connected, each_loop, run, settle, until
from toys import configs

from yulimosar import CallError, Channel, MessageRefused, streams

assert each_loop
pytestmark = pytest.mark.usefixtures("each_loop")
PIECE = bytes(16384)
FRAME = len(PIECE) + 18


class Recorded:
    """The transport below a writer; `sizes` has how much each of its writes had."""

    def __init__(self, writer):
        self.below, self.sizes = writer.transport._below, []
        self.real, self.below.transport = self.below.transport, self

    def write(self, data):
        self.sizes.append(len(data))
        self.real.write(data)

    def __getattr__(self, name):
        return getattr(self.real, name)


async def read_whole(data, writer, reader):
    writer.write_eof()
    assert await reader.read() == data


def test_what_one_turn_writes_is_joined_after_32_kib():
    async def main(_result):
        async with connected("NN") as (reader, writer):
            below = Recorded(writer)
            for _ in range(13):
                writer.write(PIECE)
                await writer.drain()
            assert below.sizes == [FRAME] * 2 + [4 * FRAME] * 2
            assert writer.transport.get_write_buffer_size() - below.get_write_buffer_size() == 3 * FRAME
            await asyncio.sleep(0)
            assert below.sizes == [FRAME] * 2 + [4 * FRAME] * 2 + [3 * FRAME]
            writer.write(b"at once")
            assert below.sizes[5:] == [7 + 18] and not writer.transport._below.joined
            await read_whole(13 * PIECE + b"at once", writer, reader)
    run(main)


@pytest.mark.parametrize("how", ["long", "limits", "end", "close", "refused"])
def test_what_is_joined_goes_before_what_follows(how):
    async def main(_result):
        async with connected("NN") as (reader, writer):
            below, sent = Recorded(writer), 3 * PIECE + b"joined"
            for piece in (PIECE, PIECE, PIECE, b"joined"):
                writer.write(piece)
            assert below.sizes == [FRAME] * 2 and writer.transport._below.joined == FRAME + 24
            if how == "long":
                writer.write(bytes(40000))
                sent += bytes(40000)
                assert below.sizes == [FRAME] * 2 + [FRAME + 24, 40018]
            elif how == "limits":
                writer.transport.set_write_buffer_limits(0)
                writer.write(b"unjoined")
                sent += b"unjoined"
                assert below.sizes == [FRAME] * 2 + [FRAME + 24, 26]
            elif how == "refused":
                writer.transport._below.get_buffer(-1)[:22] = b"\x00\x14" + bytes(20)
                writer.transport._below.buffer_updated(22)
                assert writer.is_closing() and below.sizes == [FRAME] * 2 + [FRAME + 24]
                return
            elif how == "close":
                writer.close()
                assert below.sizes == [FRAME] * 2 + [FRAME + 24, 18]
                return
            await read_whole(sent, writer, reader)
    run(main)


def test_an_abort_sends_what_was_written_before(each_loop):
    if each_loop == "uvloop":
        pytest.skip("uvloop's own abort drops what the turn has written")
    got = asyncio.Queue()

    async def main(_result):
        async def handler(reader, writer):
            part = b""
            try:
                while True:
                    part += await reader.read(1000)
            except ConnectionError as error:
                got.put_nowait((part, error))
            writer.abort()
        async with connected("NN", handler) as (_reader, writer):
            for _ in range(4):
                writer.write(PIECE)
            writer.abort()
            part, error = await got.get()
            assert part == 4 * PIECE and type(error).__name__ == "ChannelCut"
    run(main)


def test_frames_that_come_together_are_given_out_together():
    async def main(_result):
        async with connected("NN") as (reader, writer):
            calls, feed = [], reader.feed_data
            reader.feed_data = lambda data: (calls.append(len(data)), feed(data))
            for _ in range(600):
                writer.write(b"0123456789")
            await read_whole(600 * b"0123456789", writer, reader)
            assert sum(calls) == 6000 and len(calls) < 60
    run(main)


def test_what_comes_before_a_refused_frame_is_given_out_first():
    async def main(_result):
        async def handler(_reader, writer):
            below = writer.transport._below
            below.channel.write(b"one, ")
            below.channel.write(b"two")
            below.transport.write(below.channel.data_to_send() + b"\x00\x14" + bytes(20))
            await asyncio.sleep(1)
            writer.abort()
        async with connected("NN", handler) as (reader, _writer):
            assert await reader.read(100) == b"one, two"
            for _ in range(2):
                with pytest.raises(MessageRefused, match="tag"):
                    await reader.read(100)
    run(main)


@pytest.mark.parametrize("size", [3, 6])
@pytest.mark.parametrize("call", ["read", "readexactly"])
def test_a_read_that_is_cancelled_with_its_bytes_leaves_them(call, size):
    async def main(_result):
        reader = streams.Reader(2 ** 16, asyncio.get_running_loop())
        reading = asyncio.create_task(reader.read(size))
        await settle()
        reader.feed_data(b"onetwo")
        reader._below = SimpleNamespace(ended=True)    # the other party has sent its end
        reader.feed_eof()
        reading.cancel()
        assert not reader.at_eof()
        with pytest.raises(asyncio.CancelledError):
            await reading
        assert await getattr(reader, call)(6) == b"onetwo"
    run(main)


def test_a_read_takes_what_it_asks_for_and_leaves_the_rest():
    async def main(_result):
        reader = streams.Reader(2 ** 16, asyncio.get_running_loop())
        reading = asyncio.create_task(reader.read(3))
        await settle()
        with pytest.raises(RuntimeError, match="already waiting"):
            await reader.read(2)
        reader.feed_data(memoryview(b"onetwo"))
        reader.feed_data(b"three")
        got = await reading
        assert got == b"one" and type(got) is bytes
        assert await reader.read(100) == b"twothree"
    run(main)


def test_a_channel_is_held_by_what_its_handshake_has_sent():
    """A transport that has too much to send during the handshake holds `drain` once the channel is there."""
    async def main(_result):
        loop, (client, server) = asyncio.get_running_loop(), configs("NN")
        reader, peer = streams.Reader(2 ** 16, loop), Channel(server, False)
        above, sent = asyncio.StreamReaderProtocol(reader, loop=loop), []

        class Transport(asyncio.Transport):
            def write(self, data):
                sent.append(bytes(data))

            def abort(self):
                pass

        below = streams._Below(Channel(client, True), above, None, lambda _made: None, lambda _fault: None)
        below.connection_made(Transport())
        below.pause_writing()
        peer.receive_data(b"".join(sent))
        assert peer.next_event() and peer.agreed
        answer = peer.data_to_send()
        below.get_buffer(-1)[:len(answer)] = answer
        below.buffer_updated(len(answer))
        assert below.channel.agreed and above._paused
        below.resume_writing()
        assert not above._paused
        below.abort()
        below.connection_lost(None)
        peer.close()
        with pytest.raises(CallError):
            await reader.read(1)
    run(main)


def test_nothing_is_joined_after_a_fault():
    async def main(_result):
        async with connected("NN") as (reader, writer):
            below = Recorded(writer)
            for _ in range(3):
                writer.write(PIECE)
            writer.transport._below.break_off(MessageRefused(None, None, CallError(None)))
            await until(lambda: writer.transport._below._turn is None)
            assert below.sizes == [FRAME] * 2 and writer.transport.get_write_buffer_size() == 0
    run(main)
