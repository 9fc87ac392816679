"""The reader and the writer of asyncio at an end, a cut, a cancelled call, a fork, and what the log says."""
import asyncio
import contextlib
import logging
import os
import subprocess
import sys

import pytest
from loops import connected, each_loop, run, server_of, settle, until
from test_select import in_child
from toys import Xor, configs

from yulimosar import CallError, ChannelCut, Config, MessageRefused, PeerRefused, open_connection, streams

assert each_loop
pytestmark = pytest.mark.usefixtures("each_loop")


async def says_bye_and_closes(reader, writer):
    """Serves a client of whose request it reads nothing."""
    writer.transport.pause_reading()
    writer.write(b"bye")
    async with writer:
        pass


def test_an_end_that_came_is_told_before_a_lost_connection():
    """The client sends while the server says bye and closes, and reads 20 ms later: the connection was reset."""
    async def main(_result):
        async def handler(reader, writer):
            await asyncio.sleep(0.01)
            await says_bye_and_closes(reader, writer)

        for _ in range(20):
            async with connected("NN", handler) as (reader, writer):
                writer.write(bytes(1_000_000))
                await asyncio.sleep(0.03)
                assert await reader.read() == b"bye" and reader.at_eof() and reader.exception() is None
                assert await reader.read(1) == b""
                with pytest.raises(ConnectionError):    # what this party has sent didn't come
                    while True:
                        writer.write(b"more")
                        await writer.drain()
                        await asyncio.sleep(0)
    run(main)


def test_an_end_that_came_is_told_after_a_write_that_failed(each_loop):
    """The connection was reset while the reader was paused: asyncio finds that by a write, before it reads."""
    if each_loop == "uvloop":
        pytest.skip("uvloop closes the descriptor before it tells of the loss")

    async def main(_result):
        for _ in range(10):
            closed = asyncio.Event()

            async def handler(reader, writer):
                await asyncio.sleep(0.01)
                await says_bye_and_closes(reader, writer)
                closed.set()

            async with connected("NN", handler) as (reader, writer):
                writer.transport.pause_reading()
                writer.write(b"x" * 1000)
                await closed.wait()
                while not writer.is_closing():
                    writer.write(b"y" * 1000)
                    await asyncio.sleep(0.005)
                assert await reader.read() == b"bye"
    run(main)


def test_no_end_is_made_of_a_lost_connection():
    """The same, but the server sends no end."""
    async def main(_result):
        async def handler(reader, writer):
            writer.transport.pause_reading()
            writer.write(b"bye")
            await writer.drain()
            await asyncio.sleep(0.01)
            writer.abort()

        for _ in range(10):
            async with connected("NN", handler) as (reader, writer):
                writer.write(bytes(1_000_000))
                await asyncio.sleep(0.03)
                with pytest.raises(ChannelCut) as caught:
                    await reader.read()
                assert caught.value.partial == b"bye"
    run(main)


# What was opened before a cut.

@pytest.mark.parametrize("call, words, partial", [
    ("read", [], b"a line\nhalf a line"), ("readline", [], b"half a line"), ("readexactly", [100], b"half a line"),
    ("readuntil", [b"--"], b"half a line")])
@pytest.mark.parametrize("fault", [ChannelCut, MessageRefused, CallError])
def test_a_fault_keeps_what_came(call, words, partial, fault):
    async def main(_result):
        async def handler(reader, writer):
            writer.write(b"a line\nhalf a line")
            await writer.drain()
            await reader.readexactly(1)
            asked.set()    # all has been sent, and is taken by the same loop
            if fault is MessageRefused:
                writer.transport._below.transport.write(b"\x00\x14" + bytes(20))
            if fault is not ChannelCut:
                with contextlib.suppress(ConnectionError):
                    await reader.read()
            writer.abort()

        asked = asyncio.Event()

        async with connected("NN", handler, limit=12) as (reader, writer):
            if call != "read":
                assert await reader.readline() == b"a line\n"
            waiting = asyncio.create_task(getattr(reader, call)(*words))
            await asyncio.sleep(0.02)
            writer.write(b"x")
            if fault is CallError:
                await asked.wait()
                await asyncio.sleep(0.02)
                writer.close()
            with pytest.raises(fault) as caught:
                await waiting
            assert caught.value.partial == partial
            for again in (reader.read, reader.readline, lambda: reader.readexactly(1), lambda: reader.read(1)):
                with pytest.raises(fault) as caught:
                    await again()
                assert caught.value.partial == b""
            if fault is CallError:
                assert "this party has closed" in str(caught.value)
    run(main)


def test_a_cut_by_a_reset_names_its_cause():
    async def main(_result):
        async def handler(reader, writer):
            writer.transport.pause_reading()
            await asyncio.sleep(0.01)
            writer.abort()

        async with connected("NN", handler) as (reader, writer):
            writer.write(bytes(1_000_000))
            with pytest.raises(ChannelCut) as caught:
                await reader.read()
            assert isinstance(caught.value.__cause__, OSError) or caught.value.__cause__ is None
    run(main)


def test_a_read_to_the_end_that_is_cancelled_keeps_what_came():
    """More than one piece of the reader's limit had come."""
    data = os.urandom(300_000)

    async def main(_result):
        async def handler(reader, writer):
            async with writer:
                writer.write(data)
                await reader.readexactly(1)

        async with connected("NN", handler, limit=1000) as (reader, writer):
            task = asyncio.create_task(reader.read())
            await asyncio.sleep(0.1)
            task.cancel()
            with pytest.raises(asyncio.CancelledError):
                await task
            writer.write(b"x")
            assert await reader.readexactly(150_000) == data[:150_000]
            assert await reader.read() == data[150_000:]
    run(main)


def test_wait_closed_tells_of_what_was_not_sent(monkeypatch):
    monkeypatch.setattr(streams, "CLOSE_TIMEOUT", 0.1)

    async def main(_result):
        async def handler(_reader, writer):
            await done.wait()
            writer.abort()

        done = asyncio.Event()
        async with connected("NN", handler) as (_reader, writer):
            with pytest.raises(ChannelCut) as caught:
                async with writer:
                    writer.write(bytes(20_000_000))
            assert "were left" in str(caught.value)
            done.set()
    run(main)


def test_text_in_place_of_bytes():
    async def main(_result):
        async with connected("NN") as (reader, writer):
            with pytest.raises(TypeError) as caught:
                writer.write("x")
            assert "str" in str(caught.value) and "encode" in str(caught.value)
            writer.write(b"goes on")
            writer.write_eof()
            assert await reader.read() == b"goes on"
    run(main)


def test_a_writer_says_what_the_handshake_agreed_on():
    async def main(_result):
        async with connected("XX") as (_reader, writer):
            assert writer.noise is writer.get_extra_info("noise") and len(writer.noise.peer_key) == 32
    run(main)


# What the log says.

def levels_of(log):
    return [(record.levelno, record.getMessage()) for record in log.records]


class Levels(logging.Handler):
    def __init__(self):
        super().__init__()
        self.records = []

    def emit(self, record):
        self.records.append(record)


@pytest.mark.parametrize("fault, level", [
    (None, logging.INFO), (KeyError("database"), logging.ERROR), (TypeError("a bug"), logging.ERROR),
    (ConnectionRefusedError("the database is down"), logging.ERROR), (TimeoutError("database"), logging.ERROR),
    (ChannelCut(), logging.ERROR)])
def test_a_fault_of_this_program_is_logged_as_an_error(fault, level):
    """A `verify` that refuses is what it is for; one that fails refuses every client, and nobody would know."""
    def verify(_key):
        if fault is not None:
            raise fault
        return False

    log = Levels()
    logger = logging.getLogger("yulimosar")
    logger.addHandler(log)

    async def main(_result):
        client, server = configs("XX")
        server = Config(pattern="XX", key=server.key, verify=verify, prologue=b"test", ephemeral=Xor)
        async with server_of(says_bye_and_closes, server) as address:
            reader, writer = await open_connection(*address, client)
            with pytest.raises(ChannelCut):
                await reader.read()
            writer.close()
            await until(lambda: log.records)
    try:
        run(main)
    finally:
        logger.removeHandler(log)
    assert [record.levelno for record in log.records] == [level]
    assert (log.records[0].exc_info is not None) == (level == logging.ERROR)


@pytest.mark.parametrize("fault, level", [(PeerRefused("no psk"), logging.INFO), (KeyError("no psk"), logging.ERROR),
                                          (ConnectionRefusedError("the database is down"), logging.ERROR)])
def test_a_key_without_a_psk_is_refused(fault, level):
    """Anybody can show a key that isn't known: that is no fault of the program, if it says so."""
    def psk_for(_key):
        raise fault

    log = Levels()
    logger = logging.getLogger("yulimosar")
    logger.addHandler(log)

    async def main(_result):
        client, server = configs("XXpsk3")
        server = Config(pattern="XXpsk3", key=server.key, psk_for=psk_for, prologue=b"test", ephemeral=Xor)
        async with server_of(says_bye_and_closes, server) as address:
            reader, writer = await open_connection(*address, client)
            with pytest.raises(ChannelCut):
                await reader.read()
            writer.close()
            await until(lambda: log.records)
    try:
        run(main)
    finally:
        logger.removeHandler(log)
    assert [record.levelno for record in log.records] == [level]


@pytest.mark.parametrize("fault, level", [
    (OSError("no such device"), logging.ERROR), (RuntimeError("locked"), logging.ERROR), (None, logging.INFO)])
@pytest.mark.parametrize("waits", [False, True], ids=["at once", "after a wait"])
def test_a_device_that_fails_is_logged_as_an_error(fault, level, waits):
    """A key pair that is in a device; zeros are the other party's fault."""
    class Device:
        public = bytes(range(32))

        def agree(self, _remote):
            return self.later() if waits else self.now()

        def now(self):
            if fault is not None:
                raise fault
            return bytes(32)

        async def later(self):
            await asyncio.sleep(0)
            return self.now()

    log = Levels()
    logger = logging.getLogger("yulimosar")
    logger.addHandler(log)

    async def main(_result):
        client = Config(pattern="NK", peer_key=Device.public, ephemeral=Xor)
        async with server_of(says_bye_and_closes, Config(pattern="NK", key=Device(), accept_any_key=True)) as address:
            with pytest.raises(ChannelCut):
                await open_connection(*address, client)
            await until(lambda: log.records)
    try:
        run(main)
    finally:
        logger.removeHandler(log)
    assert [record.levelno for record in log.records] == [level]
    assert (log.records[0].exc_info is not None) == (level == logging.ERROR)


def test_a_connection_error_of_the_handlers_own_is_reported():
    """One that isn't this channel's goes to the loop's exception handler; the channel is aborted."""
    async def main(log):
        async def handler(_reader, _writer):
            raise ConnectionRefusedError("the database is away")

        async with connected("NN", handler) as (reader, _writer):
            with pytest.raises(ChannelCut):
                await reader.read()
        assert not log.lines
    run(main, faults=1)


@pytest.mark.parametrize("side", ["client", "server"])
def test_a_cut_leaves_no_error_that_nobody_has_retrieved(side):
    """Whether the program waits for the close or not, and in whichever order the collector frees what is left."""
    async def main(_result):
        writers = []

        async def handler(_reader, writer):
            writers.append(writer)
            if side == "client":
                writer.abort()
            else:
                await asyncio.sleep(60)

        async with connected("NN", handler) as (reader, writer):
            await until(lambda: writers)
            if side == "client":
                with pytest.raises(ChannelCut):
                    await reader.read()
            else:
                writer.abort()
            cut = writer if side == "client" else writers[0]
            await until(cut.transport.is_closing)
            await settle()
            cut.transport.get_protocol()._closed = asyncio.get_running_loop().create_future()    # frees the other one
            await settle()
    run(main)


# Forked processes.

def test_a_child_leaves_the_parents_channel_alone():
    """The child closes, aborts and frees the writer; the parent's loop still hears of what comes."""
    async def main(_result):
        async with connected("NN") as (reader, writer):
            writer.write(b"before")
            assert await reader.readexactly(6) == b"before"

            def child():
                writer.write(b"from the child")
                writer.close()
                writer.abort()
                writer.transport.close()

            assert in_child(child) == 0
            writer.write(b"after")
            assert await reader.readexactly(5) == b"after"
            writer.write_eof()
            assert await reader.read() == b""
        await settle()
    run(main)


def test_the_collector_finds_a_client_that_has_refused_the_server():
    code = """
import asyncio, gc
from yulimosar import Config, KeyPair, MessageRefused, open_connection, start_server

async def main():
    key = KeyPair.generate()
    server = Config(key=key, accept_any_key=True)
    client = Config(key=key, peer_key=bytes(32))
    async with await start_server(lambda reader, writer: None, "127.0.0.1", 0, server) as listening:
        port = listening.sockets[0].getsockname()[1]
        gc.disable()
        for _ in range(5):
            try:
                await open_connection("127.0.0.1", port, client)
            except MessageRefused as fault:
                fault.itself = fault    # so that the collector frees it
            gc.collect()

asyncio.run(main())
"""
    done = subprocess.run([sys.executable, "-c", code], capture_output=True, text=True, timeout=60)
    assert (done.returncode, done.stderr) == (0, "")
