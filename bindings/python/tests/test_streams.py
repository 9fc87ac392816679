"""The reader and the writer of asyncio: ends, cuts and refusals, time, cancellation, and what is left."""
import asyncio
import contextlib
import os
import random
import socket
import tracemalloc

import pytest
from loops import connected, descriptors, each_loop, echo, open_keys, run, server_of, settle, until
from toys import Xor, configs

from yulimosar import (CallError, ChannelCut, Code, Config, ConfigError, HandshakeTimeout, KeyPair, MessageRefused,
                       PeerRefused, open_connection, streams)

assert each_loop
pytestmark = pytest.mark.usefixtures("each_loop")
CONNECTIONS = int(os.environ.get("NOISE_CONNECTIONS", 300))
STEP = int(os.environ.get("NOISE_RELAY_STEP", 11))


def test_a_conversation():
    async def main(_result):
        async with connected(toy=False) as (reader, writer):
            assert isinstance(reader, asyncio.StreamReader) and isinstance(writer, asyncio.StreamWriter)
            writer.write(b"first line\nsecond")
            writer.writelines([b" line\n", bytearray(b"third line\n"), memoryview(b"12345")])
            await writer.drain()
            assert await reader.readline() == b"first line\n"
            assert await reader.readuntil(b"\n") == b"second line\n"
            assert await anext(reader) == b"third line\n"
            assert await reader.readexactly(3) == b"123"
            assert not reader.at_eof() and writer.can_write_eof()
            writer.write_eof()
            writer.write_eof()
            with pytest.raises(RuntimeError):
                writer.write(b"late")
            assert await reader.read() == b"45" and reader.at_eof()
            assert await reader.read(10) == b"" and [line async for line in reader] == []
            with pytest.raises(asyncio.IncompleteReadError):
                await reader.readexactly(1)
            agreed = writer.get_extra_info("noise")
            assert agreed.protocol == "Noise_XX_25519_ChaChaPoly_SHA256" and len(agreed.hash) == 32
            assert agreed.initiator and len(agreed.peer_key) == 32
            assert writer.get_extra_info("peername")[0] == "127.0.0.1" and writer.get_extra_info("no", 3) == 3
            writer.close()
            writer.close()
            assert writer.is_closing()
            await writer.wait_closed()
            with pytest.raises(RuntimeError):
                writer.write(b"late")
    run(main)


def test_much_both_ways_at_once():
    data = random.Random(5).randbytes(3_000_000)

    async def main(_result):
        async with connected("NN", interval=7) as (reader, writer):
            async def send():
                for start in range(0, len(data), 70001):
                    writer.write(data[start:start + 70001])
                    await writer.drain()
                writer.write_eof()
            sending = asyncio.create_task(send())
            assert await reader.read() == data
            await sending
    run(main)


def test_memory_for_what_comes_is_given_back():
    """A channel that waits holds what has come of a frame, and not the memory into which the loop receives."""
    async def main(_result):
        async def handler(reader, writer):
            async with writer:
                await reader.readexactly(1)
                writer.write(bytes(600_000))
                await writer.drain()
                channel = writer.transport._below.channel
                channel.write(bytes(1000))
                frame = channel.data_to_send()
                writer.transport._below.transport.write(frame[:400])
                assert await reader.readexactly(1) == b"2"
                writer.transport._below.transport.write(frame[400:])

        async with connected("NN", handler) as (reader, writer):
            writer.write(b"1")
            await until(lambda: not writer.transport.is_reading())
            assert await reader.readexactly(600_000) == bytes(600_000)
            came = writer.transport._below.channel._came
            await until(lambda: came._room.size == came.left()[1] == 400)
            writer.write(b"2")
            assert await reader.read() == bytes(1000) and not came and not came._room.size
    run(main)


def test_another_protocol_gets_bytes():
    async def main(_result):
        class Above(asyncio.Protocol):
            def __init__(self):
                self.got = []

            def data_received(self, data):
                self.got.append(data)

            def connection_lost(self, exc):
                self.lost = exc

        async with connected("NN") as (reader, writer):
            own, above = writer.transport.get_protocol(), Above()
            writer.transport.set_protocol(above)
            writer.write(b"one")
            await until(lambda: above.got)
            assert above.got == [b"one"] and type(above.got[0]) is bytes
            writer.transport.set_protocol(own)
            writer.write_eof()
            assert await reader.read() == b""
    run(main)


def test_a_reader_that_is_slow():
    """What a peer sends is not taken from the connection until it is read."""
    async def main(_result):
        sent = 0

        async def handler(reader, writer):
            nonlocal sent
            async with writer:
                for _ in range(400):
                    writer.write(bytes(65519))
                    await writer.drain()
                    sent += 65519

        async with connected("NN", handler) as (reader, writer):
            await until(lambda: not writer.transport.is_reading())
            await settle()
            assert sent < 400 * 65519 and len(reader._buffer) < 2 ** 19
            assert len(await reader.read()) == 400 * 65519
    run(main)


@pytest.mark.parametrize("how", ["abort", "raise", "below", "cancel"])
def test_a_cut_is_reported_after_what_came(how):
    """A handler that fails, is cancelled or loses its connection sends no end."""
    async def main(log):
        tasks = []

        async def handler(reader, writer):
            tasks.append(asyncio.current_task())
            writer.write(b"a line\nhalf a ")
            await writer.drain()
            await reader.readexactly(1)
            if how == "abort":
                writer.abort()
            elif how == "raise":
                raise KeyError("no such thing")
            elif how == "cancel":
                tasks[0].cancel()
                await asyncio.sleep(1)
            else:
                writer.transport._below.transport.close()    # the connection, without the end
                await asyncio.sleep(0.01)

        async with connected("NN", handler) as (reader, writer):
            assert await reader.readline() == b"a line\n"
            writer.write(b"x")
            with pytest.raises(ChannelCut):
                while await reader.read(4):
                    pass
            for read in (reader.read, reader.readline, lambda: reader.readexactly(1), lambda: anext(reader),
                         writer.drain, writer.wait_closed):
                with pytest.raises(ConnectionResetError):
                    await read()
            assert not reader.at_eof() and isinstance(reader.exception(), ChannelCut)
            assert await reader.read(0) == b""
    run(main, faults=1 if how == "raise" else 0)


@pytest.mark.parametrize("end", ["close", "abort"])
def test_a_close_of_this_party_is_no_end_of_the_other(end):
    """A read that waits, and a later one, raise: the other party has more to send."""
    async def main(_result):
        async def handler(reader, writer):
            writer.write(b"some")
            with contextlib.suppress(ChannelCut):
                await reader.read()
            writer.abort()

        async with connected("NN", handler) as (reader, writer):
            assert await reader.read(2) == b"so"
            waiting = asyncio.create_task(reader.readexactly(10))
            await asyncio.sleep(0)
            getattr(writer, end)()
            with pytest.raises(CallError):
                await waiting
            for read in (reader.read, reader.readline, lambda: reader.readexactly(1), lambda: anext(reader)):
                with pytest.raises(CallError):
                    await read()
            assert not reader.at_eof()
    run(main)


def test_readexactly_and_readuntil_at_a_cut():
    async def main(_result):
        async def handler(reader, writer):
            writer.write(b"half")
            await writer.drain()
            await reader.read(1)
            writer.abort()

        for call in ("readexactly", "readuntil", "readline", "read"):
            async with connected("NN", handler) as (reader, writer):
                words = {"readexactly": [100], "read": [-1]}.get(call, [])
                waiting = asyncio.create_task(getattr(reader, call)(*words))
                await asyncio.sleep(0.02)
                writer.write(b"x")
                with pytest.raises(ChannelCut):
                    await waiting
    run(main)


def test_close_sends_the_end_and_abort_does_not():
    async def main(_result):
        for ends in (True, False):
            got = asyncio.get_running_loop().create_future()

            async def handler(reader, writer):
                try:
                    got.set_result(await reader.read())
                except ChannelCut as cut:
                    got.set_result(cut)
                writer.close()

            async with connected("NN", handler) as (reader, writer):
                if ends:
                    async with writer:
                        writer.write(b"all of it")
                else:
                    with pytest.raises(KeyError):
                        async with writer:
                            writer.write(b"some of it")
                            raise KeyError
                result = await got
                assert result == b"all of it" if ends else isinstance(result, ChannelCut)
    run(main)


def test_a_refused_message():
    """It is raised on the side that reads it; nothing is sent after it, so the other side gets a cut."""
    async def main(log):
        seen = asyncio.get_running_loop().create_future()

        async def handler(reader, writer):
            writer.transport._below.transport.write(b"\x00\x14" + bytes(20))    # a frame of a stranger's
            try:
                seen.set_result(await reader.read())
            except ChannelCut as cut:
                seen.set_result(cut)

        async with connected("NN", handler) as (reader, writer):
            with pytest.raises(MessageRefused) as caught:
                await reader.read()
            assert (caught.value.message, caught.value.token, caught.value.cause) == (None, None, Code.TAG)
            writer.write(b"not sent")
            with pytest.raises(MessageRefused):
                await writer.drain()
            writer.close()
            with pytest.raises(MessageRefused):
                await writer.wait_closed()
            assert isinstance(await seen, ChannelCut)
    run(main)


def test_clients_that_are_slow_or_silent():
    """Their handshakes end at the time limit, and they hold up nobody else."""
    async def stranger(address, talk, pause):
        reader, writer = await asyncio.open_connection(*address)
        try:
            for byte in talk:
                if writer.is_closing() or reader.at_eof():
                    break
                writer.write(bytes([byte]))
                await asyncio.sleep(pause)
            assert await reader.read() == b""
        except ConnectionError:
            pass
        writer.close()

    async def main(log):
        client, server = configs("XX", handshake_timeout=6)
        async with server_of(echo, server) as address:
            strangers = [asyncio.create_task(stranger(address, talk, pause)) for talk, pause in (
                (b"", 0), (b"\x00", 0), (b"\x00\x30123", 0), (b"\x00\x20" + bytes(30), 0.25))]
            await asyncio.sleep(0.05)
            reader, writer = await open_connection(*address, client)
            writer.write(b"hello")
            assert await reader.readexactly(5) == b"hello" and not log.lines
            writer.close()
            await writer.wait_closed()
            await asyncio.gather(*strangers)
            await until(lambda: len(log.lines) == 4)
            assert {line.split(": ", 1)[1] for line in log.lines} == {str(HandshakeTimeout())}
            assert "127.0.0.1" in log.lines[0]
    run(main)


def test_a_server_that_is_silent():
    async def main_with(address):
        with pytest.raises(HandshakeTimeout):
            await open_connection(*address, configs("XX", handshake_timeout=0.1)[0])
        with pytest.raises(TimeoutError):
            async with asyncio.timeout(0.1):
                await open_connection(*address, configs("XX")[0])
    run(lambda _result: silent(main_with))


async def silent(call):
    """Calls with the address of a server that says nothing."""
    async def handler(_reader, writer):
        writers.append(writer)

    writers = []
    server = await asyncio.start_server(handler, "127.0.0.1", 0)
    try:
        await call(server.sockets[0].getsockname())
    finally:
        server.close()
        for writer in writers:
            writer.close()
        await settle()


def test_a_server_that_hangs_up():
    async def main(_result):
        async def handler(_reader, writer):
            writer.close()

        server = await asyncio.start_server(handler, "127.0.0.1", 0)
        with pytest.raises(ChannelCut):
            await open_connection(*server.sockets[0].getsockname(), configs("XX")[0])
        address = server.sockets[0].getsockname()
        server.close()
        await server.wait_closed()
        with pytest.raises(ConnectionRefusedError):
            await open_connection(*address, configs("XX")[0])
        with pytest.raises(ConfigError):
            await open_connection(*address, Config(pattern="XX"))
    run(main)


def test_another_protocol_at_the_other_end():
    async def main(log):
        client, server = configs("XX")
        async with server_of(echo, server) as address:
            reader, writer = await asyncio.open_connection(*address)
            writer.write(b"GET / HTTP/1.0\r\n\r\n")
            try:
                assert await reader.read() == b""
            except ConnectionResetError:
                pass
            writer.close()
            await until(lambda: log.lines)
            assert str(Code.TOO_LONG) in log.lines[0]
    run(main)


@pytest.mark.parametrize("answer", [True, False, "awaited", "refused later", "fails", "hangs", "goes away"])
def test_who_the_client_is(answer):
    async def main(log):
        asked = []

        async def later(result):
            await asyncio.sleep(0.01)
            if result == "fails":
                raise KeyError("database")
            await asyncio.sleep(60 if result in ("hangs", "goes away") else 0)
            return result == "awaited"

        def verify(key):
            asked.append(key)
            return answer if isinstance(answer, bool) else later(answer)

        client, server = configs("XX")
        timeout = 2 if answer in ("hangs", "goes away") else 60
        server = Config(pattern="XX", key=server.key, verify=verify, prologue=b"test", handshake_timeout=timeout,
                        ephemeral=Xor)
        async with server_of(echo, server) as address:
            reader, writer = await open_connection(*address, client)
            if answer == "goes away":
                writer.abort()
            writer.write(b"hello")
            if answer in (True, "awaited"):
                assert await reader.readexactly(5) == b"hello" and not log.lines
            else:
                with pytest.raises(CallError if answer == "goes away" else ChannelCut):
                    await reader.read()
                await until(lambda: len(log.lines) == 1)
            assert asked == [client.key.public]
            writer.close()
    run(main)


def test_one_way():
    async def main(_result):
        async def handler(reader, writer):
            got.set_result(await reader.read())
            with pytest.raises(CallError):
                writer.write(b"x")
            writer.close()
            await writer.wait_closed()

        got = asyncio.get_running_loop().create_future()
        async with connected("X", handler) as (reader, writer):
            with pytest.raises(CallError) as caught:
                await reader.read()
            assert caught.value.code == Code.ONE_WAY and not reader.at_eof()
            writer.write(b"a letter")
            await writer.drain()
            writer.close()
            assert await got == b"a letter"
    run(main)


@pytest.mark.filterwarnings("ignore:unclosed <Writer:ResourceWarning")
def test_a_handler_that_is_no_coroutine_and_forgets():
    """A plain function may be a handler; a writer that nobody holds any more is aborted."""
    async def main(_result):
        called = []

        def handler(_reader, writer):
            called.append(writer.get_extra_info("noise"))

        async with connected("NN", handler) as (reader, _writer):
            with pytest.raises(ChannelCut):
                await reader.read()
            assert called[0].protocol.startswith("Noise_NN_")
    run(main)


def test_over_a_socket():
    async def main(_result):
        client, server = configs("NN")
        listener = socket.create_server(("127.0.0.1", 0))
        async with server_of_socket(listener, server):
            sock = socket.create_connection(listener.getsockname())
            sock.setblocking(False)
            reader, writer = await open_connection(None, None, client, sock=sock)
            writer.write(b"x")
            writer.write_eof()
            assert await reader.read() == b"x"
            async with writer:
                pass

    class server_of_socket:
        def __init__(self, listener, config):
            self.listener, self.config = listener, config

        async def __aenter__(self):
            self.server = await streams.start_server(echo, None, None, self.config, sock=self.listener)

        async def __aexit__(self, *_words):
            self.server.close()
            await self.server.wait_closed()
    run(main)


def test_close_gives_up_on_a_peer_that_takes_nothing(monkeypatch):
    monkeypatch.setattr(streams, "CLOSE_TIMEOUT", 0.1)

    async def main(_result):
        async def handler(_reader, writer):
            await done.wait()
            writer.abort()

        done = asyncio.Event()
        async with connected("NN", handler) as (_reader, writer):
            writer.write(bytes(30_000_000))
            writer.close()
            with pytest.raises(ChannelCut) as caught:
                await writer.wait_closed()
            assert "bytes were left" in str(caught.value)
            done.set()
    run(main)


# Cancellation.

def test_cancelled_at_each_step_of_the_handshake():
    """open_connection is cancelled after each number of steps of the loop: no key and no descriptor is left."""
    async def main(_result):
        async def verify(key):
            await asyncio.sleep(0)
            return True

        client, server = configs("XX")
        client = Config(pattern="XX", key=client.key, verify=verify, prologue=b"test", ephemeral=Xor)
        async with server_of(echo, server) as address:
            finished = 0
            for steps in range(60):
                before = descriptors()
                task = asyncio.create_task(open_connection(*address, client))
                for _ in range(steps):
                    await asyncio.sleep(0)
                task.cancel()
                try:
                    _, writer = await task
                except asyncio.CancelledError:
                    await asyncio.sleep(0)
                    await asyncio.sleep(0)
                    await asyncio.sleep(0)
                    assert sum(link_of(fd) for fd in descriptors() - before) <= 1    # the server's
                else:
                    finished += 1
                    writer.abort()
                del task
                await settle()
            assert 0 < finished < 60
    run(main)


def link_of(fd):
    try:
        return os.readlink(f"/proc/self/fd/{fd}").startswith("socket:")
    except OSError:
        return False


@pytest.mark.parametrize("wait", ["read", "readexactly", "drain", "wait_closed"])
def test_cancelled_in_a_wait(wait):
    """A channel goes on after a cancelled wait; nothing of what comes later is lost."""
    async def main(_result):
        async def handler(reader, writer):
            await release.wait()
            async with writer:
                writer.write(b"0123456789")
                await reader.read()

        release = asyncio.Event()
        async with connected("NN", handler) as (reader, writer):
            if wait == "drain":
                writer.write(bytes(20_000_000))
            if wait == "wait_closed":
                writer.write(bytes(20_000_000))
                writer.close()
            words = {"read": [100], "readexactly": [100]}.get(wait, [])
            task = asyncio.create_task(getattr(writer if wait in ("drain", "wait_closed") else reader, wait)(*words))
            await asyncio.sleep(0.02)
            assert not task.done()
            task.cancel()
            with pytest.raises(asyncio.CancelledError):
                await task
            release.set()
            if wait.startswith("read"):
                assert await reader.readexactly(10) == b"0123456789"
    run(main)


def test_the_loop_ends_while_channels_are_open():
    """asyncio.run cancels what is left."""
    async def main(_result):
        client, server = configs("XX")
        server = await streams.start_server(echo, "127.0.0.1", 0, server)
        address = server.sockets[0].getsockname()
        _, writer = await open_connection(*address, client)
        server.close()
        writer.close()
        waiting.append(asyncio.create_task(writer.wait_closed()))

    waiting = []
    run(main)


# The relay, over TCP.

TEXTS = (["a first text", "b", "the last of the client"], ["1", "what the server has to say", "and good bye"])


class Relay:
    """Passes the bytes of two parties on, with one fault at one byte of one direction. `sent` counts them."""

    def __init__(self, address, direction=-1, fault="", at=0):
        self.address, self.direction, self.fault, self.at, self.sent = address, direction, fault, at, [0, 0]
        self.tail = bytearray()             # what comes in that direction from the fault's place on
        self.idle = 0.3 if fault else 60    # in seconds: where both wait, the connections are lost
        self.done = asyncio.Event()

    async def __call__(self, reader, writer):
        other_reader, other_writer = await asyncio.open_connection(*self.address)
        try:
            async with asyncio.timeout(self.idle) as self.timeout:
                await asyncio.gather(self.move(0, reader, other_writer), self.move(1, other_reader, writer))
        except (ConnectionError, TimeoutError):
            pass
        for it in (writer, other_writer):
            it.close()
        self.done.set()

    async def move(self, direction, reader, writer):
        while data := await reader.read(4096):
            self.timeout.reschedule(asyncio.get_running_loop().time() + self.idle)
            at, self.sent[direction] = self.at - self.sent[direction], self.sent[direction] + len(data)
            cut = False
            if direction == self.direction and at < len(data):
                self.tail += data[max(at, 0):]
            if direction == self.direction and 0 <= at < len(data):
                here = {"flip": bytes([data[at] ^ 1 << at % 8]), "repeat": data[at:at + 1] * 2}.get(self.fault, b"")
                cut = self.fault == "cut"
                data = data[:at] + here + (b"" if cut else data[at + 1:])
            writer.write(data)
            if cut:
                break
        writer.write_eof()


class Report:
    """What a party has got and done. `end` is True if it got an end, else the error."""

    def __init__(self):
        self.got, self.end, self.ended, self.late = b"", None, False, None


async def party(streams_of_it, texts, waits, report):
    reader, writer = streams_of_it
    try:
        for text in texts:
            writer.write(text.encode())
        await writer.drain()
        if not waits:
            writer.write_eof()
            report.ended = True
        while data := await reader.read(10):
            report.got += data
        report.end = True
        report.ended = True    # by close
    except ConnectionError as error:
        report.end = error
        if not report.ended:
            writer.write(b"late")
        try:
            await writer.drain()
        except ConnectionError as error:
            report.late = error
    finally:
        writer.close()


async def pass_relay(configured, waits, direction, fault, at):
    reports, tasks = [Report(), Report()], []

    async def handler(reader, writer):
        tasks.append(asyncio.current_task())
        await party((reader, writer), TEXTS[1], waits == 1, reports[1])

    async with server_of(handler, configured[1]) as address:
        relay = Relay(address, direction, fault, at)
        server = await asyncio.start_server(relay, "127.0.0.1", 0)
        try:
            made = await open_connection(*server.sockets[0].getsockname(), configured[0])
            await party(made, TEXTS[0], waits == 0, reports[0])
        except (ChannelCut, MessageRefused) as error:
            reports[0].end = error
        await relay.done.wait()
        await settle()
        if tasks:
            await asyncio.wait(tasks)
        server.close()
    return reports, relay


def check_reports(reports, direction, after):
    """`after` is whether the fault is a byte more after all that came."""
    for role, report in enumerate(reports):
        written = "".join(TEXTS[1 - role]).encode()
        assert written.startswith(report.got)
        if report.end is True:
            assert reports[1 - role].ended and report.got == written
            assert direction != 1 - role or after, "an end of what was damaged"
        elif report.end is not None:
            assert isinstance(report.end, ConnectionError) and direction >= 0
            assert role == 0 and report.late is None and not report.got or report.late is not None
    assert reports[0].end is not None, "the client hangs"


@pytest.mark.parametrize("waits", [-1, 0, 1])
def test_relay(waits):
    async def main(_result):
        configured = configs("XX", interval=2)
        reports, whole = await pass_relay(configured, waits, -1, "", 0)
        assert all(report.end is True for report in reports)
        free = asyncio.Semaphore(16)

        async def one(direction, fault, at):
            async with free:
                reports, relay = await pass_relay(configured, waits, direction, fault, at)
                check_reports(reports, direction, fault == "repeat" and len(set(relay.tail)) == 1)

        async with asyncio.TaskGroup() as group:
            for direction in (0, 1):
                for at in range(0, whole.sent[direction], STEP):
                    for fault in ("flip", "cut", "repeat", "drop"):
                        group.create_task(one(direction, fault, at))
    run(main)


def test_memory_is_flat():
    """Many connections, one after another, some of which are cut or refused."""
    async def main(_result):
        client, server = configs("XX")
        stranger = Config(pattern="XX", key=Xor(), accept_any_key=True, prologue=b"other", ephemeral=Xor)
        async with server_of(echo, server) as address:
            async def talk(count):
                for number in range(count):
                    if number % 5 == 4:
                        with pytest.raises((ChannelCut, MessageRefused)):
                            await open_connection(*address, stranger)
                        continue
                    reader, writer = await open_connection(*address, client)
                    writer.write(b"hello")
                    assert await reader.readexactly(5) == b"hello"
                    writer.close() if number % 2 else writer.abort()
                await settle()

            await talk(CONNECTIONS // 3)
            open_keys()
            tracemalloc.start()
            try:
                await talk(CONNECTIONS // 3)
                open_keys()
                before = tracemalloc.get_traced_memory()[0]
                await talk(CONNECTIONS)
                open_keys()
                after = tracemalloc.get_traced_memory()[0]
            finally:
                tracemalloc.stop()
            assert after - before < 20_000 + 3 * CONNECTIONS, (before, after)
    run(main, seconds=600, debug=False)


def test_x25519_by_cryptography():
    async def main(_result):
        server_key, client_key = KeyPair.generate(), KeyPair.generate()
        config = Config(pattern="XX", key=server_key, verify=lambda key: key == client_key.public)
        async with server_of(echo, config) as address:
            for key, peer, error in ((client_key, server_key, None), (client_key, client_key, MessageRefused),
                                     (KeyPair.generate(), server_key, ChannelCut)):
                try:
                    reader, writer = await open_connection(
                        *address, Config(pattern="XX", key=key, peer_key=peer.public))
                    writer.write(b"x")
                    writer.write_eof()
                    assert await reader.read() == b"x" and error is None
                    writer.close()
                    await writer.wait_closed()
                except ConnectionError as caught:
                    assert error is not None and isinstance(caught, error)
                    if error is MessageRefused:
                        assert caught.message == 2 and isinstance(caught.cause, PeerRefused)
    run(main)
