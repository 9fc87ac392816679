"""Channels with anyio, over asyncio and over Trio: ends, cuts, a refused key, and a wait that is cancelled."""
import pytest
from toys import configs

from yulimosar import Agreed, Channel, ChannelCut, Config, Data, End, MessageRefused, PeerRefused, Pending

anyio = pytest.importorskip("anyio", reason="python3-anyio isn't installed")
pytest.importorskip("trio", reason="python3-trio isn't installed")
pytestmark = pytest.mark.filterwarnings("ignore:trio.MultiError is deprecated")    # anyio's own use
each_backend = pytest.mark.parametrize("backend", ["asyncio", "trio"])


async def next_event(channel, stream):
    """As examples/programs/python/anyio_client.py has it."""
    while True:
        event = channel.next_event()
        if data := channel.data_to_send():
            with anyio.CancelScope(shield=True):    # a send that is cancelled loses bytes
                await stream.send(data)
        if isinstance(event, Pending):
            try:
                answer = await event.awaitable
            except Exception as error:
                channel.fail(error)
            else:
                channel.answer(answer)
        elif event is not None:
            return event
        elif data := await receive(stream):
            channel.receive_data(data)
        else:
            channel.receive_eof()


async def receive(stream):
    try:
        return await stream.receive(10)
    except (anyio.EndOfStream, anyio.BrokenResourceError):
        return b""


async def party(channel, stream, got, ends=True):
    """Writes a text, and notes what comes, or what is raised."""
    try:
        while not got or got[-1] != End():
            got.append(await next_event(channel, stream))
            if isinstance(got[-1], Agreed):
                channel.write(b"text")
                if ends:
                    channel.write_eof()
                await stream.send(channel.data_to_send())
                if not ends:
                    return
    except (MessageRefused, ChannelCut) as fault:
        got.append(fault)
    finally:
        channel.close()
        with anyio.CancelScope(shield=True):
            await stream.aclose()


def talk(backend, first, second, ends=True):
    """What each of two parties has got, over TCP."""
    got = [], []

    async def main():
        async def serve(stream):
            await party(Channel(second, False), stream, got[1])
            done.set()

        done = anyio.Event()
        with anyio.fail_after(30):
            listener = await anyio.create_tcp_listener(local_host="127.0.0.1")
            async with listener, anyio.create_task_group() as group:
                group.start_soon(listener.serve, serve)
                port = listener.extra(anyio.abc.SocketAttribute.local_port)
                await party(Channel(first, True), await anyio.connect_tcp("127.0.0.1", port), got[0], ends)
                await done.wait()
                group.cancel_scope.cancel()

    anyio.run(main, backend=backend)
    return got


def with_verify(config, verify):
    words = {name: getattr(config, name) for name in ("pattern", "key", "prologue", "ephemeral")}
    return Config(**words, verify=verify)


@each_backend
def test_a_conversation_and_a_function_that_is_awaited(backend):
    first, second = configs("XX")

    async def verify(key):
        await anyio.sleep(0.01)
        return key == first.key.public

    for got in talk(backend, first, with_verify(second, verify)):
        assert isinstance(got[0], Agreed) and got[-1] == End()
        assert b"".join(it.payload for it in got if isinstance(it, Data)) == b"text"


@each_backend
def test_a_key_that_is_refused(backend):
    first, second = configs("XX")

    async def verify(_key):
        raise PeerRefused("somebody else")

    _, got = talk(backend, first, with_verify(second, verify))
    assert isinstance(got[-1], MessageRefused) and isinstance(got[-1].cause, PeerRefused)


@each_backend
def test_a_cut_is_no_end(backend):
    _, got = talk(backend, *configs("XX"), ends=False)
    assert isinstance(got[-1], ChannelCut) and End() not in got


@each_backend
def test_a_wait_that_is_cancelled_loses_nothing(backend):
    """Each wait has a moment only, while the other party sends byte by byte."""
    first, second = configs("XX")

    async def main():
        async def slow(stream):
            channel = Channel(second, False)
            assert isinstance(await next_event(channel, stream), Agreed)
            channel.write(bytes(range(256)))
            channel.write_eof()
            for byte in channel.data_to_send():
                await stream.send(bytes([byte]))
            await stream.aclose()

        with anyio.fail_after(60):
            listener = await anyio.create_tcp_listener(local_host="127.0.0.1")
            async with listener, anyio.create_task_group() as group:
                group.start_soon(listener.serve, slow)
                port = listener.extra(anyio.abc.SocketAttribute.local_port)
                channel, got = Channel(first, True), b""
                async with await anyio.connect_tcp("127.0.0.1", port) as stream:
                    while True:
                        event = None
                        with anyio.move_on_after(0.0005):
                            event = await next_event(channel, stream)
                        if isinstance(event, End):
                            break
                        got += event.payload if isinstance(event, Data) else b""
                assert got == bytes(range(256))
                group.cancel_scope.cancel()

    anyio.run(main, backend=backend)
