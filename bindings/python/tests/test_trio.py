"""Channels with Trio: functions that are awaited, and fail; cuts; and a wait that is cancelled."""
import pytest
from toys import configs

from yulimosar import Agreed, Channel, ChannelCut, Config, Data, End, MessageRefused, Pending

trio = pytest.importorskip("trio", reason="python3-trio isn't installed")


async def next_event(channel, stream):
    """As examples/programs/python/trio_client.py has it."""
    while True:
        event = channel.next_event()
        if data := channel.data_to_send():
            await stream.send_all(data)
        if isinstance(event, Pending):
            try:
                answer = await event.awaitable
            except Exception as error:
                channel.fail(error)
            else:
                channel.answer(answer)
        elif event is not None:
            return event
        elif data := await receive(stream):
            channel.receive_data(data)
        else:
            channel.receive_eof()


async def receive(stream):
    try:
        return bytes(await stream.receive_some(10))
    except trio.BrokenResourceError:
        return b""


async def party(channel, stream, got, *, ends=True):
    """Writes a text, and notes what comes, or what is raised."""
    try:
        while not got or got[-1] != End():
            event = await next_event(channel, stream)
            got.append(event)
            if isinstance(event, Agreed):
                channel.write(b"text")
                if ends:
                    channel.write_eof()
                await stream.send_all(channel.data_to_send())
                if not ends:
                    return
    except (MessageRefused, ChannelCut) as fault:
        got.append(fault)
    finally:
        channel.close()
        await stream.aclose()


def talk(first, second, **words):
    """What each of two parties has got."""
    got = [], []

    async def main():
        with trio.fail_after(30):
            streams = trio.testing.memory_stream_pair()
            async with trio.open_nursery() as nursery:
                for index, config in enumerate((first, second)):
                    channel = Channel(config, index == 0)
                    nursery.start_soon(lambda *it: party(*it, **(words if it[0]._initiator else {})), channel,
                                       streams[index], got[index])

    import trio.testing  # noqa: F401
    trio.run(main)
    return got


def with_verify(config, verify):
    words = {name: getattr(config, name) for name in ("pattern", "key", "prologue", "ephemeral")}
    return Config(**words, verify=verify)


@pytest.mark.parametrize("answer", [True, False, KeyError("database"), None])
def test_a_function_that_is_awaited(answer):
    async def verify(_key):
        await trio.sleep(0.01)
        if isinstance(answer, Exception):
            raise answer
        return answer

    first, second = configs("XX")
    got = talk(with_verify(first, verify), second)
    if answer is True:
        assert [type(event) for event in got[0]] == [type(event) for event in got[1]] == [Agreed, Data, End]
    else:
        assert isinstance(got[0][-1], MessageRefused) and got[0][-1].message == 2
        assert not isinstance(answer, Exception) or got[0][-1].cause is answer
        assert isinstance(got[1][-1], ChannelCut)


def test_a_cut():
    first, second = configs("NN")
    got = talk(first, second, ends=False)
    assert [type(event) for event in got[1]] == [Agreed, Data, ChannelCut]


def test_a_wait_that_is_cancelled():
    """The channel goes on afterwards: nothing of what comes later is lost."""
    async def main():
        import trio.testing
        with trio.fail_after(30):
            first, second = configs("XX")
            asked = []

            async def verify(_key):
                asked.append(1)
                await trio.sleep(0 if len(asked) > 1 else 60)
                return True

            async def cancel(scope):
                while not asked:
                    await trio.sleep(0.005)
                scope.cancel()

            channels = Channel(with_verify(first, verify), True), Channel(second, False)
            streams, got = trio.testing.memory_stream_pair(), []
            async with trio.open_nursery() as nursery:
                nursery.start_soon(party, channels[1], streams[1], [])
                with trio.CancelScope() as scope:
                    nursery.start_soon(cancel, scope)
                    got.append(await next_event(channels[0], streams[0]))
                assert scope.cancelled_caught and not got
                channels[0].answer(await verify(b""))
                while not got or got[-1] != End():
                    got.append(await next_event(channels[0], streams[0]))
                    if isinstance(got[-1], Agreed):
                        channels[0].write_eof()
                assert [type(event) for event in got] == [Agreed, Data, End]
                channels[0].close()
                await streams[0].aclose()

    trio.run(main)
