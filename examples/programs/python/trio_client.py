"""The initiator with Trio: trio_client.py SERVER'S_KEY TEXT sends a text to server.py, and prints what comes back."""
import sys

import trio  # type: ignore[import]

from yulimosar import Agreed, Channel, Config, Data, End, Event, KeyPair, NoiseError, Pending


async def next_event(channel: Channel, stream: trio.SocketStream) -> Event:
    """What happens next on a channel; after End nothing does."""
    while True:
        event = channel.next_event()
        await send(channel, stream)
        if isinstance(event, Pending):
            try:
                answer = await event.awaitable
            except Exception as error:
                channel.fail(error)  # `next_event` raises MessageRefused, with this as its cause
            else:
                channel.answer(answer)
        elif event is not None:
            return event
        elif data := await receive(stream):
            channel.receive_data(data)
        else:
            channel.receive_eof()


async def send(channel: Channel, stream: trio.SocketStream) -> None:
    """Sends what the channel has sealed."""
    if data := channel.data_to_send():
        await stream.send_all(data)


async def receive(stream: trio.SocketStream) -> bytes:
    """What comes next; b"" where the connection has ended or is lost: the channel knows whether that is a cut."""
    try:
        return bytes(await stream.receive_some())
    except trio.BrokenResourceError:
        return b""


async def main(server_key: str, text: str) -> None:
    """Says the text, and reads until the server's end."""

    async def is_the_server(key: bytes) -> bool:
        await trio.sleep(0)  # it may ask a database
        return key.hex() == server_key

    config = Config(pattern="XX", prologue=b"echo 1", key=KeyPair.from_file("client.key"), verify=is_the_server)
    channel, answer = Channel(config, initiator=True), b""
    try:
        with trio.fail_after(10):
            async with await trio.open_tcp_stream("127.0.0.1", 4044) as stream:
                while not isinstance(event := await next_event(channel, stream), End):
                    if isinstance(event, Agreed):
                        channel.write(text.encode())
                        channel.write_eof()
                        await send(channel, stream)
                    elif isinstance(event, Data):
                        answer += event.payload
    finally:
        channel.close()
    print(f"client: the server says: {answer.decode()}")


try:
    trio.run(main, sys.argv[1], sys.argv[2])
except (NoiseError, OSError, trio.TooSlowError) as fault:
    sys.exit(f"client: {fault}")
