"""The initiator with anyio: anyio_client.py SERVER'S_KEY TEXT [BACKEND] sends a text to server.py, and prints what
comes back. BACKEND is asyncio or trio."""
import sys

import anyio
from anyio.abc import ByteStream

from yulimosar import Agreed, Channel, Config, Data, End, Event, KeyPair, NoiseError, Pending


async def next_event(channel: Channel, stream: ByteStream) -> Event:
    """What happens next on a channel; after End nothing does."""
    while True:
        event = channel.next_event()
        await send(channel, stream)
        if isinstance(event, Pending):
            try:
                answer = await event.awaitable
            except Exception as error:
                channel.fail(error)  # `next_event` raises MessageRefused, with this as its cause
            else:
                channel.answer(answer)
        elif event is not None:
            return event
        elif data := await receive(stream):
            channel.receive_data(data)
        else:
            channel.receive_eof()


async def send(channel: Channel, stream: ByteStream) -> None:
    """Sends what the channel has sealed."""
    if data := channel.data_to_send():
        await stream.send(data)


async def receive(stream: ByteStream) -> bytes:
    """What comes next; b"" where the connection has ended or is lost: the channel knows whether that is a cut."""
    try:
        return await stream.receive()
    except (anyio.EndOfStream, anyio.BrokenResourceError):
        return b""


async def main(server_key: str, text: str) -> None:
    """Says the text, and reads until the server's end."""

    async def is_the_server(key: bytes) -> bool:
        await anyio.sleep(0)  # it may ask a database
        return key.hex() == server_key

    config = Config(pattern="XX", prologue=b"echo 1", key=KeyPair.from_file("client.key"), verify=is_the_server)
    channel, answer = Channel(config, initiator=True), b""
    try:
        with anyio.fail_after(10):
            async with await anyio.connect_tcp("127.0.0.1", 4044) as stream:
                while not isinstance(event := await next_event(channel, stream), End):
                    if isinstance(event, Agreed):
                        channel.write(text.encode())
                        channel.write_eof()
                        await send(channel, stream)
                    elif isinstance(event, Data):
                        answer += event.payload
    finally:
        channel.close()
    print(f"client: the server says: {answer.decode()}")


try:
    anyio.run(main, *sys.argv[1:3], backend=sys.argv[3] if len(sys.argv) > 3 else "asyncio")
except (NoiseError, OSError, TimeoutError) as fault:
    sys.exit(f"client: {fault}")
