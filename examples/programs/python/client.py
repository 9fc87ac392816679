"""The initiator: client.py SERVER'S_KEY TEXT sends a text to server.py, and prints what comes back."""
import asyncio
import sys

from yulimosar import Config, KeyPair, NoiseError, open_connection


async def main(server_key: str, text: str) -> None:
    """Says the text, and reads until the server's end."""
    key = KeyPair.from_file("client.key")
    config = Config(pattern="XX", prologue=b"echo 1", key=key, peer_key=bytes.fromhex(server_key))
    reader, writer = await open_connection("127.0.0.1", 4044, config)
    async with writer:
        writer.write(text.encode())
        writer.write_eof()
        answer = await reader.read()  # all that the server has sent, or ChannelCut
    print(f"client: the server says: {answer.decode()}")


try:
    asyncio.run(main(sys.argv[1], sys.argv[2]))
except (NoiseError, OSError) as fault:
    sys.exit(f"client: {fault}")
