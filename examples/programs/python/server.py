"""The responder: it takes connections on 127.0.0.1, port 4044, of the clients whose keys are in the file `allowed`, and
sends back what it reads."""
import asyncio
import logging
from pathlib import Path

from yulimosar import Config, KeyPair, Reader, Writer, start_server


async def echo(reader: Reader, writer: Writer) -> None:
    """Serves a client whose key was accepted."""
    async with writer:  # ends this party's stream; after an exception it closes without the end
        key = writer.get_extra_info("noise").peer_key.hex()
        print(f"server: a client with the key {key[:2]}..{key[-2:]}", flush=True)
        while data := await reader.read(65536):  # b"" is the client's end; a cut raises ChannelCut
            writer.write(data)
            await writer.drain()


async def main() -> None:
    """Listens."""
    logging.basicConfig(level=logging.INFO, format="server: %(message)s")  # a line for each client that is refused
    allowed = {bytes.fromhex(line) for line in Path("allowed").read_text(encoding="ascii").split()}
    key = KeyPair.from_file("server.key")
    config = Config(pattern="XX", prologue=b"echo 1", key=key, verify=allowed.__contains__)
    async with await start_server(echo, "127.0.0.1", 4044, config) as server:
        await server.serve_forever()


asyncio.run(main())
