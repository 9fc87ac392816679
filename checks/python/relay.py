"""A relay over UDP that repeats each datagram, delays it, and puts forged ones beside it: relay.py PORT SERVERS_PORT
ROUND_TRIP, in seconds. The tests of the package have the relay itself."""
import asyncio
import sys
from pathlib import Path

sys.path.insert(0, str(Path(__file__).resolve().parent.parent.parent / "bindings/python/tests"))

from test_datagrams import Relay  # noqa: E402


async def main(port: str, server: str, round_trip: str) -> None:
    """Relays for ever."""
    delay = float(round_trip) / 2
    await asyncio.get_running_loop().create_datagram_endpoint(
        lambda: Relay(("127.0.0.1", int(server)), delay=delay, repeats=1, forges=True),
        local_addr=("127.0.0.1", int(port)))
    await asyncio.Event().wait()


asyncio.run(main(*sys.argv[1:]))
