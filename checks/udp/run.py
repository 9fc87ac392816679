#!/usr/bin/env python3
"""Attacks endpoints over UDP, in a network namespace of its own: run.py NAME=COMMAND .. has each as the server of each.

A command is one of bindings/python/tests/udp_peer.py, whose words it takes. What is tried, and what has to come of it,
are the functions below, one for each; `--only NAME` runs one. Where no namespace can be had, the last line says so.
"""

from __future__ import annotations

import asyncio
import contextlib
import os
import shlex
import shutil
import subprocess
import sys
from collections.abc import Awaitable, Callable
from contextlib import AsyncExitStack, asynccontextmanager
from pathlib import Path

sys.path.insert(0, str(Path(__file__).resolve().parent))

from network import HOST, Flood, Relay, Stranger, first_messages, server_of  # noqa: E402
from party import Party  # noqa: E402
from routed import Routed  # noqa: E402

AGAIN = 2         # attacks on a server that may be tried again
PATIENCE = 150    # in seconds: for a handshake that has to succeed, of which most take less than one
ROUND_TRIP = 0.1
OF_FOUR = "MINE4:\n  -> e\n  <- e, ee, s\n  -> es, s\n  <- se\n"
OF_EIGHT = "MINE8:\n  -> e\n  <- e\n  -> ee\n  <- s\n  -> s\n  <- es\n  -> se\n  <- ss\n"


class Failed(Exception):
    """What an endpoint did wrong."""


def wanted(holds: bool, what: str) -> None:
    if not holds:
        raise Failed(what)


class Pair:
    """A server and clients, by their commands."""

    def __init__(self, server: list[str], client: list[str], stack: AsyncExitStack) -> None:
        self._server, self._client, self._stack = server, client, stack

    async def serve(self, pattern: str = "XX", port: int = 0, busy: int = 16, payload: int = 0, host: str = HOST,
                    before: tuple[str, ...] = ()) -> Party:
        """A server; `before` is a command that runs it, as in another network namespace."""
        words = ["serve", pattern, host, str(port), str(busy), str(payload)]
        party = await self._stack.enter_async_context(Party.begun([*before, *self._server, *words]))
        party.port = int((await party.line("ready ")).split()[1])
        return party

    async def relay(self, port: int, **words: object) -> Relay:
        return await self._stack.enter_async_context(Relay.between(port, **words))

    async def ask(self, port: int, count: int = 1, pattern: str = "XX", host: str = HOST) -> Party:
        words = ["ask", pattern, host, str(port), str(count), str(PATIENCE)]
        return await self._stack.enter_async_context(Party.begun([*self._client, *words]))

    @asynccontextmanager
    async def flood(self, port: int, addresses: list[str], rate: int, **words: object):
        async with Flood.of(port, addresses, rate, **words) as flood:
            await flood.has_sent(300)
            yield flood


def few_are_answered(flood: Flood) -> None:
    got = flood.answered()
    wanted(got < flood.sent / 5, f"{got} of {flood.sent} strangers got message 1 without a cookie")


async def get_in(pair: Pair, addresses: list[str], rate: int, answers: bool = False, source: str | None = None) -> None:
    """20 right clients at a round trip of 100 ms, while strangers send first messages."""
    server = await pair.serve(host=server_of(addresses[0]))
    relay = await pair.relay(server.port, delay=ROUND_TRIP / 2, source=source)
    async with pair.flood(server.port, addresses, rate, answers=answers) as flood:
        clients = await pair.ask(relay.port, 20)
        said = await clients.line(" of 20", PATIENCE * 2)
        wanted(said == "20 of 20", f"{said} right clients got in, while {flood.sent} datagrams came")
        if answers:
            most = 40 * flood.seconds + 50
            wanted(flood.begun < most, f"a host began {flood.begun} handshakes in {flood.seconds:.1f} seconds")
        else:
            few_are_answered(flood)


async def flood_from_many(pair: Pair) -> None:
    """Strangers at 640 datagrams a second from 500 addresses."""
    await get_in(pair, [f"127.1.{n // 250}.{n % 250 + 1}" for n in range(500)], 640)


async def flood_from_one(pair: Pair) -> None:
    """Strangers at 1,000 datagrams a second from one host, at 500 ports."""
    await get_in(pair, ["127.1.0.1"] * 500, 1000)


async def flood_that_answers(pair: Pair) -> None:
    """Strangers of one host, who answer cookies: their own handshakes give way."""
    await get_in(pair, ["127.1.0.1"] * 50, 300, answers=True)


async def flood_from_a_prefix(pair: Pair) -> None:
    """Strangers of 250 addresses of a /64, who answer cookies, while the right clients share one address of another."""
    await get_in(pair, [f"2001:db8:0:1::{n:x}" for n in range(250)], 100, answers=True, source="2001:db8:0:2::1")


async def goes_on(pair: Pair, port: int, source: str) -> bool:
    """Whether a handshake goes on, between two of whose messages 1,000 others came, of 100 hosts who answer cookies:
    whether the server's first transport datagram is one of it."""
    relay, answered, indices = await pair.relay(port, source=source), asyncio.Event(), list[bytes]()

    def between(_datagram: bytes) -> bool:
        relay.is_open = False
        answered.set()
        return True

    relay.once_back(1, between)
    client = await pair.ask(relay.port)
    await asyncio.wait_for(answered.wait(), PATIENCE)
    async with Flood.of(port, [f"127.1.0.{n + 1}" for n in range(100)], 300, answers=True) as flood:
        await asyncio.wait_for(flood.has_shown(1000), PATIENCE)
        await asyncio.sleep(0.5)
        wanted(flood.begun > flood.shown / 2, f"of {flood.shown} first messages with a cookie {flood.begun} are read")
    last = next((it for it in relay.went if it[:1] == b"\x02"), b"")
    relay.once_back(8, lambda datagram: indices.append(datagram[1:9]) is None)
    relay.is_open = True
    said = await client.line(" of 1", PATIENCE * 2)
    wanted(said == "1 of 1", "a client doesn't get in after strangers have begun as many handshakes as a server keeps")
    await client.end()
    return indices[:1] == [last[-8:]]


async def flood_that_fills(pair: Pair) -> None:
    """Strangers begin more handshakes than a server keeps: their own give way, the oldest first. A handshake has 10
    seconds, and a machine may be slower: one of three has to go on."""
    server = await pair.serve()
    for number in range(3):
        if await goes_on(pair, server.port, f"127.3.0.{number + 1}"):
            return
    raise Failed("each handshake has given way to those of strangers")


async def flood_without_cookies(pair: Pair) -> None:
    """A server that never asks for cookies is seen."""
    server = await pair.serve(busy=1_000_000)
    async with pair.flood(server.port, ["127.1.0.1"] * 50, 50) as flood, asyncio.timeout(PATIENCE):
        with contextlib.suppress(Failed):
            while True:
                few_are_answered(flood)
                await asyncio.sleep(0.1)


async def behind_one_nat(pair: Pair) -> None:
    """20 clients at one address have sessions of their own, and keep them where the NAT forgets their ports."""
    server = await pair.serve()
    relay = await pair.relay(server.port, source="127.3.0.1")
    async with pair.flood(server.port, ["127.1.0.1"] * 50, 300):
        clients = await pair.ask(relay.port, 20)
        said = await clients.line(" of 20", PATIENCE * 2)
        wanted(said == "20 of 20", f"{said} clients behind one NAT got in")
        relay.move("127.3.0.1")
        said = await clients.asks("text")
        wanted(said == "again text", "a client is silent after its NAT has given it another port")
    said = [await server.line("", PATIENCE) for _ in range(20)]
    wanted(said == ["connected 127.3.0.1"] * 20, f"the server says {said}")


async def patterns(pair: Pair) -> None:
    """Patterns of 2, 3, 4 and 8 messages, where one datagram in three is lost; with and without cookies."""
    async def one(pattern: str, busy: int) -> None:
        server = await pair.serve(pattern, busy=busy)
        relay = await pair.relay(server.port, loss=1 / 3)
        client = await pair.ask(relay.port, pattern=pattern)
        said = await client.line(" of 1", PATIENCE * 2)
        wanted(said == "1 of 1", f"{pattern}: a client doesn't get in where datagrams are lost")

    cases = ("NNpsk0", 0), ("IK", 16), ("XXpsk3", 0), (OF_FOUR, 0), (OF_EIGHT, 16), (OF_EIGHT, 0)
    for came in await asyncio.gather(*(one(*case) for case in cases), return_exceptions=True):
        if came is not None:
            raise came


async def fragments(pair: Pair) -> None:
    """A link of 1280 bytes behind a router: a payload of 1199 passes in one packet; a longer one in fragments, once the
    system has learned so, and not where the server's system drops them."""
    with Routed() as path:
        server = await pair.serve(host=path.server, before=path.there)
        client = await pair.ask(server.port, host=path.server)
        wanted(await client.line(" of 1", PATIENCE * 2) == "1 of 1", "a client doesn't get in over a router")
        for length, is_cut in ((1199, False), (1200, True), (1500, True), (30000, True)):
            before, text = path.fragments(), "x" * length
            wanted(await client.asks(text) == f"again {text}", f"a payload of {length} bytes doesn't pass")
            wanted((path.fragments() > before) == is_cut, f"a payload of {length} bytes is cut otherwise")
        path.drop_fragments()
        wanted(await client.asks("x" * 1200) == "silence", "fragments pass a system that drops them")
        wanted(await client.asks("y" * 1199) == "again " + "y" * 1199, "what is no fragment doesn't pass")


async def burst(pair: Pair) -> None:
    """64 datagrams, 2,112 bytes, from as many ports, between the messages of a handshake: five times. It goes on: where
    the machine isn't too slow for that, the client needs no other one."""
    server, went_on = await pair.serve(), 0
    for number in range(5):
        strangers = [Stranger(f"127.2.0.{number + 1}") for _ in range(64)]
        relay = await pair.relay(server.port, source=f"127.3.0.{number + 1}")

        def between(_datagram: bytes) -> bool:
            for stranger, first in zip(strangers, first_messages(64)):
                stranger.send(first, server.port)
            return True

        relay.once_back(1, between)
        client = await pair.ask(relay.port)
        said = await client.line(" of 1", PATIENCE * 2)
        wanted(said == "1 of 1", f"a client doesn't get in after burst {number + 1}")
        went_on += len(relay.begun) == 1
        await client.end()
        for stranger in strangers:
            stranger.close()
    wanted(went_on > 0, "each burst has ended a handshake")


def reflected(copies: int) -> list[list[bytes]]:
    """What strangers send to be answered, each list from a port of its own; with a wrong cookie a first message is
    longer, so its answer may be, and the copies without a cookie are the short ones."""
    message = next(first_messages(1))
    wrong = b"\x0a" + bytes(16) + message[1:]
    return [[message] * copies, [message + bytes(40)] * copies, [wrong] * copies, [wrong, *[message] * copies],
            [b"\x08" + bytes(40)] * copies]


async def reflect(pair: Pair) -> None:
    """What comes back to a stranger, for one datagram and for copies, with a short and a long answer: with what timers
    repeat never more than three times the bytes."""
    for pattern, payload in (("XX", 0), ("XX", 3), ("XX", 50), ("XX", 1400), ("NNpsk0", 200), ("NX", 4000)):
        server = await pair.serve(pattern, payload=payload)
        sent = [(Stranger("127.2.0.1"), datagrams) for copies in (1, 8) for datagrams in reflected(copies)]
        for stranger, datagrams in sent:
            for datagram in datagrams:
                stranger.send(datagram, server.port)
        await asyncio.sleep(1.5)
        for stranger, datagrams in sent:
            came = stranger.received()
            kinds = ", ".join(str(datagram[0]) for datagram in datagrams)
            wanted(came <= 3 * stranger.sent,
                   f"{pattern} with a payload of {payload}: {came} bytes for {stranger.sent}, of the kinds {kinds}")
            stranger.close()
        client = await pair.ask(server.port, pattern=pattern)
        said = await client.line(" of 1", PATIENCE * 2)
        wanted(said == "1 of 1", f"{pattern} with a payload of {payload}: the right client doesn't get in")
        await client.end()
        await server.end()


async def restart_of_the_server(pair: Pair) -> None:
    """The server is another one after the second message: the client begins anew, whether it writes the last message of
    the handshake, or has read it."""
    for pattern in ("XX", "NNpsk0"):
        server = await pair.serve(pattern)
        relay, gone = await pair.relay(server.port), asyncio.Event()

        def between(_datagram: bytes, server: Party = server, gone: asyncio.Event = gone) -> bool:
            server.kill()
            gone.set()
            return True

        relay.once_back(1, between)
        client = await pair.ask(relay.port, pattern=pattern)
        await asyncio.wait_for(gone.wait(), PATIENCE)
        await server.end()
        await pair.serve(pattern, port=server.port)
        said = await client.line(" of 1", PATIENCE * 2)
        wanted(said == "1 of 1", f"{pattern}: a client whose server has restarted doesn't get in")


async def restart_of_the_client(pair: Pair) -> None:
    """A client goes after the second message, and another begins at its address; then that one restarts, too."""
    server = await pair.serve()
    relay, gone = await pair.relay(server.port, sticky=True), asyncio.Event()
    relay.once_back(1, lambda _datagram: bool(gone.set()))
    first = await pair.ask(relay.port)
    await asyncio.wait_for(gone.wait(), PATIENCE)
    await first.end()
    for _ in range(2):
        client = await pair.ask(relay.port)
        said = await client.line(" of 1", PATIENCE * 2)
        wanted(said == "1 of 1", "a client that has restarted at its address doesn't get in")
        await client.end()
    said = list[str]()
    with contextlib.suppress(TimeoutError):
        while len(said) < 3:
            said.append((await server.line("", PATIENCE)).split()[0])
    wanted(sorted(said) == ["connected", "connected", "lost"], f"the server says {said}")


async def established(pair: Pair) -> None:
    """A session goes on during a flood of first messages, also of its own host, which answers cookies; and of datagrams
    with its index."""
    server = await pair.serve()
    relay = await pair.relay(server.port, source="127.3.0.1")
    client = await pair.ask(relay.port)
    await client.line("1 of 1", PATIENCE * 2)
    stranger = Stranger("127.2.0.1")
    async with (pair.flood(server.port, ["127.1.0.1"] * 50, 1000),
                pair.flood(server.port, ["127.3.0.1"] * 50, 100, answers=True)):
        for number in range(20):
            for last in relay.went[-3:]:
                stranger.send(last[:-1] + bytes([last[-1] ^ 1]), server.port)
            said = await client.asks(f"text {number}")
            wanted(said == f"again text {number}", "a session is silent during a flood")
    stranger.close()


async def roam(pair: Pair) -> None:
    """A session's address changes; neither a forged datagram nor a late one moves it."""
    server = await pair.serve()
    relay = await pair.relay(server.port, source="127.3.0.1")
    client = await pair.ask(relay.port)
    await client.line("1 of 1", PATIENCE * 2)
    for number in range(3):
        relay.move(f"127.3.1.{number + 1}")
        relay.hold()
        said = await client.asks(f"text {number}")
        wanted(said == f"again text {number}", "a session whose address has changed is silent")
        stranger = Stranger("127.2.0.1")
        for datagram in relay.went[-5:]:
            stranger.send(datagram, server.port)
            stranger.send(datagram[:-1] + bytes([datagram[-1] ^ 1]), server.port)
        stranger.send(relay.held, server.port)    # opens, and is late: what is sent back goes to the client
        await asyncio.sleep(0.3)
        said = await client.asks(f"and {number}")
        wanted(said == f"again and {number}", "a session is silent after datagrams from elsewhere")
        transports = [it for it in stranger.datagrams() if it[:1] == b"\x08"]
        wanted(not transports, "a forged or late datagram has moved a session")
        stranger.close()


TRIED: list[Callable[[Pair], Awaitable[None]]] = [
    flood_from_many, flood_from_one, flood_that_answers, flood_from_a_prefix, flood_that_fills, flood_without_cookies,
    burst, reflect, restart_of_the_server, restart_of_the_client, established, roam, behind_one_nat, patterns,
    fragments,
]  # fmt: skip


async def passes(tried: Callable[[Pair], Awaitable[None]], server: str, client: str, commands: list[list[str]]) -> bool:
    """Whether an attack passes: if not, why is printed."""
    try:
        async with AsyncExitStack() as stack:
            await tried(Pair(*commands, stack))
        return True
    except (Failed, TimeoutError, EOFError) as error:
        where = f"{server}'s server, {client}'s client"
        print(f"udp: {where}: {tried.__name__}: {error!r}", file=sys.stderr, flush=True)
        return False


async def attack(server: str, parties: dict[str, list[str]], only: str | None) -> tuple[int, int]:
    """Tries a server with each client: how many attacks have passed, and how many have failed. The rules have times of
    a second, and a machine may stand still for longer: two attacks may be tried again, once."""
    passed = failed = again = 0
    for client, command in parties.items():
        for tried in TRIED:
            if only not in (None, tried.__name__):
                continue
            commands = [parties[server], command]
            is_right = await passes(tried, server, client, commands)
            if not is_right and again < AGAIN:
                again += 1
                is_right = await passes(tried, server, client, commands)
            passed, failed = passed + is_right, failed + (not is_right)
    return passed, failed


def prepare() -> None:
    """Has this namespace take any address of 2001:db8::/32, beside those of 127.0.0.0/8."""
    subprocess.run(["ip", "link", "set", "lo", "up"], check=True)
    Path("/proc/sys/net/ipv6/ip_nonlocal_bind").write_text("1")
    subprocess.run(["ip", "-6", "route", "add", "local", "2001:db8::/32", "dev", "lo"], check=True)


def has_namespaces() -> bool:
    """Whether there are namespaces, with IPv6 and links between two of them."""
    tried = ("ip link set lo up && ip link add name one type veth peer name other && "
             "test -w /proc/sys/net/ipv6/ip_nonlocal_bind")
    return all(map(shutil.which, ("unshare", "nsenter", "ip"))) and not subprocess.run(
        ["unshare", "-n", "sh", "-c", tried], capture_output=True
    ).returncode


def each_server(parties: dict[str, list[str]]) -> tuple[int, int]:
    """Attacks each server in a namespace of its own, at the same time: how many attacks have passed and failed."""
    made = [subprocess.Popen(["unshare", "-n", sys.executable, *sys.argv], stdout=subprocess.PIPE, text=True,
                             env={**os.environ, "NOISE_UDP_SERVER": name}) for name in parties]
    said = [it.communicate()[0].split() for it in made]
    counts = [(int(it[0]), int(it[1])) if len(it) == 2 else (0, 1) for it in said]
    return sum(passed for passed, _ in counts), sum(failed for _, failed in counts)


def main(words: list[str]) -> int:
    only = words.pop(words.index("--only") + 1) if "--only" in words else None
    parties = {name: shlex.split(command) for name, _, command in (it.partition("=") for it in words if "=" in it)}
    if server := os.environ.get("NOISE_UDP_SERVER"):
        prepare()
        print(*asyncio.run(attack(server, parties, only)))
        return 0
    if not has_namespaces():
        print("udp: left out: attacks over UDP: root, a network namespace (unshare, nsenter, ip), IPv6 and veth")
        return 0
    passed, failed = each_server(parties)
    print(f"udp: {passed} attacks on {' and '.join(parties)}, {failed} failed")
    return int(bool(failed))


if __name__ == "__main__":
    sys.exit(main(sys.argv[1:]))
