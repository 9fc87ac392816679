"""One end over TCP, for bindings/rust/tests/live/run.py, with the words of bindings/rust/examples/live/main.rs:
live_peer.py PATTERN OWN_SECRET PEER_KEY PSK ADDRESS ORDER SIZE [async]."""
import logging
import socket
import sys
import threading

from yulimosar import ChannelCut, Config, KeyPair, MessageRefused, NoiseError, accept, connect, layout

if sys.argv[-1] == "async":    # (to import asyncio takes a third of what a short session takes)
    import asyncio

    from yulimosar import open_connection, start_server

PART = 10000
FAULTS = (NoiseError, OSError)


def sent_by(initiator, size):
    """What a party sends."""
    return (bytes((i * 7 + initiator) % 251 for i in range(251)) * (size // 251 + 1))[:size]


def name_of(fault):
    if isinstance(fault, MessageRefused):
        return "refused"
    return "cut" if isinstance(fault, ChannelCut) else "lost"


class Run:
    """What the words say, and what this party tells at last."""

    def __init__(self, pattern, own, peer, psk, address, order, size):
        host, port = address.lstrip("@").rsplit(":", 1)
        self.address = host, int(port)
        self.initiator = not address.startswith("@")
        self.ends_first, self.size = order == "first", int(size)
        key = bytes.fromhex(peer)
        named = not pattern.startswith("NN")
        knows = layout(pattern).knows(self.initiator)
        self.config = Config(
            pattern=pattern, prologue=b"live", key=KeyPair.from_secret(bytes.fromhex(own)) if named else None,
            peer_key=key if knows else None, verify=(lambda it: it == key) if named and not knows else None,
            psks=[] if psk == "-" else [bytes.fromhex(psk)], accept_any_key=not named,
        )
        self.wrote, self.has_ended = 0, False
        self.got, self.end = b"", "end"

    def parts(self):
        """What this party sends. A part counts as written also where its call fails: some of it may have been sent."""
        everything = sent_by(self.initiator, self.size)
        while self.wrote < self.size:
            part = everything[self.wrote:self.wrote + PART]
            self.wrote += len(part)
            yield part

    def tell(self):
        assert sent_by(not self.initiator, self.size).startswith(self.got), "other bytes"
        ended = "ended" if self.has_ended else "open"
        print(f"wrote {self.wrote} {ended}, read {len(self.got)} {self.end}", flush=True)


class Blocking:
    """An end over a NoiseSocket: one thread sends while another receives."""

    def __init__(self, run):
        self.run = run
        self.has_read = threading.Event()

    def connection(self):
        if self.run.initiator:
            return socket.create_connection(self.run.address)
        with socket.create_server(self.run.address) as listener:
            print("%s:%d" % listener.getsockname()[:2], flush=True)
            return listener.accept()[0]

    def pass_session(self):
        run, connection = self.run, self.connection()
        try:
            channel = (connect if run.initiator else accept)(connection, run.config)
        except FAULTS as fault:
            run.end = name_of(fault)
            return
        writer = threading.Thread(target=self.write, args=[channel])
        writer.start()
        got = bytearray()
        try:
            while part := channel.recv(PART):
                got += part
        except FAULTS as fault:
            run.end = name_of(fault)
        run.got = bytes(got)
        self.has_read.set()
        writer.join()
        channel.close()

    def write(self, channel):
        run = self.run
        try:
            for part in run.parts():
                channel.sendall(part)
            if not run.ends_first:
                self.has_read.wait()
            if run.ends_first or run.end == "end":
                channel.shutdown(socket.SHUT_WR)
                run.has_ended = True
        except FAULTS:
            pass    # what it receives says why


class Streams:
    """An end over a Reader and a Writer of asyncio."""

    def __init__(self, run):
        self.run = run
        self.has_read = asyncio.Event()

    async def pass_session(self):
        run = self.run
        try:
            reader, writer = await (self.client() if run.initiator else self.server())
        except FAULTS as fault:
            run.end = name_of(fault)
            return
        writing = asyncio.create_task(self.write(writer))
        got = bytearray()
        try:
            while part := await reader.read(PART):
                got += part
        except FAULTS as fault:
            run.end = name_of(fault)
        run.got = bytes(got)
        self.has_read.set()
        await writing
        writer.close()
        try:
            await writer.wait_closed()
        except FAULTS:
            pass

    async def client(self):
        return await open_connection(*self.run.address, self.run.config)

    async def server(self):
        """Serves one client. A handshake that fails is reported by the package's log alone."""
        made = asyncio.get_running_loop().create_future()
        log = logging.Handler()
        log.emit = lambda record: made.done() or made.set_exception(record.args[1])
        logger = logging.getLogger("yulimosar")
        logger.setLevel(logging.INFO)
        logger.addHandler(log)
        server = await start_server(lambda *streams: made.set_result(streams), *self.run.address, self.run.config)
        print("%s:%d" % server.sockets[0].getsockname()[:2], flush=True)
        try:
            return await made
        finally:
            server.close()

    async def write(self, writer):
        run = self.run
        try:
            for part in run.parts():
                writer.write(part)
                await writer.drain()
            if not run.ends_first:
                await self.has_read.wait()
            if run.ends_first or run.end == "end":
                writer.write_eof()
                await writer.drain()
                run.has_ended = True
        except FAULTS:
            pass    # what it reads says why


def main():
    words = sys.argv[1:]
    run = Run(*words[:7])
    if words[7:] == ["async"]:
        asyncio.run(Streams(run).pass_session())
    else:
        Blocking(run).pass_session()
    run.tell()


main()
