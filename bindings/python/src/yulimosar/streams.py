"""Channels for asyncio: a reader and a writer, as asyncio.open_connection and asyncio.start_server have them."""
from __future__ import annotations

import asyncio
import copy
import functools
import logging
import warnings
from asyncio.trsock import TransportSocket
from collections.abc import Awaitable, Callable, Iterable
from types import TracebackType
from typing import Any, Self, TypeAlias, TypeVar, cast

from ._noise import ffi
from .channel import CLOSED_HERE, Agreed, Channel, Event, Payload, Pending, frames_length
from .codes import MAX_PAYLOAD, STREAM_OVERHEAD, Code
from .config import Config
from .errors import (
    CallError, ChannelCut, ConfigError, HandshakeTimeout, LowOrderKey, MessageRefused, NoiseError, PeerRefused,
)
from .memory import Buffer, let_go, pointer, shared, uncleared

LIMIT = 2 ** 16        # of a reader's buffer, as asyncio's
UNJOINED = 2 ** 15     # how many bytes of frames are sent one by one, in one turn of the loop
JOINED = 2 ** 16       # how many are sent together after them
_ROOM = JOINED + 1024  # for four frames of 16 KiB
_CHARS = ffi.typeof("char[]")
CLOSE_TIMEOUT = 30.0   # in seconds: how long `close` waits for a peer that takes nothing, as asyncio's does with TLS

AnyProtocol: TypeAlias = asyncio.Protocol | asyncio.BufferedProtocol
_P = TypeVar("_P", bound=AnyProtocol)

logger = logging.getLogger("yulimosar")


class Reader(asyncio.StreamReader):
    """A StreamReader. It gives out all that came before a fault; then each call raises the fault, and `at_eof` stays
    False. b"" is the end that the other party has sent; where this party has closed before, CallError is raised.
    What `read()`, `readline`, `readexactly` and `readuntil` have when they raise a NoiseError is its `partial`."""

    def __init__(self, limit: int, loop: asyncio.AbstractEventLoop) -> None:
        super().__init__(limit=limit, loop=loop)
        self._fault: Exception | None = None
        self._below: _Below | None = None
        self._wanted = 0    # how many bytes a `read` that waits for some takes
        self._got = b""     # what it gets, without the buffer

    def feed_data(self, data: Any) -> None:
        count, self._wanted = self._wanted, 0
        if count and data:
            view = memoryview(data)
            self._got, data = bytes(view[:count]), view[count:]
            cast(Any, self)._wakeup_waiter()
        super().feed_data(data)

    def feed_eof(self) -> None:
        if self._fault is None and (self._below is None or not self._below.ended):
            self._fault = CallError(None, CLOSED_HERE)    # for asyncio that is an end, too
        super().feed_eof()

    def set_exception(self, exc: Exception) -> None:
        if self._below is not None and self._below.ended:
            return    # all had come before the connection was lost: that is the writer's to tell
        self._fault = exc
        self.feed_eof()

    def exception(self) -> Any:
        return None if isinstance(self._fault, CallError) else self._fault    # a one-way writer may drain

    def at_eof(self) -> bool:
        return self._fault is None and not self._got and super().at_eof()

    async def read(self, n: int = -1) -> bytes:
        if n < 0:
            return await self._read_all()
        own = cast(Any, self)
        if n and not own._buffer and not own._eof and own._waiter is None:
            data = await self._read_next(n)
        else:
            data = await super().read(n)
        if not data and n:
            self._raise()
        return data

    async def _read_next(self, n: int) -> bytes:
        """Waits for bytes, where none are there. What a cancelled call gets is left to the next one."""
        own, self._wanted = cast(Any, self), n
        try:
            await own._wait_for_data("read")
            data, self._got = self._got, b""
        finally:
            own._buffer[:0], self._got, self._wanted = self._got, b"", 0
        own._maybe_resume_transport()
        return data

    async def _read_all(self) -> bytes:
        """Reads to the end. What a cancelled call has is left to the next one."""
        parts, own = [], cast(Any, self)
        try:
            while part := await super().read(own._limit):
                parts.append(part)
        except asyncio.CancelledError:
            own._buffer[:0] = b"".join(parts)
            raise
        data = b"".join(parts)
        self._raise(data)
        return data

    async def readexactly(self, n: int) -> bytes:
        try:
            return await super().readexactly(n)
        except asyncio.IncompleteReadError as error:
            self._raise(error.partial)
            raise

    async def readuntil(self, separator: bytes = b"\n") -> bytes:
        try:
            return await super().readuntil(separator)
        except asyncio.IncompleteReadError as error:
            self._raise(error.partial)
            raise

    def _raise(self, partial: bytes = b"") -> None:
        """Raises the fault, if there is one; each time another error, since each has a `partial` of its own."""
        fault = self._fault
        if isinstance(fault, NoiseError):
            cause, fault = fault.__cause__, copy.copy(fault)
            fault.partial = partial
            raise fault from cause
        if fault is not None:
            raise fault.with_traceback(None)


class _Above(asyncio.StreamReaderProtocol):
    """The protocol of a Reader. That nobody waits for the close is no fault; asyncio's own says so where it is freed,
    which may be after the collector has freed, and reported, what it had."""

    def connection_lost(self, exc: Exception | None) -> None:
        super().connection_lost(exc)
        closed = cast(Any, self)._closed
        if closed.done() and not closed.cancelled():
            closed.exception()


class Writer(asyncio.StreamWriter):
    """A StreamWriter. `close` sends the end of the stream, unless something went wrong; `abort` doesn't, so that the
    other party gets ChannelCut. As an asynchronous context manager it closes, or aborts after an exception."""

    def __init__(
        self, transport: _Transport, protocol: asyncio.StreamReaderProtocol, reader: Reader,
        loop: asyncio.AbstractEventLoop
    ) -> None:
        super().__init__(transport, protocol, reader, loop)
        self._below, self._own_reader = transport._below, reader

    async def drain(self) -> None:
        """Waits while the transport has too much to send."""
        below = self._below
        if below.held or below.over or self._own_reader._fault is not None:
            await super().drain()

    @property
    def noise(self) -> Agreed:
        """What the handshake has agreed on."""
        return cast(Agreed, self.get_extra_info("noise"))

    def abort(self) -> None:
        """Closes the connection at once, without the end of the stream."""
        self.transport.abort()

    async def __aenter__(self) -> Self:
        return self

    async def __aexit__(
        self, kind: type[BaseException] | None, error: BaseException | None, trace: TracebackType | None
    ) -> None:
        if kind is not None:
            self.abort()
            return
        self.close()
        await self.wait_closed()

    def __del__(self, *_ignored: object) -> None:
        if not self.transport.is_closing():
            try:
                self.abort()
            except RuntimeError:    # the event loop is closed
                pass
            warnings.warn(f"unclosed {self!r}", ResourceWarning, source=self)


class _Transport(asyncio.Transport):
    """What the protocol above writes to."""

    def __init__(self, below: _Below) -> None:
        super().__init__()
        self._below = below
        self._ended = False

    def get_extra_info(self, name: str, default: Any = None) -> Any:
        if name == "noise":
            return self._below.channel.agreed
        return self._below.transport.get_extra_info(name, default)

    def set_protocol(self, protocol: asyncio.BaseProtocol) -> None:
        self._below.set_above(cast(AnyProtocol, protocol))

    def get_protocol(self) -> asyncio.BaseProtocol:
        return self._below.above

    def is_closing(self) -> bool:
        return self._below.over

    def close(self) -> None:
        self._below.close()

    def abort(self) -> None:
        self._below.abort()

    def is_reading(self) -> bool:
        return not self._below.over and not self._below.paused

    def pause_reading(self) -> None:
        self._below.pause()

    def resume_reading(self) -> None:
        self._below.resume()

    def set_write_buffer_limits(self, high: int | None = None, low: int | None = None) -> None:
        self._below.transport.set_write_buffer_limits(high, low)
        if high is None:
            high = JOINED if low is None else 4 * low    # as asyncio's
        self._below.joins = high >= JOINED

    def get_write_buffer_limits(self) -> tuple[int, int]:
        return self._below.transport.get_write_buffer_limits()

    def get_write_buffer_size(self) -> int:
        return self._below.transport.get_write_buffer_size() + self._below.joined

    def write(self, data: Buffer) -> None:
        if self._ended:
            raise RuntimeError("Cannot call write() after write_eof()")
        if not self._below.over:
            self._below.write(data)

    def writelines(self, list_of_data: Iterable[Buffer]) -> None:
        self.write(b"".join(list_of_data))

    def write_eof(self) -> None:
        if not self._ended:
            self._ended = True
            self._below.write_eof()

    def can_write_eof(self) -> bool:
        return True


class _Below(asyncio.BufferedProtocol):
    """The protocol of the connection below. It carries a channel, and is to the protocol above as a transport is.

    `ready` is called when the handshake is done; `failed`, if it has failed, once the connection is closed.
    """

    def __init__(
        self, channel: Channel, above: AnyProtocol, timeout: float | None,
        ready: Callable[[_Transport], None], failed: Callable[[Exception], None]
    ) -> None:
        self.loop = asyncio.get_running_loop()
        self.channel = channel
        self.set_above(above)
        self.transport: asyncio.Transport
        self.over = False       # closed, broken or lost
        self.ended = False      # whether the other party has ended its stream
        self.paused = False     # whether the protocol above wants no more
        self._fault: Exception | None = None
        self._timeout, self._failed = timeout, failed
        self._ready: Callable[[_Transport], None] | None = ready
        self._timer: asyncio.TimerHandle | None = None
        self._asking: asyncio.Task[None] | None = None    # what waits for an asynchronous function of the Config
        self._forked = False
        self.held = False       # whether the transport below has said that it has too much to send
        self.joins = True       # whether frames may be joined, and sent at the loop's next turn
        self.joined = 0         # how many bytes of frames are
        self._frames: Any = None    # where they are
        self._written = 0       # how many bytes of frames were sent since the last `_turned`
        self._turn: asyncio.Handle | None = None    # of `_turned`, if it is called at the loop's next turn
        shared.add(self)

    def set_above(self, above: AnyProtocol) -> None:
        """A protocol of asyncio's own for a reader copies what it gets; another one is given bytes, or has a buffer."""
        self.above = above
        self._give: Callable[[Any], None]
        if isinstance(above, asyncio.BufferedProtocol):
            self._give = functools.partial(_fill, above)
        elif type(above) in (_Above, asyncio.StreamReaderProtocol):
            self._give = above.data_received
        else:
            received = above.data_received
            self._give = lambda it: received(bytes(it))

    def _in_child(self) -> None:
        """In a forked process the connection, and the loop's selector, are the parent's."""
        self.over = self._forked = True
        self._drop_joined()

    def connection_made(self, transport: asyncio.BaseTransport) -> None:
        self.transport = cast(asyncio.Transport, transport)    # that of another loop, as uvloop's, isn't a subclass
        if self._timeout is not None:
            self._timer = self.loop.call_later(self._timeout, lambda: self.break_off(HandshakeTimeout()))
        self.pump()

    def get_buffer(self, sizehint: int) -> memoryview:
        return self.channel._get_buffer()

    def buffer_updated(self, nbytes: int) -> None:
        self.channel._buffer_updated(nbytes)
        self.pump()

    def eof_received(self) -> bool:
        self.channel.receive_eof()
        self.pump()
        return True    # what was broken is closed; else this party may still write

    def pump(self) -> None:
        """Gives out what has come, and sends what is to be sent."""
        self._pump()
        if not self.paused:
            self.channel._settle()

    def _pump(self) -> None:
        following = self.channel._next_of_all
        self._send_joined()    # it was written before this party learns what came
        while not self.over and not self.paused and self._asking is None:
            try:
                event = following()
            except Exception as fault:
                self.break_off(fault)
                return
            if type(event) is not Payload:
                self._flush()
                if event is None:
                    return
            try:
                if type(event) is Payload:
                    self._give(event)
                else:
                    self._take(cast(Event, event))
            except Exception as fault:    # of the protocol above
                self._report(fault)
                self.break_off(fault)

    def _report(self, fault: Exception) -> None:
        """As asyncio's transports do: then the connection is aborted."""
        self.loop.call_exception_handler({
            "message": "Fatal error: a call of the protocol over a channel failed.", "exception": fault,
            "transport": self.transport, "protocol": self.above,
        })

    def _take(self, event: Event) -> None:
        if isinstance(event, Agreed):
            self._begin()
        elif isinstance(event, Pending):
            self.transport.pause_reading()
            self._asking = self.loop.create_task(self._ask(event.awaitable))
        else:
            self.ended = True
            if not self.above.eof_received():
                self.close()

    def _begin(self) -> None:
        self._stop_timer()
        made = _Transport(self)
        self.above.connection_made(made)
        if self.held:
            self.above.pause_writing()    # for what the handshake has sent
        ready, self._ready = self._ready, None    # it may hold the reader, which the caller alone is to hold
        if ready is not None:
            ready(made)

    async def _ask(self, awaitable: Awaitable[Any]) -> None:
        try:
            result = await awaitable
        except asyncio.CancelledError:
            self.break_off(CallError(None))
            raise
        except Exception as error:
            self.channel.fail(error)
        else:
            self.channel.answer(result)
        self._asking = None
        if not self.over:
            self.transport.resume_reading()
            self.pump()

    def write(self, data: Buffer) -> None:
        """Sends the frames of a payload. After the first 32 KiB that a program writes in one turn of the loop they are
        joined: one call of the system sends 64 KiB, or what there is at the next turn."""
        payload, size = (data, len(data)) if type(data) is bytes else pointer(data)
        try:
            self._write(payload, size)
        except BaseException:
            let_go(payload)
            raise

    def _write(self, payload: Any, size: int) -> None:
        length = size + STREAM_OVERHEAD if 0 < size <= MAX_PAYLOAD else frames_length(size)
        if self._turn is None or length > UNJOINED or not self.joins:
            self._send(payload, size, length)
            return
        end = self.joined + length
        if end > _ROOM:
            self._send_joined()
            end = length
        if self._frames is None:
            self._frames = uncleared(_CHARS, _ROOM)
        self.channel._seal(payload, size, self._frames + self.joined, length)
        self.joined = end
        if end >= JOINED:
            self._send_joined()

    def _send(self, payload: Any, size: int, length: int) -> None:
        self._send_joined()
        frames = uncleared(_CHARS, length)
        self.channel._seal(payload, size, frames, length)
        self._written += length
        if self._written > UNJOINED and self._turn is None:
            self._turn = self.loop.call_soon(self._turned)
        self.transport.write(memoryview(ffi.buffer(frames, length)))

    def _send_joined(self) -> None:
        if self.joined:
            frames = memoryview(ffi.buffer(self._frames, self.joined))
            self._drop_joined()
            self.transport.write(frames)

    def _drop_joined(self) -> None:
        self.joined, self._frames = 0, None

    def _turned(self) -> None:
        self._turn, self._written = None, 0
        self._send_joined()

    def _flush(self) -> None:
        self._send_joined()
        if data := self.channel.data_to_send():
            self.transport.write(data)

    def _stop_timer(self) -> None:
        if self._timer is not None:
            self._timer.cancel()
            self._timer = None

    def break_off(self, fault: Exception) -> None:
        """Ends the channel for a fault: nothing more is sent."""
        if not self.over:
            self.over, self._fault = True, fault
            self._drop_joined()
            self.channel.close()
            self.transport.abort()

    def abort(self) -> None:
        """Closes the connection without the end of the stream."""
        if self._forked:
            return
        if not self.over:
            self._send_joined()    # as far as the system takes it, like what was written before
            self.over = True
            self.channel.close()
        self.transport.abort()

    def close(self) -> None:
        """Sends the end of the stream, and closes the connection once all is sent."""
        if self.over:
            return
        self.write_eof()
        self.over = True
        self.channel.close()
        self.transport.close()
        self._watch(self.transport.get_write_buffer_size())

    def _watch(self, left: int) -> None:
        """Aborts if the peer takes nothing any more."""
        def look() -> None:
            now = self.transport.get_write_buffer_size()
            if now < left:
                self._watch(now)
            else:
                self._fault = ChannelCut(f"closed before all was sent: {now} bytes were left, with the end")
                self.transport.abort()
        self._timer = self.loop.call_later(CLOSE_TIMEOUT, look)

    def write_eof(self) -> None:
        if not self.over:
            try:
                self.channel.write_eof()
            except CallError:    # it was ended before, or this party is the responder of a one-way pattern
                return
            self._flush()

    def pause(self) -> None:
        self.paused = True
        if not self.over:
            self.transport.pause_reading()

    def resume(self) -> None:
        self.paused = False
        if not self.over:
            self.transport.resume_reading()
            self.loop.call_soon(self.pump)

    def pause_writing(self) -> None:
        self.held = True
        if self.channel.agreed is not None:
            self.above.pause_writing()

    def resume_writing(self) -> None:
        self.held = False
        if self.channel.agreed is not None:
            self.above.resume_writing()

    def connection_lost(self, exc: Exception | None) -> None:
        self._drop_joined()
        if not self.over:    # gives out what came before
            self.paused = False
            if exc is not None:
                self._receive_rest()
            self.channel.receive_eof()
            self.pump()
        self.over, self._ready = True, None
        self._stop_timer()
        if self._asking is not None:
            self._asking.cancel()
        if isinstance(self._fault, ChannelCut) and exc is not None:
            self._fault.__cause__ = exc
        self.channel.close()
        fault = self._fault or exc
        if self.channel.agreed is not None:
            self.above.connection_lost(fault)
        else:
            self._failed(fault or ChannelCut())

    def _receive_rest(self) -> None:
        """Takes what the system has received and asyncio hasn't: it doesn't look after a write that has failed. Other
        loops have closed the descriptor by then."""
        sock = self.transport.get_extra_info("socket")
        if not isinstance(sock, TransportSocket) or self.transport.get_extra_info("sslcontext") is not None:
            return
        try:
            with sock.dup() as rest:
                rest.setblocking(False)
                while data := rest.recv(1 << 16):
                    self.channel.receive_data(data)
        except OSError:
            pass    # that was all


def _fill(protocol: asyncio.BufferedProtocol, payload: Any) -> None:
    """Gives bytes to a protocol that has a buffer for them, as asyncio's transports do."""
    rest = memoryview(payload)
    while size := len(rest):
        room = memoryview(protocol.get_buffer(size))
        count = min(size, len(room))
        if not count:
            raise RuntimeError("get_buffer() returned an empty buffer")
        room[:count] = rest[:count]
        room.release()
        rest = rest[count:]
        protocol.buffer_updated(count)


async def _connect(
    above: AnyProtocol, host: str | None, port: int | str | None, config: Config, words: dict[str, Any],
    reader: Reader | None = None
) -> _Transport:
    """Connects, and runs the handshake as the initiator."""
    loop = asyncio.get_running_loop()
    ready: asyncio.Future[_Transport] = loop.create_future()

    def done(transport: _Transport) -> None:
        if not ready.done():
            ready.set_result(transport)

    def failed(fault: Exception) -> None:
        if not ready.done():
            ready.set_exception(fault)
            ready.exception()    # nobody may wait for it

    below = _Below(Channel(config, True), above, config.handshake_timeout, done, failed)
    if reader is not None:
        reader._below = below
    connect: Any = loop.create_connection    # host and port are None where `words` have a socket
    await connect(lambda: below, host, port, **words)
    try:
        return await ready
    except asyncio.CancelledError:
        below.abort()
        raise


async def create_connection(
    protocol_factory: Callable[[], _P], host: str | None, port: int | str | None, config: Config, **words: Any
) -> tuple[asyncio.Transport, _P]:
    """Connects, and runs the handshake as the initiator, as loop.create_connection does with `ssl`. A protocol, also a
    BufferedProtocol, gets `connection_made` once that is done; if it fails, this call raises. The transport's
    `get_extra_info("noise")` is what the handshake has agreed on. The other words are those of loop.create_connection.
    """
    config.check(True)
    protocol = protocol_factory()
    return await _connect(protocol, host, port, config, words), protocol


async def create_server(
    protocol_factory: Callable[[], AnyProtocol], host: str | None, port: int | str | None, config: Config, **words: Any
) -> asyncio.Server:
    """Listens, and runs the handshake as the responder with each client, as loop.create_server does with `ssl`. What
    fails is logged as by `start_server`. The other words are those of loop.create_server."""
    config.check(False)

    def factory() -> asyncio.BufferedProtocol:
        def failed(fault: Exception) -> None:
            _report("handshake", below.transport.get_extra_info("peername"), fault)

        below = _Below(Channel(config, False), protocol_factory(), config.handshake_timeout, lambda _it: None, failed)
        return below

    listen: Any = asyncio.get_running_loop().create_server
    server: asyncio.Server = await listen(factory, host, port, **words)
    return server


async def open_connection(
    host: str | None, port: int | str | None, config: Config, *, limit: int = LIMIT, **words: Any
) -> tuple[Reader, Writer]:
    """Connects, and runs the handshake as the initiator. The other words are those of loop.create_connection."""
    config.check(True)
    loop = asyncio.get_running_loop()
    reader = Reader(limit, loop)
    above = _Above(reader, loop=loop)
    transport = await _connect(above, host, port, config, words, reader)
    if transport._below.channel.one_way:
        reader.set_exception(CallError(Code.ONE_WAY))
    return reader, Writer(transport, above, reader, loop)


Handler = Callable[[Reader, Writer], Awaitable[None] | None]


async def start_server(
    handler: Handler, host: str | None, port: int | str | None, config: Config, *, limit: int = LIMIT, **words: Any
) -> asyncio.Server:
    """Listens, and runs the handshake as the responder with each client. `handler` is called once that is done. If it
    raises, the connection is aborted. The other words are those of loop.create_server.

    A handshake that fails, and a handler that ends with the loss of its channel, give a line at level INFO of the
    logger "yulimosar"; at level ERROR, with a traceback, where a function of the Config has failed.
    """
    config.check(False)
    loop = asyncio.get_running_loop()
    tasks: set[asyncio.Task[None]] = set()

    def factory() -> asyncio.BufferedProtocol:
        reader = Reader(limit, loop)
        above = _Above(reader, loop=loop)

        def ready(transport: _Transport) -> None:
            task = loop.create_task(_serve(handler, reader, Writer(transport, above, reader, loop)))
            tasks.add(task)
            task.add_done_callback(tasks.discard)

        def failed(fault: Exception) -> None:
            _report("handshake", below.transport.get_extra_info("peername"), fault)

        below = reader._below = _Below(Channel(config, False), above, config.handshake_timeout, ready, failed)
        return below

    listen: Any = loop.create_server
    server: asyncio.Server = await listen(factory, host, port, **words)
    return server


async def _serve(handler: Handler, reader: Reader, writer: Writer) -> None:
    try:
        result = handler(reader, writer)
        if result is not None:
            await result
    except Exception as error:
        is_lost = writer.is_closing()
        writer.abort()
        if isinstance(error, ConnectionError) and (is_lost or isinstance(error, NoiseError)):
            _report("channel", writer.get_extra_info("peername"), error)
            return
        words = {"message": "Unhandled exception in a handler of yulimosar.start_server", "exception": error}
        asyncio.get_running_loop().call_exception_handler(words)
    except BaseException:
        writer.abort()
        raise


def _report(what: str, peer: Any, fault: Exception) -> None:
    """A line of the log: at INFO for what the network or the other party does, at ERROR for what this program does."""
    if isinstance(fault, MessageRefused):    # any other cause is what a function of the Config has raised
        cause: Any = fault.cause
        is_ours = not isinstance(cause, (Code, PeerRefused, LowOrderKey))
    else:
        cause = fault
        is_ours = isinstance(cause, ConfigError) or not isinstance(cause, (NoiseError, OSError))
    if not is_ours:
        logger.info(f"{what} with %s: %s", peer, fault)
    else:
        logger.error(f"{what} with %s: %s", peer, fault, exc_info=cause)
