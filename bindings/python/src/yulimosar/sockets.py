"""Channels over blocking sockets, used as an ssl.SSLSocket is."""
from __future__ import annotations

import io
import operator
import selectors
import socket
import struct
import threading
import time
from types import TracebackType
from typing import IO, Any, BinaryIO, Literal, NoReturn, Self, TextIO, Type, overload

from .channel import CLOSED_HERE, Agreed, Channel, Data, End, Event, Pending
from .codes import MAX_PAYLOAD, Code
from .config import Config
from .errors import FORKED, CallError, ChannelCut, HandshakeTimeout
from .memory import Buffer, shared

CHUNK = 1 << 16
NO_WAIT = getattr(socket, "MSG_DONTWAIT", 0)
CLOSE_TIMEOUT = 30.0    # in seconds: how long `close` waits for a peer that takes nothing, or too little


def connect(sock: socket.socket, config: Config) -> NoiseSocket:
    """Runs the handshake as the initiator over a connected socket, which is the channel's from then on: it is closed if
    that fails. Each wait is limited by the socket's timeout, and all together by Config.handshake_timeout."""
    return _shaken(sock, config, True)


def accept(sock: socket.socket, config: Config) -> NoiseSocket:
    """Runs the handshake as the responder, as `connect` does as the initiator."""
    return _shaken(sock, config, False)


def _shaken(sock: socket.socket, config: Config, initiator: bool) -> NoiseSocket:
    try:
        made = NoiseSocket(sock, Channel(config, initiator))
        made._shake(config.handshake_timeout)
    except BaseException:
        sock.close()
        raise
    return made


class _Turns:
    """Calls of one direction, one at a time. A handler of a signal runs inside a call of its thread: it can close the
    channel then, and not make another such call."""

    def __init__(self) -> None:
        self.lock = threading.RLock()
        self._is_taken = False

    def try_lock(self) -> bool:
        """Takes the lock, if no call is running."""
        return not self._is_taken and self.lock.acquire(blocking=False)

    def __enter__(self) -> None:
        self.lock.acquire()
        if self._is_taken:
            self.lock.release()
            raise RuntimeError("a call of this thread on the same direction is running")
        self._is_taken = True

    def __exit__(self, *_error: object) -> None:
        self._is_taken = False
        self.lock.release()


class NoiseSocket:
    """A channel over a socket. One thread may receive while another sends.

    After a refused message or a lost connection the connection is closed, and nothing more is sent, no end either. A
    timeout leaves the channel as it is: a later call continues. In a forked process `close` only closes the descriptor.

    With `select` ask `pending` before you wait for something to read: more may have come than the descriptor says.
    After a `send` that may not wait ask `unsent`, and call `flush` once the descriptor can be written.
    """

    def __init__(self, sock: socket.socket, channel: Channel) -> None:
        self._sock = sock
        self._channel = channel
        self._receiving, self._sending = _Turns(), _Turns()
        self._closing = threading.RLock()
        self._rest = memoryview(b"")    # came, and wasn't received yet
        self._ended = False             # the other party has ended its stream
        self._pending = memoryview(b"")    # sealed, and not sent yet
        self._whole = True              # whether all was sent that had to be
        self._closed = False
        self._files = 0                 # of makefile, that read and are open
        self._lingers = False           # to be closed with the last of them
        self._resets = False            # whether to reset the connection in place of ending it
        self._lost: OSError | None = None    # what the socket has raised
        self._forked = False            # whether this is a copy in a forked process
        self._agreed: Agreed
        shared.add(self)

    def _in_child(self) -> None:
        """In a forked process: the connection is the parent's, and a thread that isn't here may hold the locks."""
        self._receiving, self._sending = _Turns(), _Turns()
        self._closing = threading.RLock()
        self._pending = self._rest = memoryview(b"")
        self._forked = True

    def __reduce__(self) -> NoReturn:
        raise TypeError("a NoiseSocket isn't copied: it has a connection and its keys")

    @property
    def noise(self) -> Agreed:
        """What the handshake has agreed on."""
        return self._agreed

    def _shake(self, limit: float | None) -> None:
        end = None if limit is None else time.monotonic() + limit
        while not isinstance(event := self._event(end, shaking=True), Agreed):
            if isinstance(event, Pending):
                if hasattr(event.awaitable, "close"):
                    event.awaitable.close()
                self._channel.fail(TypeError("a function of the Config is asynchronous, and a socket isn't"))
        self._agreed = event

    def _event(self, end: float | None = None, shaking: bool = False) -> Event | None:
        """The next event; before `end`, if that is said. After the handshake what is sealed is the sender's to take:
        another thread may be at it."""
        while True:
            try:
                event = self._channel.next_event()
            except Exception as fault:
                self._shut()
                if isinstance(fault, ChannelCut) and self._lost is not None:
                    raise fault from self._lost
                raise
            if shaking and (data := self._channel.data_to_send()):
                self._within(end, self._sock.sendall, data)
            agreed = self._channel.agreed
            if event is not None or agreed is not None and agreed.initiator and self._channel.one_way:
                return event
            self._more(end)

    def _more(self, end: float | None) -> None:
        """Receives what comes, once. Meanwhile it sends what a `send` has kept."""
        data = b""
        try:
            if self._pending:
                self._send_kept()
            data = self._within(end, self._sock.recv, CHUNK)
        except (TimeoutError, BlockingIOError):
            raise
        except OSError as error:
            self._lost = error
        self._open()
        if data:
            self._channel.receive_data(data)
        else:
            self._channel.receive_eof()

    def _send_kept(self) -> None:
        """Sends what a `send` has kept, until all is sent or something comes."""
        timeout = self._sock.gettimeout()
        end = None if timeout is None else time.monotonic() + timeout
        with selectors.DefaultSelector() as selector:
            selector.register(self._sock, selectors.EVENT_READ | selectors.EVENT_WRITE)
            while self._pending:
                ready = selector.select(0.5 if end is None else min(0.5, max(0.0, end - time.monotonic())))
                events = ready[0][1] if ready else 0
                if events & selectors.EVENT_WRITE and not self._send_piece() or events & selectors.EVENT_READ:
                    return
                self._open()
                if not events and end is not None and time.monotonic() >= end:
                    if timeout:
                        raise TimeoutError("timed out")
                    return    # the call that follows says that it would wait

    def _send_piece(self) -> bool:
        """Sends what the socket takes at once; whether that is to be tried again."""
        if not self._sending.try_lock():
            return False    # another thread sends it
        try:
            self._pending = self._pending[self._sock.send(self._pending, NO_WAIT):]
        except BlockingIOError:
            pass
        except OSError:
            self._whole = False    # `send` raises it; what came can still be received
            return False
        finally:
            self._sending.lock.release()
        return True

    def _within(self, end: float | None, call: Any, *words: Any) -> Any:
        """A call of the socket, which may not last longer than `end`."""
        if end is None:
            return call(*words)
        own, left = self._sock.gettimeout(), end - time.monotonic()
        if left <= 0:
            raise HandshakeTimeout
        if own is not None and own < left:
            return call(*words)
        self._sock.settimeout(left)
        try:
            return call(*words)
        except TimeoutError:
            raise HandshakeTimeout from None
        finally:
            self._sock.settimeout(own)

    def recv(self, bufsize: int = 1024, flags: int = 0) -> bytes:
        """Receives at most so many bytes. b"" is the end that the other party has sent; ChannelCut is none."""
        _refuse_flags(flags)
        with self._receiving:
            return bytes(self._take(bufsize))

    def recv_into(self, buffer: bytearray | memoryview, nbytes: int = 0, flags: int = 0) -> int:
        """Receives to the start of a buffer, at most `nbytes`, or as many as it has; how many bytes these are."""
        _refuse_flags(flags)
        view = memoryview(buffer).cast("B")
        if view.readonly:
            raise TypeError("recv_into() needs a buffer that can be written")
        if not 0 <= nbytes <= len(view):
            raise ValueError("nbytes is negative, or more than the buffer has")
        with self._receiving:
            got = self._take(nbytes or len(view))
            view[:len(got)] = got
            return len(got)

    @overload
    def read(self, len: int = 1024, buffer: None = None) -> bytes: ...

    @overload
    def read(self, len: int, buffer: bytearray | memoryview) -> int: ...

    @overload
    def read(self, len: int = 1024, *, buffer: bytearray | memoryview) -> int: ...

    def read(self, len: int = 1024, buffer: bytearray | memoryview | None = None) -> bytes | int:
        """`recv`, or with a buffer `recv_into`, by an ssl.SSLSocket's name."""
        return self.recv(len) if buffer is None else self.recv_into(buffer, len)

    def _take(self, size: int) -> memoryview:
        if operator.index(size) < 0:    # a float is refused before it waits
            raise ValueError("a negative size")
        self._open()
        while size and not self._rest and not self._ended:
            event = self._event()
            if event is None:
                raise CallError(Code.ONE_WAY)
            self._ended = isinstance(event, End)
            if isinstance(event, Data):
                self._rest = memoryview(event.payload)
        got, self._rest = self._rest[:size], self._rest[size:]
        return got

    def _open(self) -> None:
        if self._forked:
            raise CallError(None, FORKED)
        if self._closed:
            raise CallError(None, CLOSED_HERE)

    def send(self, data: Buffer, flags: int = 0) -> int:
        """Sends the first bytes, at most 65519: how many. What the socket doesn't take of their message in time is
        kept: `unsent` counts it, and `flush`, or the next call, sends it before anything else. A call that can't do so
        raises, and takes nothing."""
        _refuse_flags(flags)
        view = memoryview(data).cast("B")[:MAX_PAYLOAD]
        with self._sending:
            self._send(view)
        return len(view)

    def write(self, data: Buffer) -> int:
        """`send`, by an ssl.SSLSocket's name."""
        return self.send(data)

    def flush(self) -> None:
        """Sends what a `send` has kept, as far as the socket's timeout allows; else it raises."""
        with self._sending:
            self._open()
            self._flush()

    def unsent(self) -> int:
        """How many bytes a `send` has kept, since the socket didn't take them in time."""
        return len(self._pending)

    def _send(self, view: memoryview) -> None:
        self._open()
        self._flush()
        self._open()
        self._channel.write(view)
        self._pending = memoryview(self._channel.data_to_send())
        try:
            self._flush()
        except (TimeoutError, BlockingIOError):
            pass    # taken, and sent by the next call

    def sendall(self, data: Buffer, flags: int = 0) -> None:
        """Sends all bytes. If it raises, nobody knows how many were sent, and `close` sends no end."""
        _refuse_flags(flags)
        view = memoryview(data).cast("B")
        with self._sending:
            self._whole = False
            for start in range(0, len(view), MAX_PAYLOAD):
                self._send(view[start:start + MAX_PAYLOAD])
            self._flush()
            self._whole = True

    def _flush(self, end: float | None = None) -> None:
        """Sends what is sealed, and isn't sent yet; before `end`, if that is said."""
        while self._pending:
            if self._channel.fault is not None:
                raise self._channel.fault
            try:
                count = self._within(end, self._sock.send, self._pending)
            except (TimeoutError, BlockingIOError):
                raise
            except OSError:
                self._whole = False
                raise
            self._pending = self._pending[count:]

    def shutdown(self, how: int) -> None:
        """With SHUT_WR, sends the end of the stream: what the other party sends can still be received."""
        if how != socket.SHUT_WR:
            raise ValueError("only SHUT_WR, which sends the end of the stream; close() closes")
        with self._sending:
            self._open()
            self._flush()
            self._open()
            self._end()

    def _end(self, end: float | None = None) -> None:
        try:
            self._channel.write_eof()
        except CallError as error:
            if error.code != Code.CLOSED:    # else it was ended before
                raise
        self._pending = memoryview(self._channel.data_to_send())
        self._flush(end)

    def close(self) -> None:
        """Sends the end of the stream, unless something went wrong, closes the connection, and overwrites the keys; as
        a socket's, once all files of `makefile` that read are closed. To leave a `with` doesn't wait for them.
        ChannelCut: what a `send` had kept, or the end, couldn't be sent; it is closed all the same."""
        with self._closing:
            self._lingers = self._files > 0
        if not self._lingers:
            self._finish()

    def _file_closed(self) -> None:
        """A file that reads was closed."""
        with self._closing:
            self._files -= 1
            is_due = self._lingers and not self._files
        if is_due:
            self._finish()

    def _finish(self) -> None:
        if self._forked:
            self._sock.close()
            return
        left = 0
        with self._closing:
            if self._closed:
                return
            self._closed = True
            if self._sending.try_lock():    # else a send is running, which the end can't follow
                try:
                    left = self._say_end()
                finally:
                    self._sending.lock.release()
            self._close()
        if left:
            raise ChannelCut(f"closed before all was sent: {left} bytes were left, with the end of the stream")

    def _say_end(self) -> int:
        """Sends what was kept, and the end; how many bytes couldn't be sent, of which nobody was told."""
        if not self._whole or self._channel.fault is not None:
            return 0
        end, kept = time.monotonic() + CLOSE_TIMEOUT, bool(self._pending)
        try:
            self._flush(end)
            kept = False
            self._end(end)
        except HandshakeTimeout:    # the peer takes nothing
            return len(self._pending)
        except (OSError, CallError):
            return len(self._pending) if kept else 0    # the other party gets ChannelCut
        return 0

    def abort(self) -> None:
        """Closes the connection without the end of the stream: the other party gets ChannelCut."""
        if self._forked:
            self._sock.close()
            return
        self._closed = True
        self._shut()    # a `close` that waits ends, too
        with self._closing:
            self._close()

    def _shut(self) -> None:
        """Ends the connection, also under a call that waits."""
        try:
            if self._resets:    # no FIN before it: the other party gets an error, also if it has read all
                self._sock.setsockopt(socket.SOL_SOCKET, socket.SO_LINGER, struct.pack("ii", 1, 0))
                self._sock.close()
            else:
                self._sock.shutdown(socket.SHUT_RDWR)
        except OSError:
            pass    # it has ended

    def _close(self) -> None:
        self._shut()
        with self._receiving.lock, self._sending.lock:
            self._channel.close()
            self._sock.close()

    def pending(self) -> int:
        """How many bytes can be received without a wait; 1 where `recv` would return the end, or raise. 0 if nothing
        has come, or only a part of a message, or while another thread receives."""
        if not self._receiving.try_lock():
            return len(self._rest)
        try:
            parts = [self._rest]
            is_due = self._read_ahead(parts)
            if len(parts) > 1:
                self._rest = memoryview(b"".join(parts))
            return len(self._rest) or int(is_due)
        finally:
            self._receiving.lock.release()

    def _read_ahead(self, parts: list[memoryview]) -> bool:
        """Opens what has come; whether the end, or a fault that `recv` raises, follows it."""
        while not (self._ended or self._closed or self._forked):
            try:
                event = self._channel.next_event()
            except Exception:
                return True
            if event is None:
                return False
            self._ended = isinstance(event, End)
            if isinstance(event, Data):
                parts.append(memoryview(event.payload))
        return self._ended and not self._closed

    def settimeout(self, value: float | None) -> None:
        """Sets the timeout of the socket."""
        self._sock.settimeout(value)

    def gettimeout(self) -> float | None:
        """The timeout of the socket."""
        return self._sock.gettimeout()

    timeout = property(gettimeout)

    def setblocking(self, flag: bool) -> None:
        """Sets whether calls wait."""
        self._sock.setblocking(flag)

    def getblocking(self) -> bool:
        """Whether calls wait."""
        return self._sock.getblocking()

    def setsockopt(self, *words: Any) -> None:
        """Sets an option of the socket."""
        self._sock.setsockopt(*words)

    def getsockopt(self, *words: int) -> int | bytes:
        """An option of the socket."""
        return self._sock.getsockopt(*words)

    @property
    def family(self) -> int:
        """That of the socket."""
        return self._sock.family

    @property
    def type(self) -> int:
        """That of the socket."""
        return self._sock.type

    @property
    def proto(self) -> int:
        """That of the socket."""
        return self._sock.proto

    @property
    def server_side(self) -> bool:
        """Whether this party is the responder."""
        return not self._agreed.initiator

    def version(self) -> str:
        """The protocol name, as Noise_XX_25519_ChaChaPoly_SHA256."""
        return self._agreed.protocol

    def fileno(self) -> int:
        """That of the socket. More may have come than it says: see `pending`."""
        return self._sock.fileno()

    def detach(self) -> int:
        """Overwrites the keys, and gives the descriptor away: the connection stays open, and no end is sent."""
        self._closed = True
        with self._receiving.lock, self._sending.lock:
            self._channel.close()
            return self._sock.detach()

    def getpeername(self) -> Any:
        """That of the socket."""
        return self._sock.getpeername()

    def getsockname(self) -> Any:
        """That of the socket."""
        return self._sock.getsockname()

    def sendfile(self, file: IO[bytes], offset: int = 0, count: int | None = None) -> int:
        """Sends what a binary file has from here on, or `count` bytes of it: how many."""
        if offset:
            file.seek(offset)
        sent = 0
        while count is None or sent < count:
            data = file.read(MAX_PAYLOAD if count is None else min(MAX_PAYLOAD, count - sent))
            if not data:
                break
            self.sendall(data)
            sent += len(data)
        return sent

    @overload
    def makefile(self, mode: Literal["rb", "wb", "rwb"], buffering: int = -1) -> BinaryIO: ...

    @overload
    def makefile(self, mode: Literal["r", "w", "rw"] = "r", buffering: int = -1, *, encoding: str | None = None,
                 errors: str | None = None, newline: str | None = None) -> TextIO: ...

    def makefile(self, mode: str = "r", buffering: int = -1, *, encoding: str | None = None,
                 errors: str | None = None, newline: str | None = None) -> Any:
        """A file over the channel, of bytes where `mode` has a b, else of text. To close it doesn't close the channel.
        To flush one before the channel is closed is the caller's. One that reads holds up `close`, as a socket's."""
        if mode not in ("rb", "wb", "rwb", "r", "w", "rw"):
            raise ValueError("mode is r, w or rw, with or without a b after it")
        raw = _Raw(self, "r" in mode, "w" in mode)
        if buffering == 0:
            if "b" not in mode:
                raise ValueError("a file of text has a buffer")
            return raw
        size = io.DEFAULT_BUFFER_SIZE if buffering <= 1 else buffering
        kinds: dict[str, Any] = {"r": io.BufferedReader, "w": io.BufferedWriter, "rw": io.BufferedRWPair}
        kind = mode.removesuffix("b")
        made = kinds[kind](raw, raw, size) if kind == "rw" else kinds[kind](raw, size)
        if "b" in mode:
            return made
        return io.TextIOWrapper(made, encoding, errors, newline, line_buffering=buffering == 1)

    def __enter__(self) -> Self:
        return self

    def __exit__(
        self, kind: Type[BaseException] | None, error: BaseException | None, trace: TracebackType | None
    ) -> None:
        if kind is None:
            self._finish()
        else:
            self.abort()


class _Raw(io.RawIOBase):
    """What `makefile` reads from and writes to."""

    def __init__(self, sock: NoiseSocket, reads: bool, writes: bool) -> None:
        self._sock, self._reads, self._writes = sock, reads, writes
        with sock._closing:
            sock._files += reads

    def close(self) -> None:
        if not self.closed:
            super().close()
            if self._reads:
                self._sock._file_closed()

    def readable(self) -> bool:
        return self._reads

    def writable(self) -> bool:
        return self._writes

    def readinto(self, buffer: Any) -> int | None:
        try:
            return self._sock.recv_into(buffer)
        except BlockingIOError:
            return None

    def write(self, data: Any) -> int | None:
        try:
            return self._sock.send(data)
        except BlockingIOError:
            return None


def _refuse_flags(flags: int) -> None:
    if flags:
        raise ValueError("a channel has no flags: flags is 0")
