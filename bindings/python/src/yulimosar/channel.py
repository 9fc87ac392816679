"""A channel without input and output: bytes in, events out. The library says where frames begin and end, and whether
the stream has ended, was cut or is broken."""
from __future__ import annotations

import threading
from collections.abc import Awaitable, Callable, Generator
from dataclasses import dataclass, field
from typing import Any, NoReturn, TypeAlias, TypeVar

from ._noise import ffi, lib
from .codes import MAX_PAYLOAD, STREAM_OVERHEAD, Code
from .config import Config
from .errors import FORKED, CallError, ChannelCut, MessageRefused
from .handshake import Handshake, Steps
from .memory import Buffer, Struct, let_go, pointer, refuse_text, shared, uncleared
from .pattern import layout

T = TypeVar("T")
CLOSED_HERE = "this party has closed the channel"
ROOM = 1 << 17    # how many bytes an event loop may receive at once, with what is left of a frame

_stream_write_all = lib.stream_write_all
_stream_read = lib.noise_stream_read
_stream_read_all = lib.stream_read_all
_CHARS = ffi.typeof("char[]")
Payload = ffi.buffer      # where a payload is


@dataclass(frozen=True, slots=True)
class Agreed:
    """What a handshake has agreed on. It is the event that says that the handshake is done."""

    protocol: str               # the protocol name, as Noise_XX_25519_ChaChaPoly_SHA256
    initiator: bool             # whether this party wrote the first message
    hash: bytes                 # the same at both parties: to bind other data to the channel (Noise, 11.2)
    peer_key: bytes | None      # the other party's static key; None if it has none
    payloads: tuple[bytes | None, ...] = field(repr=False)    # those of the messages that came, by message; else None


@dataclass(frozen=True, slots=True)
class Data:
    """What the other party has written next."""

    payload: bytes


@dataclass(frozen=True, slots=True)
class End:
    """The other party has ended its stream, and all of it came."""


@dataclass(frozen=True, slots=True)
class Pending:
    """A function of the Config has returned an awaitable: await it, and call `answer` or `fail`."""

    awaitable: Awaitable[Any]


Event: TypeAlias = Agreed | Data | End | Pending
_Events: TypeAlias = Generator[Event | None, Any, T]


class Channel:
    """One end of a channel. `receive_data` and `receive_eof` get what the connection has received, `next_event` says
    what it means, and `data_to_send` returns what is to be sent.

    `next_event` raises MessageRefused or ChannelCut where the channel ends so; then nothing more is given out, and
    there is nothing more to send. One thread may receive while another writes.
    """

    def __init__(self, config: Config, initiator: bool) -> None:
        config.check(initiator)
        self._config = config
        self._initiator = initiator
        self._handshake: Handshake | None = None
        self._sender: Struct | None = None
        self._receiver: Struct | None = None
        self._agreed: Agreed | None = None
        self._fault: Exception | None = None
        self._answer: Any = None
        self._failure: BaseException | None = None
        self._in, self._out = threading.RLock(), threading.RLock()
        self._came = _Came()
        self._eof = self._reads = self._reads_no_more = False
        self._stop = 0    # what a frame after the last payloads has given
        self._read_result = ffi.new("noise_stream_result *")
        self._write_result = ffi.new("noise_stream_result *")
        self._to_send: list[bytes] = []
        self._events: _Events[None] = self._run()
        shared.add(self)

    def _in_child(self) -> None:
        """In a forked process nothing is given out or sent; a thread that isn't in it may hold the locks."""
        self._in, self._out = threading.RLock(), threading.RLock()
        self._to_send.clear()
        self._fault = CallError(None, FORKED)

    def __reduce__(self) -> NoReturn:
        raise TypeError("a Channel isn't copied: two would seal with one key and nonce")

    @property
    def agreed(self) -> Agreed | None:
        """What the handshake has agreed on; None until it is done."""
        return self._agreed

    @property
    def one_way(self) -> bool:
        """Whether only the initiator may write."""
        return layout(self._config.pattern).one_way

    @property
    def fault(self) -> Exception | None:
        """Why the channel is broken: what `next_event` has raised; None if it isn't."""
        return self._fault

    def receive_data(self, data: Buffer) -> None:
        """Gives the channel bytes that were received. After the end of the other's stream they are dropped."""
        refuse_text(data)
        with self._in:
            if self._fault is None and not self._reads_no_more:
                self._came.add(data)

    def _get_buffer(self) -> memoryview:
        """Where an event loop may write what comes, in the place of `receive_data`: then it calls `_buffer_updated`.
        The thread of the loop makes all calls of such a channel."""
        return self._came.space()

    def _buffer_updated(self, count: int) -> None:
        if self._fault is None and not self._reads_no_more:
            self._came.took(count)
        else:
            self._came.drop()

    def _settle(self) -> None:
        """Gives back the memory for what comes, but for what is left of a frame."""
        self._came.settle()

    def receive_eof(self) -> None:
        """Tells the channel that the connection has ended, or was lost: nothing more comes."""
        with self._in:
            self._eof = True

    def next_event(self) -> Event | None:
        """What happened next; None until more comes. After it there may be something to send."""
        event = self._next(self._read)
        return Data(bytes(event)) if type(event) is Payload else event    # type: ignore[return-value]

    def _next_of_all(self) -> Event | Buffer | None:
        """What happened next. In the place of Data it has all payloads that came, where they are until more comes."""
        return self._next(self._read_all)

    def _next(self, read: Callable[[], End | Buffer | None]) -> Event | Buffer | None:
        with self._in:
            if self._fault is not None:
                raise self._fault.with_traceback(None)
            try:
                if self._reads and self._failure is None:
                    return read()
                answer, failure, self._answer, self._failure = self._answer, self._failure, None, None
                return self._events.throw(failure) if failure is not None else self._events.send(answer)
            except StopIteration:
                return None
            except BaseException as fault:
                self._break(fault if isinstance(fault, Exception) else CallError(None, CLOSED_HERE))
                raise

    def answer(self, result: Any) -> None:
        """What the awaitable of Pending has given."""
        self._answer = result

    def fail(self, error: BaseException) -> None:
        """What the awaitable of Pending has raised: `next_event` ends the handshake with it."""
        self._failure = error

    def write(self, payload: Buffer) -> None:
        """Writes to the stream, once the handshake is done: `data_to_send` has the frames."""
        data, size = pointer(payload)
        try:
            length = frames_length(size)
            frames = uncleared(_CHARS, length)
            with self._out:
                self._seal(data, size, frames, length)
                if length:
                    self._to_send.append(ffi.unpack(frames, length))
        except BaseException:
            let_go(data)
            raise

    def _seal(self, data: Any, size: int, room: Any, length: int) -> None:
        """Writes the frames of a payload, which go after what `data_to_send` has returned. One thread calls it."""
        at = None if self._sender is None or self._fault is not None else self._sender._at
        sender = at[0] if at is not None else self._sends()
        if code := _stream_write_all(sender, data, size, room, length, self._write_result):
            raise CallError(Code(code))

    def write_eof(self) -> None:
        """Writes the end of the stream: call it after the last `write`, and only if nothing went wrong."""
        with self._out:
            sender = self._sends()
            result, room = ffi.new("noise_stream_result *"), ffi.new("char[]", STREAM_OVERHEAD)
            if code := lib.noise_stream_end(sender, room, STREAM_OVERHEAD, result):
                raise CallError(Code(code))
            self._to_send.append(ffi.unpack(room, result.len))

    def _sends(self) -> Any:
        """The struct that sends, if anything may be sent."""
        if self._fault is None and self._sender is not None and self._sender._at is not None:
            return self._sender._at[0]
        if self._fault is not None:
            raise self._fault.with_traceback(None)
        if self._sender is None:
            raise CallError(Code.NOT_DONE)
        raise self._sender._gone()

    def data_to_send(self) -> bytes:
        """The bytes to send next over the connection; none after a fault."""
        if not self._to_send:
            return b""
        with self._out:
            data = self._to_send[0] if len(self._to_send) == 1 else b"".join(self._to_send)
            self._to_send.clear()
            return data

    def close(self) -> None:
        """Overwrites the keys. What `data_to_send` hasn't returned yet can still be sent."""
        with self._in, self._out:
            if self._fault is None:
                self._fault = CallError(None, CLOSED_HERE)
            if not self._events.gi_running:    # else a function of the Config calls this
                self._events.close()
            self._came.drop()
            for struct in (self._handshake, self._sender, self._receiver):
                if struct is not None:
                    struct.close()

    def _break(self, fault: Exception) -> None:
        with self._out:
            self._fault = fault
            self._to_send.clear()
            self.close()

    def _run(self) -> _Events[None]:
        """All events of a channel, one after another; None is a wait for more."""
        payloads: list[bytes | None] = []
        while not self._initiator and not self._came and not self._eof:    # nothing is drawn for who says nothing
            yield None
        with Handshake(self._config, self._initiator, late_psks=False) as handshake:
            self._handshake = handshake
            while not handshake.done:
                if handshake.writes_next:
                    yield from self._write_message(handshake)
                    payloads.append(None)
                else:
                    payloads.append((yield from self._read_message(handshake)))
            self._sender, self._receiver = handshake.stream()
            self._agreed = Agreed(handshake.protocol, self._initiator, handshake.hash, handshake.peer_key,
                                  tuple(payloads))
        self._handshake = None
        self._reads_no_more = self._initiator and self.one_way
        self._reads = True
        yield self._agreed

    def _pend(self, steps: Steps[T]) -> _Events[T]:
        """Runs steps of the handshake; each awaitable is an event."""
        try:
            awaitable = next(steps)
            while True:
                try:
                    result = yield Pending(awaitable)
                except GeneratorExit:
                    raise
                except BaseException as error:
                    awaitable = steps.throw(error)
                else:
                    awaitable = steps.send(result)
        except StopIteration as end:
            return end.value    # type: ignore[no-any-return]
        finally:
            steps.close()

    def _write_message(self, handshake: Handshake) -> _Events[None]:
        index, payloads = handshake.message, self._config.payloads
        payload = payloads[index] if index < len(payloads) else b""
        message = yield from self._pend(handshake.writing(payload))
        frame = bytearray(2) + message
        result = ffi.new("noise_stream_result *")
        with ffi.from_buffer(frame) as room:
            if code := lib.noise_frame_message(room, len(room), len(message), result):
                raise CallError(Code(code))
        with self._out:
            self._to_send.append(bytes(frame[:result.len]))

    def _read_message(self, handshake: Handshake) -> _Events[bytes]:
        """Waits for the frame of a message, and reads it."""
        result = ffi.new("noise_stream_result *")
        index = handshake.message
        most = handshake.longest_read(index)
        while True:
            place, left = self._came.left()
            code = lib.noise_frame_find(place, left, result)
            size = result.len if code == Code.OK else left + result.wanted - 2
            if size > most and (code == Code.OK or left >= 2):
                raise MessageRefused(index + 1, None, Code.TOO_LONG)
            if code == Code.OK:
                break
            if self._eof:
                raise ChannelCut
            yield None
        message = ffi.unpack(place + getattr(result, "from"), result.len)
        self._came.use(result.used)
        return (yield from self._pend(handshake.reading(message)))

    def _read(self) -> End | Buffer | None:
        """The next payload of the other party's stream, or its end; None until more comes."""
        if self._reads_no_more:
            return None
        came, result = self._came, self._read_result
        code = _stream_read(self._receives(), came.place + came.start, came.end - came.start, result)
        if code:
            return self._stopped(code)
        place = came.place + came.start + getattr(result, "from")
        came.start += result.used
        return Payload(place, result.len)    # type: ignore[no-any-return]

    def _read_all(self) -> End | Buffer | None:
        """The payloads of all frames that came, or the end; None until more comes. A frame after them that is refused,
        and the end, are told by the next call."""
        if self._reads_no_more:
            return None
        code, self._stop = self._stop, 0
        if not code:
            came, result = self._came, self._read_result
            place = came.place + came.start
            code = _stream_read_all(self._receives(), place, came.end - came.start, result)
            came.start += result.used
            if result.len:
                if code != Code.MORE:
                    self._stop = code
                return Payload(place + getattr(result, "from"), result.len)    # type: ignore[no-any-return]
        return self._stopped(code)

    def _receives(self) -> Any:
        """The struct that receives."""
        at = self._receiver._at    # type: ignore[union-attr]
        if at is None:
            raise CallError(None, CLOSED_HERE)
        return at[0]

    def _stopped(self, code: int) -> End | None:
        """What it means that there is no further payload."""
        if code == Code.END:
            self._reads_no_more = True
            self._came.drop()
            return End()
        if code != Code.MORE:
            raise MessageRefused(None, None, Code(code))
        if self._eof and lib.noise_stream_is_cut(self._receives(), self._came.end - self._came.start):
            raise ChannelCut
        return None


def frames_length(size: int) -> int:
    """How many bytes the frames of so many bytes have."""
    return size + -(-size // MAX_PAYLOAD) * STREAM_OVERHEAD


class _Room:
    """Memory for what comes, in which the library opens frames."""

    __slots__ = ("view", "place", "size")

    def __init__(self, size: int) -> None:
        memory = bytearray(size)
        self.view = memoryview(memory)
        self.place: Any = ffi.from_buffer(memory)    # a view that is used crashes CPython, if its collector frees both
        self.size = size


_EMPTY = _Room(0)
_spare: list[_Room] = []    # rooms of the size ROOM that no channel uses


class _Came:
    """What came and isn't used yet."""

    __slots__ = ("_room", "place", "start", "end")

    def __init__(self) -> None:
        self._room, self.place = _EMPTY, _EMPTY.place
        self.start = self.end = 0

    def __bool__(self) -> bool:
        return self.end > self.start

    def add(self, data: Buffer) -> None:
        with memoryview(data) as view, view.cast("B") if view.format != "B" or view.ndim != 1 else view as more:
            count = len(more)
            if self.end + count > self._room.size:
                left = self.end - self.start
                self._move(_Room(left + max(left, count)))
            self._room.view[self.end:self.end + count] = more
        self.end += count

    def space(self) -> memoryview:
        """Where more can be written, of which `took` says how much was."""
        if self._room.size < ROOM or self._room.size - self.end < ROOM // 4:
            left = self.end - self.start
            if left > ROOM // 2:
                self._move(_Room(left + ROOM // 2))
            else:
                try:
                    self._move(_spare.pop())
                except IndexError:
                    self._move(_Room(ROOM))
        return self._room.view[self.end:]

    def took(self, count: int) -> None:
        self.end += count

    def left(self) -> tuple[Any, int]:
        """Where the bytes begin, until more comes, and how many there are."""
        return self._room.place + self.start, self.end - self.start

    def use(self, count: int) -> None:
        """The first bytes aren't needed any more."""
        self.start += count

    def settle(self) -> None:
        """Leaves a room for what is left alone, which is less than a frame."""
        left = self.end - self.start
        if self._room.size >= ROOM or not left:
            self._move(_Room(left) if left else _EMPTY)

    def drop(self) -> None:
        """Nothing of it is needed any more."""
        self.start = self.end
        self._move(_EMPTY)

    def _move(self, room: _Room) -> None:
        """Moves what is left into another room."""
        left, old = self.end - self.start, self._room
        room.view[:left] = old.view[self.start:self.end]
        self._room, self.place, self.start, self.end = room, room.place, 0, left
        if old.size == ROOM and len(_spare) < 4:
            _spare.append(old)
