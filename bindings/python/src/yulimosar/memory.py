"""The library's structs, and the bytes that calls get."""
from __future__ import annotations

import os
import threading
import weakref
from types import TracebackType
from typing import Any, NoReturn, Protocol, Self, TypeAlias

from ._noise import ffi, lib
from .errors import CLOSED, FORKED, CallError

Buffer: TypeAlias = bytes | bytearray | memoryview

SMALL = 2048    # how many bytes of a buffer stay from call to call

_size_of = ffi.sizeof
_CHARS = ffi.typeof("char[]")
uncleared = _new = ffi.new_allocator(should_clear_after_alloc=False)    # what isn't written isn't read
_wipe = lib.noise_wipe
_wipe_stack = lib.wipe_stack
_all: weakref.WeakSet[Struct] = weakref.WeakSet()


def pointer(data: Buffer) -> tuple[Any, int]:
    """What a call of the library takes for bytes, without a copy, and how many they are."""
    if type(data) is bytes:
        return data, len(data)
    refuse_text(data)
    there = ffi.from_buffer(data)
    return there, len(there)


def let_go(*places: Any) -> None:
    """Gives back what `pointer` returned, before any exception leaves its frame: a memoryview that a frame of the
    traceback still uses crashes CPython, if its collector frees both."""
    for place in places:
        if isinstance(place, ffi.CData):
            ffi.release(place)


def refuse_text(data: Buffer) -> None:
    """Raises a TypeError that says what is wrong with a str."""
    if isinstance(data, str):
        raise TypeError("a bytes-like object is wanted, not a str: encode it first")


def copied(data: Buffer, more: int = 0) -> tuple[Any, int]:
    """A copy in which a call of the library works in place, with room for `more` after it, and its length without."""
    there, size = pointer(data)
    try:
        copy = _new(_CHARS, size + more)
        ffi.memmove(copy, there, size)
    finally:
        let_go(there)
    return copy, size


class Struct:
    """Structs of the library with one owner. They are overwritten by `close`, at the end of a `with`, when Python frees
    them, and in a process that is forked: a key must not seal two messages with one nonce. Threads may share one."""

    __slots__ = ("_lock", "_at", "_spare", "_why", "__weakref__")

    def __init__(self, *types: str) -> None:
        self._lock = threading.RLock()
        self._at: tuple[Any, ...] | None = tuple(ffi.new(f"{name} *") for name in types)
        self._spare: Any = None     # a buffer of SMALL bytes
        self._why = CLOSED          # why it has no keys, once it has none
        _all.add(self)

    def _room(self, size: int) -> Any:
        """A buffer of at least so many bytes."""
        if size > SMALL:
            return _new(_CHARS, size)
        if self._spare is None:
            self._spare = _new(_CHARS, SMALL)
        return self._spare

    def close(self) -> None:
        """Overwrites the keys. Later calls raise CallError."""
        with self._lock:
            self._overwrite()

    def _overwrite(self) -> None:
        at, self._at = self._at, None
        if at is None:
            return
        for struct in at:
            _wipe(struct, _size_of(struct[0]))
        if self._spare is not None:
            _wipe(self._spare, SMALL)
            self._spare = None
        _wipe_stack()

    @property
    def closed(self) -> bool:
        """Whether it was closed, or used up."""
        return self._at is None

    def _gone(self) -> CallError:
        """What a call raises that needs the keys, where there are none."""
        return CallError(None, self._why)

    def __enter__(self) -> Self:
        if self._at is None:
            raise self._gone()
        return self

    def __exit__(
        self, kind: type[BaseException] | None, error: BaseException | None, trace: TracebackType | None
    ) -> None:
        self.close()

    def __del__(self) -> None:
        if getattr(self, "_at", None) is not None:
            self._overwrite()

    def __reduce__(self) -> NoReturn:
        raise TypeError(f"a {type(self).__name__} isn't copied: two would seal with one key and nonce")


class Shared(Protocol):
    """What a forked process has a copy of."""

    def _in_child(self) -> None:
        """Gives up, in a process that was forked, what is the parent's."""


shared: weakref.WeakSet[Shared] = weakref.WeakSet()    # channels: their locks, and what they have sealed


def _close_in_child() -> None:
    """Closes everything in a process that was forked: the keys are the parent's."""
    for struct in list(_all):
        struct._lock = threading.RLock()    # a thread that isn't in this process may hold it
        if struct._at is not None:
            struct._why = FORKED
        struct._overwrite()
    for it in list(shared):
        it._in_child()


if hasattr(os, "register_at_fork"):
    os.register_at_fork(after_in_child=_close_in_child)
