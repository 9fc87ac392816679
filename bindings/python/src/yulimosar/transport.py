"""What comes after a handshake, message by message: Sender and Receiver, Datagrams, CipherState."""
from __future__ import annotations

from typing import Any

from ._noise import ffi, lib
from .codes import DATAGRAM_OVERHEAD, TAG_LEN, Code
from .errors import CallError, MessageRefused
from .memory import SMALL, Buffer, Struct, copied, let_go, pointer

_REFUSALS = {Code.SHORT, Code.TAG, Code.TOO_LONG, Code.LENGTH, Code.RESERVED, Code.OLD, Code.REPEATED}

_unpack = ffi.unpack
_from_buffer = ffi.from_buffer
_CHARS = ffi.typeof("char[]")
_seal = lib.noise_seal
_seal_in_place = lib.noise_seal_in_place
_open = lib.noise_open
_open_copy = lib.open_copy
_datagram_seal = lib.noise_datagram_seal
_datagram_open_copy = lib.datagram_open_copy
_encrypt = lib.noise_cipher_encrypt
_decrypt = lib.noise_cipher_decrypt


def _unopened(code: int) -> Exception:
    if code in _REFUSALS:
        return MessageRefused(None, None, Code(code))
    return CallError(Code(code))


class Sender(Struct):
    """Seals messages, which have to arrive in their order."""

    __slots__ = ("_result",)

    def __init__(self) -> None:
        super().__init__("noise_sender")
        self._result = ffi.new("noise_result *")

    def seal(self, payload: Buffer) -> bytes:
        """The next message: 16 bytes longer than the payload, which has at most 65519."""
        data, size = (payload, len(payload)) if type(payload) is bytes else pointer(payload)
        length = size + TAG_LEN
        try:
            with self._lock:
                at = self._at
                if at is None:
                    raise self._gone()
                room = self._spare if self._spare and length <= SMALL else self._room(length)
                if code := _seal(at[0], data, size, room, length, self._result):
                    raise CallError(Code(code))
                return _unpack(room, length)    # type: ignore[no-any-return]
        except BaseException:
            let_go(data)
            raise

    def seal_in_place(self, buffer: bytearray | memoryview, size: int) -> int:
        """Seals the first `size` bytes of a buffer where they are, without a copy. The message is 16 bytes longer."""
        if size < 0:
            raise ValueError("a negative size")
        room = _from_buffer(_CHARS, buffer, True)
        try:
            with self._lock:
                at = self._at
                if at is None:
                    raise self._gone()
                if code := _seal_in_place(at[0], room, len(room), size, self._result):
                    raise CallError(Code(code))
                return size + TAG_LEN
        except BaseException:
            let_go(room)
            raise

    @property
    def nonce(self) -> int:
        """How many messages were encrypted."""
        return _nonce(self, lib.noise_sender_nonce)


class Receiver(Struct):
    """Opens messages, in the order in which they were sealed."""

    __slots__ = ("_result",)

    def __init__(self) -> None:
        super().__init__("noise_receiver")
        self._result = ffi.new("noise_result *")

    def open(self, message: Buffer) -> bytes:
        """The payload of the next message. MessageRefused changes nothing; over a stream close at the first."""
        data, size = (message, len(message)) if type(message) is bytes else pointer(message)
        try:
            with self._lock:
                at = self._at
                if at is None:
                    raise self._gone()
                room = self._spare if self._spare and size <= SMALL else self._room(size)
                if code := _open_copy(at[0], data, size, room, self._result):
                    raise _unopened(code)
                return _unpack(room, size - TAG_LEN)    # type: ignore[no-any-return]
        except BaseException:
            let_go(data)
            raise

    def open_in_place(self, message: bytearray | memoryview) -> memoryview:
        """Opens a message where it is, without a copy: the payload is a view of it."""
        room = _from_buffer(_CHARS, message, True)
        size = len(room)
        try:
            with self._lock:
                at = self._at
                if at is None:
                    raise self._gone()
                if code := _open(at[0], room, size, self._result):
                    raise _unopened(code)
                view = memoryview(message)
                return (view if view.format == "B" else view.cast("B"))[:size - TAG_LEN]
        except BaseException:
            let_go(room)
            raise

    @property
    def nonce(self) -> int:
        """How many messages were decrypted."""
        return _nonce(self, lib.noise_receiver_nonce)


def _nonce(struct: Struct, call: Any) -> int:
    number = ffi.new("uint64_t *")
    with struct._lock:
        if struct._at is None:
            raise struct._gone()
        if code := call(struct._at[0], number):
            raise CallError(Code(code))
    return number[0]    # type: ignore[no-any-return]


class Datagrams(Struct):
    """Seals and opens datagrams, which may be lost, repeated and reordered."""

    __slots__ = ("_result",)

    def __init__(self) -> None:
        super().__init__("noise_datagram_sender", "noise_datagram_receiver")
        self._result = ffi.new("noise_result *")

    def seal(self, payload: Buffer) -> bytes:
        """A datagram: 24 bytes longer than the payload, which has at most 65519."""
        data, size = (payload, len(payload)) if type(payload) is bytes else pointer(payload)
        length = size + DATAGRAM_OVERHEAD
        try:
            with self._lock:
                at = self._at
                if at is None:
                    raise self._gone()
                room = self._spare if self._spare and length <= SMALL else self._room(length)
                if code := _datagram_seal(at[0], data, size, room, length, self._result):
                    raise CallError(Code(code))
                return _unpack(room, length)    # type: ignore[no-any-return]
        except BaseException:
            let_go(data)
            raise

    def open(self, datagram: Buffer) -> bytes:
        """The payload of a datagram. MessageRefused changes nothing: drop the datagram, and wait for the next."""
        data, size = (datagram, len(datagram)) if type(datagram) is bytes else pointer(datagram)
        try:
            with self._lock:
                at = self._at
                if at is None:
                    raise self._gone()
                room = self._spare if self._spare and size <= SMALL else self._room(size)
                if code := _datagram_open_copy(at[1], data, size, room, self._result):
                    raise _unopened(code)
                return _unpack(room + 8, size - DATAGRAM_OVERHEAD)    # type: ignore[no-any-return]
        except BaseException:
            let_go(data)
            raise

    @property
    def nonce(self) -> int:
        """How many datagrams were encrypted."""
        return _nonce(self, lib.noise_datagram_sender_nonce)


class CipherState(Struct):
    """A cipher state of the standard (Noise, 5.1), for packets of your own. Never encrypt twice at one nonce."""

    __slots__ = ("_result",)

    def __init__(self) -> None:
        super().__init__("noise_cipher")
        self._result = ffi.new("noise_result *")

    def encrypt_with_ad(self, ad: Buffer, plaintext: Buffer) -> bytes:
        """Encrypts, with associated data, at the next nonce: 16 bytes longer than the plaintext. Neither is in it."""
        room, size = copied(plaintext, TAG_LEN)
        data, length = pointer(ad)
        try:
            with self._lock:
                if self._at is None:
                    raise self._gone()
                if code := _encrypt(self._at[0], data, length, room, size + TAG_LEN, size, self._result):
                    raise CallError(Code(code))
                return _unpack(room, self._result.len)    # type: ignore[no-any-return]
        except BaseException:
            let_go(data)
            raise

    def decrypt_with_ad(self, ad: Buffer, ciphertext: Buffer) -> bytes:
        """Decrypts, with associated data, at the next nonce. MessageRefused leaves the nonce as it was."""
        room, size = copied(ciphertext)
        data, length = pointer(ad)
        try:
            with self._lock:
                if self._at is None:
                    raise self._gone()
                if code := _decrypt(self._at[0], data, length, room, size, self._result):
                    raise _unopened(code)
                return _unpack(room + getattr(self._result, "from"), self._result.len)    # type: ignore[no-any-return]
        except BaseException:
            let_go(data)
            raise

    @property
    def nonce(self) -> int:
        """The nonce of the next message."""
        return _nonce(self, lib.noise_cipher_nonce)

    def set_nonce(self, nonce: int) -> None:
        """Sets the nonce of the next message (Noise, 11.4): refuse yourself what you have received before."""
        self._change(lib.noise_cipher_set_nonce, nonce)

    def rekey(self) -> None:
        """Replaces the key by the one that follows from it (Noise, 11.3), and keeps the nonce."""
        self._change(lib.noise_cipher_rekey)

    def _change(self, call: Any, *words: int) -> None:
        with self._lock:
            if self._at is None:
                raise self._gone()
            if code := call(self._at[0], *words):
                raise CallError(Code(code))
