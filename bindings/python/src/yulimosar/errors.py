"""What the package raises. Each error can be pickled, as a pool of processes does."""
from __future__ import annotations

import pickle
from typing import Any

from .codes import Code


class NoiseError(Exception):
    """What all errors of this package have in common."""

    #: Of a Reader's `read()`, `readline`, `readexactly` and `readuntil`: what came before the fault, and is given out
    #: here, as that of asyncio.IncompleteReadError.
    partial: bytes = b""


class ConfigError(NoiseError, ValueError):
    """A fault of a Config, found before a byte is sent."""

    def __init__(self, field: str, fault: str | Code) -> None:
        super().__init__(field, fault)
        self.field = field
        self.fault = fault

    def __str__(self) -> str:
        return f"Config.{self.field}: {self.fault!s}"


CLOSED = "it is closed"
FORKED = "this is a forked process, which has no keys: run the handshake in it"


class CallError(NoiseError, RuntimeError):
    """A call that can't be made now, as a write out of turn. It has changed nothing. `code` is None after `close`, and
    in a forked process."""

    def __init__(self, code: Code | None, text: str | None = None) -> None:
        super().__init__(code, text)
        self.code = code
        self.text = text or (CLOSED if code is None else str(code))

    def __str__(self) -> str:
        return self.text


class MessageRefused(NoiseError, ConnectionError):
    """A message that was refused. Over a stream nothing more is given out or sent.

    `message` counts the messages of the handshake from 1 on; 0 is a key that was known from the start, and None a
    message after the handshake. `token` is the name of the token at which it was refused, or "payload"; None if no
    token was. `cause` is a Code, or what stopped the handshake here: a PeerRefused, what `verify` raised, and so on.
    """

    def __init__(self, message: int | None, token: str | None, cause: Code | BaseException) -> None:
        self.message = message
        self.token = token
        self.cause = cause
        super().__init__(self._text())    # three words would be an errno, its text and a file's name

    def _text(self) -> str:
        where = "" if self.token is None else f", token {self.token}"
        if self.message is None:
            if self.cause == Code.TAG:
                return ("a message was refused: its tag is wrong. It was changed, repeated or injected, one before it "
                        "was lost, or the parties have different intervals")
            return f"a message was refused: {self.cause!s}"
        if self.message == 0:
            return f"before the handshake's first message: {self._reason()}"
        return f"handshake message {self.message}{where}: {self._reason()}"

    def _reason(self) -> str:
        """The cause; a name before the words of an error of another package, as KeyError's."""
        if isinstance(self.cause, (Code, NoiseError)):
            return str(self.cause)
        return f"{type(self.cause).__name__}: {self.cause!s}"

    def __repr__(self) -> str:
        return f"MessageRefused(message={self.message!r}, token={self.token!r}, cause={self.cause!r})"

    def __reduce__(self) -> Any:
        return type(self), (self.message, self.token, _carried(self.cause)), {"partial": self.partial}


def _carried(cause: Code | BaseException) -> Code | BaseException:
    """A cause that comes through pickle: another's error that doesn't is a RuntimeError of its words."""
    if isinstance(cause, (Code, NoiseError)):
        return cause
    try:
        pickle.loads(pickle.dumps(cause))
    except Exception:
        return RuntimeError(repr(cause))
    return cause


class ChannelCut(NoiseError, ConnectionResetError):
    """The connection was lost before the other party had ended its stream, or in the handshake; or before all of this
    party's stream was sent."""

    def __init__(self, text: str = "the connection was lost before the end of the stream") -> None:
        super().__init__(text)


class HandshakeTimeout(NoiseError, TimeoutError):
    """The handshake took longer than Config.handshake_timeout."""

    def __init__(self, text: str = "the handshake took too long") -> None:
        super().__init__(text)


class PeerRefused(NoiseError):
    """The other party's static key isn't Config.peer_key, or Config.verify didn't return True. Config.psk_for may raise
    it for a key that has no psk."""


class LowOrderKey(NoiseError):
    """X25519 of the other party's public key is zeros (Noise, 12.1)."""

    def __init__(self, text: str = "X25519 of the other party's public key is zeros") -> None:
        super().__init__(text)


class PskWanted(NoiseError):
    """The message that is due needs a psk, which Handshake.set_psk passes. The handshake is as it was.

    `peer_key` is the other party's static key, of which it hasn't shown yet that it has the secret key; None if it
    isn't known.
    """

    def __init__(self, peer_key: bytes | None) -> None:
        super().__init__(peer_key)
        self.peer_key = peer_key

    def __str__(self) -> str:
        return str(Code.WANTED_PSK)
