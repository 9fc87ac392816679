"""A channel over datagrams without input and output: a handshake that outlives loss, repeats, delays and strangers,
and the payloads after it. docs/UDP.md has the form of the datagrams. An empty payload is the protocol's own: it shows
that its sender has the keys.
"""
from __future__ import annotations

from typing import NoReturn

from . import rules
from .channel import Agreed
from .codes import Code
from .config import Config
from .errors import CallError, ConfigError, MessageRefused
from .handshake import Handshake
from .memory import Buffer
from .pattern import layout
from .rules import Kind
from .transport import Datagrams


class DatagramChannel:
    """One handshake and its keys. `receive` gets a datagram and returns its payload, `send` seals one, and
    `datagrams_to_send` returns what is to be sent. Call `repeat` every so often until `agreed` is set.

    Only a datagram of the other party changes anything: what a stranger sends, and what comes twice, is dropped. A
    message of the handshake that comes again is answered by the same bytes. `agreed` is set by the first datagram that
    opens with the new keys: until then a channel that was there before goes on beside this one.
    """

    def __init__(self, config: Config, initiator: bool, window: int = 64) -> None:
        config.check(initiator)
        read = layout(config.pattern)
        messages = read.messages
        if read.one_way:
            raise ConfigError("pattern", "in a one-way pattern nobody could say that the first datagram came")
        if window not in (64, 256, 1024):
            raise CallError(Code.WINDOW)
        self._config, self._initiator, self._window = config, initiator, window
        self._count = len(messages)
        self._writes_last = messages[-1].initiator == initiator
        self._handshake: Handshake | None = Handshake(config, initiator, late_psks=False)
        self._datagrams: Datagrams | None = None
        self._payloads: list[bytes | None] = []
        self._to_send: list[bytes] = []
        self._own = self._others = b""    # the last datagram of the handshake that was sent, and that was accepted
        self._result: Agreed | None = None
        self._agreed: Agreed | None = None
        self._fault: MessageRefused | None = None
        self._cookie: bytes | None = None    # what the responder wants beside the first message
        self.index: bytes | None = None    # of the session, once all messages have passed
        self.first = b""    # the first message of the handshake
        self.accepted = 0    # how many messages of the other party were accepted
        self.opened = 0    # how many datagrams were opened
        self.newest = -1    # the greatest nonce of them
        if initiator:
            self._write()

    def __reduce__(self) -> NoReturn:
        raise TypeError("a DatagramChannel isn't copied: two would seal with one key and nonce")

    @property
    def agreed(self) -> Agreed | None:
        """What the handshake has agreed on; None until a datagram of the other party has shown that it has the keys."""
        return self._agreed

    @property
    def fault(self) -> MessageRefused | None:
        """Why the last datagram of a handshake was dropped, if one was: it may have been a stranger's."""
        return self._fault

    @property
    def begun(self) -> bool:
        """Whether a message of the other party was accepted."""
        return self.accepted > 0

    @property
    def done(self) -> bool:
        """Whether all messages of the handshake have passed here."""
        return self._result is not None

    @property
    def challenged(self) -> bool:
        """Whether the responder wants a cookie, and has sent it."""
        return self._cookie is not None

    def receive(self, datagram: Buffer) -> bytes | None:
        """Receives a datagram: its payload; None if it has none, or isn't accepted. Whether a responder wants a cookie
        is decided before: here one that came with a first message is dropped."""
        came = bytes(datagram)
        kind = rules.kind(came, self._count)
        if kind == Kind.TRANSPORT:
            return self._open(came)
        if kind == Kind.COOKIE_REPLY:
            self._keep(came)
        elif kind == Kind.WITH_COOKIE and not self._initiator:
            self._message(b"\0" + came[1 + rules.COOKIE:])
        elif kind == Kind.MESSAGE:
            self._message(came)
        return None

    def _message(self, came: bytes) -> None:
        if self._agreed is not None:
            return
        if came == self._others:
            self._answer()    # what was sent after it was lost
        elif self._handshake is not None:
            self._read(self._handshake, came)

    def _keep(self, came: bytes) -> None:
        """Keeps a cookie; the first one is sent at once."""
        if not self._initiator or self._others or self._handshake is None:
            return
        found, had = rules.cookie_of(came, self._own[1:]), self._cookie
        if found is not None:
            self._cookie = found
            if had is None:
                self.repeat()

    def send(self, payload: Buffer) -> None:
        """Seals a payload of 1 byte or more, once `agreed` is set."""
        if self._datagrams is None or self._agreed is None:
            raise CallError(Code.NOT_DONE)
        if not len(payload):
            raise ValueError("an empty payload is the protocol's own")
        self._seal(self._datagrams, payload)

    def _seal(self, datagrams: Datagrams, payload: Buffer) -> None:
        assert self.index is not None
        self._to_send.append(bytes([rules.TRANSPORT]) + self.index + datagrams.seal(payload))

    def repeat(self) -> None:
        """Sends again what the other party hasn't answered. A responder does so only after the last message."""
        if self._agreed is not None:
            return
        if self._datagrams is not None and not self._writes_last:
            self._answer()
        elif self._initiator and self._cookie is not None and not self._others:
            self._to_send.append(rules.with_cookie(self._cookie, self._own[1:]))
        elif self._initiator:
            self._to_send.append(self._own)

    def datagrams_to_send(self) -> list[bytes]:
        """The datagrams to send next."""
        made, self._to_send = self._to_send, []
        return made

    def close(self) -> None:
        """Overwrites the keys. Nothing tells the other party: send it a payload of your own that does."""
        for struct in (self._handshake, self._datagrams):
            if struct is not None:
                struct.close()
        self._handshake = None
        self._to_send.clear()

    def _read(self, handshake: Handshake, came: bytes) -> None:
        index = handshake.message
        if came[0] != index or handshake.writes_next or len(came) - 1 > handshake.longest_read(index):
            return
        try:
            self._payloads.append(handshake.try_read(came[1:]))
            if handshake.done:
                self._finish(handshake, came)
            else:
                self._write()
        except MessageRefused as fault:    # where a write was refused, as for a key of low order, the handshake is over
            self._fault = fault
            self._handshake = None if handshake.closed else handshake
            return
        self._others, self.accepted = came, self.accepted + 1
        self.first = self.first or came[1:]
        if self._datagrams is not None and not self._writes_last:
            self._answer()

    def _write(self) -> None:
        handshake = self._handshake
        assert handshake is not None
        index, payloads = handshake.message, self._config.payloads
        self._own = bytes([index]) + handshake.write(payloads[index] if index < len(payloads) else b"")
        self.first = self.first or self._own[1:]
        self._payloads.append(None)
        self._to_send.append(self._own)
        if handshake.done:
            self._finish(handshake, self._own)

    def _finish(self, handshake: Handshake, last: bytes) -> None:
        self.index = rules.index_of(last)
        self._result = Agreed(handshake.protocol, self._initiator, handshake.hash, handshake.peer_key,
                              tuple(self._payloads))
        self._datagrams = handshake.datagrams(self._window)
        self._handshake = None
        handshake.close()

    def _answer(self) -> None:
        """Sends the message after the last one that was read; after the last of all, an empty payload."""
        if self._datagrams is None or self._writes_last:
            self._to_send.append(self._own)
        elif not self._datagrams.closed:
            self._seal(self._datagrams, b"")

    def _open(self, came: bytes) -> bytes | None:
        if self._datagrams is None or self._datagrams.closed or came[1:1 + rules.INDEX] != self.index:
            return None
        try:
            payload = self._datagrams.open(came[1 + rules.INDEX:])
        except MessageRefused:
            return None
        self.opened += 1
        nonce = int.from_bytes(came[1 + rules.INDEX:rules.HEADING], "big")
        if rules.moves(nonce, self.newest):
            self.newest = nonce
        self._agreed = self._result
        if not payload and self._writes_last:
            self._seal(self._datagrams, b"")
        return payload or None
