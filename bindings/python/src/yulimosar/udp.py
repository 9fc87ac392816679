"""Channels over UDP for asyncio: a DatagramProtocol. docs/UDP.md says what it sends, and when."""
from __future__ import annotations

import asyncio
import logging
from typing import Any, cast

from . import rules
from .channel import Agreed
from .codes import Code
from .config import Config
from .datagrams import DatagramChannel
from .errors import ConfigError, HandshakeTimeout, MessageRefused, NoiseError
from .memory import Buffer
from .pattern import layout
from .rules import First, Kind

RESEND = 0.25       # in seconds: after which what isn't answered is sent again
RESTART = 1.0       # in seconds: after which an initiator begins another handshake beside those that aren't answered
ALONE = 5.0         # in seconds: how long an initiator that has read the last message holds to that handshake
MOST_TRIED = 8      # how many handshakes an initiator has at once
MOST_BEGUN = 256    # how many handshakes without a peer a responder has at once
MOST_PAYLOAD = 65507 - rules.OVERHEAD    # a datagram of UDP over IPv4 has at most 65507 bytes

logger = logging.getLogger("yulimosar")


class DatagramPeer:
    """The other party of a channel over datagrams."""

    def __init__(self, protocol: DatagramProtocol, channel: DatagramChannel, address: Any) -> None:
        self._protocol, self._channel = protocol, channel
        self.address = address    # the last one of which a datagram opened; None of the responder, whose doesn't change
        self.heard = protocol.loop.time()
        self._first = b""    # the first message of the handshake

    @property
    def noise(self) -> Agreed:
        """What the handshake has agreed on."""
        return cast(Agreed, self._channel.agreed)

    def send(self, payload: Buffer) -> None:
        """Sends a payload of 1 to 65474 bytes in one datagram, 33 bytes longer. It may be lost, repeated and reordered
        on its way; the other party gets it at most once."""
        if len(payload) > MOST_PAYLOAD:
            raise ValueError(f"a datagram takes at most {MOST_PAYLOAD} bytes, and this payload has {len(payload)}")
        self._channel.send(payload)
        self._protocol._flush(self._channel, self.address)

    def close(self) -> None:
        """Overwrites the keys, and forgets the other party. Nothing tells it."""
        self._protocol._forget(self)


class _Begun:
    """A handshake that no peer has come of yet."""

    def __init__(self, channel: DatagramChannel, address: Any, first: bytes, since: float) -> None:
        self.channel, self.address, self.first, self.since = channel, address, first, since
        self.came = self.sent = 0    # bytes
        self.shown = False    # whether the address has shown that it gets what is sent to it

    def may_send(self, length: int) -> bool:
        """Whether so many bytes may go to the address; if so, they are counted."""
        may = rules.may_send(self.came, self.sent, length, self.shown)
        self.sent += length if may else 0
        return may


class DatagramProtocol(asyncio.DatagramProtocol):
    """What loop.create_datagram_endpoint asks for. Override `peer_connected`, `payload_received` and `peer_lost`.

    An initiator has one peer, that of `remote_addr`: `await connected` gives it. A responder has a peer for each
    session that has shown in a handshake who it is, and follows it where its address changes; a new session replaces
    that of the same address and static key. Functions of the Config can't be asynchronous here. From `busy` handshakes
    on that aren't done, a first message needs a cookie: 0 is always.
    """

    def __init__(self, config: Config, initiator: bool, *, window: int = 64, most_peers: int = 1024,
                 idle: float | None = 180.0, busy: int = 16) -> None:
        config.check(initiator)
        self.loop = asyncio.get_running_loop()
        self.connected: asyncio.Future[DatagramPeer] = self.loop.create_future()    # an initiator's
        self.connected.add_done_callback(lambda it: it.cancelled() or it.exception())    # nobody may wait for it
        self._config, self._initiator, self._window = config, initiator, window
        self._most_peers, self._idle, self._busy = most_peers, idle, busy
        self._messages = layout(config.pattern).messages
        self._reads_last = self._messages[-1].initiator != initiator
        self._peers: dict[bytes, DatagramPeer] = {}    # by index
        self._firsts: dict[bytes, DatagramPeer] = {}    # by the first message of each peer's handshake
        self._begun: dict[tuple[Any, bytes], _Begun] = {}    # by address and first message, the oldest first
        self._at: dict[Any, list[_Begun]] = {}    # the same by address alone
        self._done: dict[bytes, _Begun] = {}    # those whose messages have all passed, by index
        self._cookies, self._rate = rules.Cookies(), rules.Rate()
        self._is_full = False    # whether the socket takes no more
        self._told = False    # whether the log has a line on answers that need a cookie
        self._started = 0.0    # when an initiator has begun the first
        self._timer: asyncio.TimerHandle | None = None
        self._transport: asyncio.DatagramTransport | None = None

    def peer_connected(self, peer: DatagramPeer) -> None:
        """A handshake is done, and both parties know it."""

    def payload_received(self, peer: DatagramPeer, payload: bytes) -> None:
        """A payload has come."""

    def peer_lost(self, peer: DatagramPeer, fault: Exception | None) -> None:
        """Nothing more comes from a peer: it was silent for `idle` seconds (TimeoutError), was replaced by another
        session of its address and key, or gave way to another where there were `most_peers` (None); or the error of the
        socket."""

    def connection_made(self, transport: asyncio.BaseTransport) -> None:
        self._transport = cast(asyncio.DatagramTransport, transport)
        self._started = self.loop.time()
        if self._initiator:
            self._try()

    def connection_lost(self, exc: Exception | None) -> None:
        self._transport = None
        if self._timer is not None:
            self._timer.cancel()
        for begun in list(self._begun.values()):
            self._close(begun)
        for peer in list(self._peers.values()):
            self._lose(peer, exc)
        if not self.connected.done():
            self.connected.set_exception(exc or HandshakeTimeout("the socket was closed in the handshake"))

    def pause_writing(self) -> None:
        """The socket takes no more: what is sent until `resume_writing` is lost, as anybody could make it grow."""
        self._is_full = True

    def resume_writing(self) -> None:
        self._is_full = False

    def error_received(self, exc: Exception) -> None:
        """A datagram couldn't be sent, as to a port where nobody listens yet: it counts as lost."""

    def datagram_received(self, data: bytes, addr: Any) -> None:
        kind, address = rules.kind(data, len(self._messages)), None if self._initiator else addr
        if kind == Kind.TRANSPORT:
            self._transported(address, data)
        elif self._initiator:
            self._answered(data)
        elif kind == Kind.WITH_COOKIE:
            start = 1 + rules.COOKIE
            self._first(address, data[start:], data[1:start])
        elif kind == Kind.MESSAGE and data[0] == 0:
            self._first(address, data[1:], None)
        elif kind == Kind.MESSAGE:
            for begun in list(self._at.get(address, ())):
                self._pass(begun, data)

    def _transported(self, address: Any, data: bytes) -> None:
        """A transport datagram belongs to the session of its index, wherever it comes from."""
        index = data[1:1 + rules.INDEX]
        begun, peer = self._done.get(index), self._peers.get(index)
        channel = begun.channel if begun is not None else peer._channel if peer is not None else None
        if channel is None:
            return
        opened, newest, payload = channel.opened, channel.newest, channel.receive(data)
        if channel.opened == opened:
            return
        if begun is not None:
            peer = self._connect(begun, address)
        elif peer is not None and channel.newest > newest:
            peer.address = address
        if peer is None:
            return
        peer.heard = self.loop.time()
        self._flush(channel, peer.address)
        if payload is not None and self._peers.get(index) is peer:    # `peer_connected` may have closed it
            self.payload_received(peer, payload)

    # An initiator.

    def _try(self) -> None:
        """Begins a handshake, beside those that aren't answered."""
        try:
            channel = DatagramChannel(self._config, True, self._window)
        except NoiseError as fault:    # `verify` has refused a key that is known from the start
            self._give_up(fault)
            return
        if len(self._begun) >= MOST_TRIED:
            self._close(next(iter(self._begun.values())))
        self._add(_Begun(channel, None, channel.first, self.loop.time()))

    def _answered(self, data: bytes) -> None:
        for begun in list(self._begun.values()):
            if (None, begun.first) in self._begun:    # another one may have closed it
                self._pass(begun, data)

    def _hold_to(self, begun: _Begun) -> None:
        """Closes the others: this one's empty datagram may replace a session of theirs at the responder."""
        begun.since = self.loop.time()
        for other in [it for it in self._begun.values() if it is not begun]:
            self._close(other)

    def _try_again(self, now: float) -> None:
        """Sends again what isn't answered; of what nobody has answered at all, the newest alone."""
        *others, newest = self._begun.values()
        if self._reads_last and newest.channel.done:
            if now - newest.since < ALONE:
                self._repeat(newest)
            else:
                self._close(newest)
                self._try()
        elif now - newest.since >= RESTART:
            self._try()    # the responder may have forgotten the others
            others.append(newest)
        else:
            self._repeat(newest)
        for begun in others:
            if begun.channel.accepted and (None, begun.first) in self._begun:
                self._repeat(begun)

    # A responder.

    def _first(self, address: Any, message: bytes, cookie: bytes | None) -> None:
        """A first message: the same again, or one that begins a handshake."""
        came = len(message) + 1 + (0 if cookie is None else rules.COOKIE)
        begun, now = self._begun.get((address, message)), self.loop.time()
        if begun is not None:
            begun.came += came
            self._pass(begun, b"\0" + message)
            return
        fixed = self._messages[0].length
        if message in self._firsts or not fixed <= len(message) <= (self._config.handshake_limit or fixed + 4096):
            return
        shown = cookie is not None and self._cookies.accept(cookie, address, message, now)
        answer = 1 + self._messages[1].length + sum(map(len, self._config.payloads[1:2]))
        decided = rules.first_message(len(self._begun), self._busy, shown, came, answer)
        if decided == First.ANSWER:
            if not shown or self._rate.allow(rules.host(address), now):
                self._begin(address, message, came, shown)
        elif decided == First.COOKIE:
            self._tell(address, came, answer)
            self._send(rules.reply(message, self._cookies.make(address, message, now)), address)

    def _tell(self, address: Any, came: int, answer: int) -> None:
        if not self._told and not rules.may_send(came, 0, answer, False):
            self._told = True
            logger.info("handshake with %s: it needs a cookie, as others will, since the first message has %d bytes, "
                        "and the answer would have more than %d times as many: %d", address, came, rules.TIMES, answer)

    def _begin(self, address: Any, message: bytes, came: int, shown: bool) -> None:
        """Begins a handshake, if its first message is accepted."""
        channel = DatagramChannel(self._config, False, self._window)
        channel.receive(b"\0" + message)
        if not channel.accepted:
            self._report(address, channel.fault)
            channel.close()
            return
        begun = _Begun(channel, address, message, self.loop.time())
        begun.came, begun.shown = came, shown
        if len(self._begun) >= MOST_BEGUN:
            listed = list(self._begun.values())
            self._close(listed[rules.gives_way([(rules.host(it.address), it.channel.done) for it in listed])])
        self._add(begun)

    # Both.

    def _add(self, begun: _Begun) -> None:
        self._begun[begun.address, begun.first] = begun
        self._at.setdefault(begun.address, []).append(begun)
        self._see(begun)
        self._wait()

    def _pass(self, begun: _Begun, data: bytes) -> None:
        """Gives a message, or a cookie, to a handshake."""
        accepted = begun.channel.accepted
        begun.channel.receive(data)
        if begun.channel.accepted > accepted:
            begun.shown = True    # it was made of what was sent to the address
        self._see(begun)

    def _see(self, begun: _Begun) -> None:
        """Sends what a handshake has to send, and notes its index once it has one."""
        index = begun.channel.index
        if index is not None and index not in self._peers and index not in self._done:
            self._done[index] = begun
            if not self._initiator:
                begun.since = self.loop.time()    # its time begins anew: the other party may know of the session now
            elif self._reads_last:
                self._hold_to(begun)
        elif index is not None and self._done.get(index) is not begun:
            self._close(begun)    # two sessions have the same index
        for datagram in begun.channel.datagrams_to_send():
            if self._initiator or begun.may_send(len(datagram)):
                self._send(datagram, begun.address)

    def _repeat(self, begun: _Begun) -> None:
        begun.channel.repeat()
        self._see(begun)

    def _close(self, begun: _Begun) -> None:
        """Forgets a handshake, and its keys."""
        begun.channel.close()
        self._drop(begun)

    def _drop(self, begun: _Begun) -> None:
        del self._begun[begun.address, begun.first]
        at = self._at[begun.address]
        at.remove(begun)
        if not at:
            del self._at[begun.address]
        index = begun.channel.index
        if index is not None and self._done.get(index) is begun:
            del self._done[index]

    def _connect(self, begun: _Begun, address: Any) -> DatagramPeer | None:
        """Makes a peer of a handshake whose keys have opened a datagram."""
        channel, index = begun.channel, cast(bytes, begun.channel.index)
        self._drop(begun)
        for other in list(self._at.get(begun.address, ())):
            self._close(other)
        if index in self._peers:
            channel.close()
            return None
        peer = DatagramPeer(self, channel, address)
        for other_peer in [it for it in self._peers.values() if _replaces(peer, begun.address, it)]:
            self._lose(other_peer, None)
        if len(self._peers) >= self._most_peers:
            self._lose(min(self._peers.values(), key=lambda it: it.heard), None)
        self._peers[index] = self._firsts[begun.first] = peer
        peer._first = begun.first
        if not self.connected.done():
            self.connected.set_result(peer)
        self.peer_connected(peer)
        return peer

    def _send(self, datagram: bytes, address: Any) -> None:
        if self._transport is not None and not self._is_full:
            self._transport.sendto(datagram, address)

    def _flush(self, channel: DatagramChannel, address: Any) -> None:
        for datagram in channel.datagrams_to_send():
            self._send(datagram, address)

    def _forget(self, peer: DatagramPeer) -> None:
        peer._channel.close()
        index = cast(bytes, peer._channel.index)
        if self._peers.get(index) is peer:
            del self._peers[index], self._firsts[peer._first]

    def _lose(self, peer: DatagramPeer, fault: Exception | None) -> None:
        self._forget(peer)
        self.peer_lost(peer, fault)

    def _tick(self) -> None:
        """Sends again what isn't answered, and gives up what has taken too long."""
        now, limit = self.loop.time(), self._config.handshake_timeout
        if self._initiator and self._begun:
            if limit is not None and now - self._started >= limit:
                self._give_up()
            else:
                self._try_again(now)
        elif not self._initiator:
            for begun in list(self._begun.values()):
                if limit is not None and now - begun.since >= limit:
                    self._close(begun)
                    if begun.channel.fault is not None:
                        self._report(begun.address, begun.channel.fault)
                else:
                    self._repeat(begun)
        for peer in list(self._peers.values()) if self._idle is not None else ():
            if now - peer.heard >= cast(float, self._idle):
                self._lose(peer, TimeoutError("nothing has come from the peer"))
        self._timer = None
        self._wait()

    def _wait(self) -> None:
        """Sees to it that `_tick` is called while there is something to wait for."""
        if self._timer is not None and self._begun and self._timer.when() > self.loop.time() + RESEND:
            self._timer.cancel()
            self._timer = None
        if self._timer is None and self._transport is not None:
            if self._begun:
                self._timer = self.loop.call_later(RESEND, self._tick)
            elif self._peers and self._idle is not None:
                self._timer = self.loop.call_later(max(RESEND, self._idle / 4), self._tick)

    def _give_up(self, why: NoiseError | None = None) -> None:
        """An initiator has no session, or not in time."""
        channels = [begun.channel for begun in self._begun.values()]
        for begun in list(self._begun.values()):
            self._close(begun)
        if self.connected.done():
            return
        if why is None and any(it.challenged for it in channels) and not any(it.accepted for it in channels):
            why = HandshakeTimeout("the responder has asked for a cookie, and hasn't answered the message with it")
        elif why is None:
            why = HandshakeTimeout()
            why.__cause__ = next((it.fault for it in reversed(channels) if it.fault), None)    # why one was refused
        self.connected.set_exception(why)

    def _report(self, address: Any, fault: MessageRefused | None) -> None:
        """A line of the log: at ERROR for what this program does; at DEBUG for others, since anybody can send."""
        cause = None if fault is None else fault.cause
        if cause is None or isinstance(cause, (Code, NoiseError)) and not isinstance(cause, ConfigError):
            logger.debug("handshake with %s: %s", address, fault or "no message of a handshake")
        else:
            logger.error("handshake with %s: %s", address, fault, exc_info=cause)


def _replaces(peer: DatagramPeer, address: Any, other: DatagramPeer) -> bool:
    """Whether a new session is of the same program as another one: one that has begun anew. What counts is the address
    of the handshake, since anybody can send the first transport datagram in the name of another address."""
    return other.address == address and other.noise.peer_key == peer.noise.peer_key
