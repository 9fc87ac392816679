"""The rules of docs/UDP.md that need no keys of a handshake: what a datagram is, whether a first message is answered,
and which handshake gives way. All of them are tested by vectors/datagrams.json, as those of the other packages are."""
from __future__ import annotations

import hashlib
import hmac
import os
import socket
from collections import Counter
from collections.abc import Callable, Sequence
from enum import Enum
from typing import Any

TRANSPORT, COOKIE_REPLY, WITH_COOKIE = 8, 9, 10    # kinds above the numbers of messages
INDEX = 8           # the length of a session's index
COOKIE = 16         # of a cookie, and of the hash in its reply
HEADING = 1 + INDEX + 8                    # before the ciphertext of a transport datagram
OVERHEAD = HEADING + 16                    # how much longer than its payload it is
REPLY = 1 + 2 * COOKIE
TIMES = 3           # so many times the bytes that came go to an address that hasn't shown itself
MOST_A_SECOND = 32    # handshakes of a host that are begun by cookies
PERIOD = 120.0      # in seconds: how long a secret makes cookies, and how much longer they count


class Kind(Enum):
    """What a datagram is, by its first byte and length."""

    NONE = "none"
    MESSAGE = "message"
    TRANSPORT = "transport"
    COOKIE_REPLY = "cookie reply"
    WITH_COOKIE = "with cookie"


class First(Enum):
    """What a responder does at a first message that begins a handshake."""

    ANSWER = "answer"
    COOKIE = "cookie"
    NONE = "none"


def kind(datagram: bytes, messages: int) -> Kind:
    """What a datagram is, of a pattern with so many messages."""
    first, length = datagram[:1], len(datagram)
    if not first:
        return Kind.NONE
    if first[0] < messages:
        return Kind.MESSAGE
    if first[0] == TRANSPORT and length >= OVERHEAD:
        return Kind.TRANSPORT
    if first[0] == COOKIE_REPLY and length == REPLY:
        return Kind.COOKIE_REPLY
    if first[0] == WITH_COOKIE and length > 1 + COOKIE:
        return Kind.WITH_COOKIE
    return Kind.NONE


def first_message(half_done: int, busy: int, shown: bool, came: int, answer: int) -> First:
    """What is done at a first message in a datagram of `came` bytes, to which `answer` bytes would be sent."""
    if shown or half_done < busy and may_send(came, 0, answer, False):
        return First.ANSWER
    return First.COOKIE if may_send(came, 0, REPLY, False) else First.NONE


def may_send(came: int, sent: int, length: int, shown: bool) -> bool:
    """Whether `length` bytes may go to an address from which `came` bytes came, and to which `sent` went."""
    return shown or sent + length <= TIMES * came


def moves(nonce: int, newest: int) -> bool:
    """Whether a session's address becomes that of a datagram that opened; -1 is the newest before the first one."""
    return nonce > newest


def gives_way(begun: Sequence[tuple[bytes, bool]]) -> int:
    """Which handshake is closed where there are too many: the place in a list, the oldest first, of their hosts and of
    whether they are done."""
    open_ones = [place for place, (_, done) in enumerate(begun) if not done] or list(range(len(begun)))
    counts = Counter(begun[place][0] for place in open_ones)
    return max(open_ones, key=lambda place: counts[begun[place][0]])


def address_bytes(address: Any) -> bytes:
    """What a cookie has of an address: of IPv4, of IPv6, or of another network."""
    if isinstance(address, tuple):
        try:
            ip = _ip(address[0])
        except OSError:    # a name, as of a transport of one's own
            return b"\0" + repr(address).encode()
        return bytes([4 if len(ip) == 4 else 6]) + ip + int(address[1]).to_bytes(2, "big")
    return b"\0" + (address if isinstance(address, bytes) else str(address).encode())


def host(address: Any) -> bytes:
    """By what half-done handshakes are counted: an IPv4 address, or the first 64 bits of an IPv6 address."""
    text = address_bytes(address)
    return text if text[0] == 0 else text[1:5] if text[0] == 4 else text[1:9]


def _ip(text: str) -> bytes:
    if ":" not in text:
        return socket.inet_pton(socket.AF_INET, text)
    ip = socket.inet_pton(socket.AF_INET6, text.partition("%")[0])
    return ip[12:] if ip.startswith(bytes(10) + b"\xff\xff") else ip


def cookie(secret: bytes, address: Any, message: bytes) -> bytes:
    """The cookie of an address and a first message."""
    text = address_bytes(address) + hashlib.sha256(message).digest()
    return hmac.digest(secret, text, "sha256")[:COOKIE]


def reply(message: bytes, made: bytes) -> bytes:
    """The datagram with a cookie."""
    return bytes([COOKIE_REPLY]) + hashlib.sha256(message).digest()[:COOKIE] + made


def with_cookie(made: bytes, message: bytes) -> bytes:
    """The datagram with which a cookie is answered."""
    return bytes([WITH_COOKIE]) + made + message


def cookie_of(datagram: bytes, message: bytes) -> bytes | None:
    """The cookie in a reply; None if the reply is for another message."""
    named, made = datagram[1:1 + COOKIE], datagram[1 + COOKIE:]
    return made if hmac.compare_digest(named, hashlib.sha256(message).digest()[:COOKIE]) else None


def index_of(last: bytes) -> bytes:
    """The index of a session, by the last message of its handshake."""
    return last[-INDEX:]


class Rate:
    """How many handshakes of each host were begun by a cookie in this second. `now` never goes back."""

    def __init__(self) -> None:
        self._second, self._counts = -1, Counter[bytes]()

    def allow(self, counted: bytes, now: float) -> bool:
        """Whether one more of a host may begin; if so, it is counted."""
        if int(now) != self._second:
            self._second, self._counts = int(now), Counter()
        may = self._counts[counted] < MOST_A_SECOND
        self._counts[counted] += may
        return may


class Cookies:
    """A responder's secrets: one makes cookies for 120 seconds, and counts for 120 more. `now` never goes back."""

    def __init__(self, draw: Callable[[int], bytes] = os.urandom) -> None:
        self._draw = draw
        self._secrets: list[tuple[bytes, float]] = []    # with the time when it was drawn, the newest first

    def _right(self, now: float) -> list[bytes]:
        """Those that count; the first one makes cookies."""
        self._secrets = [it for it in self._secrets if now - it[1] < 2 * PERIOD]
        if not self._secrets or now - self._secrets[0][1] >= PERIOD:
            self._secrets.insert(0, (self._draw(32), now))
        return [secret for secret, _ in self._secrets]

    def make(self, address: Any, message: bytes, now: float) -> bytes:
        """A cookie for an address and a first message."""
        return cookie(self._right(now)[0], address, message)

    def accept(self, made: bytes, address: Any, message: bytes, now: float) -> bool:
        """Whether a cookie is right."""
        return any([hmac.compare_digest(made, cookie(secret, address, message)) for secret in self._right(now)])
