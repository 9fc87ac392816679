"""What a party starts from."""
from __future__ import annotations

from collections.abc import Awaitable, Callable, Sequence
from dataclasses import dataclass, field

from .codes import KEY_LEN, MAX_MESSAGE, MAX_PROLOGUE, MAX_PSKS, Code
from .errors import ConfigError
from .keys import DH
from .pattern import Layout, layout

Verify = Callable[[bytes], bool | Awaitable[bool]]
UNAUTHENTICATED = "nothing says who may be the other party: set verify, peer_key, psks, psk_for or accept_any_key"
PskFor = Callable[[bytes], Sequence[bytes] | Awaitable[Sequence[bytes]]]


@dataclass(frozen=True, kw_only=True, slots=True)
class Config:
    """What a party starts from. One may serve for many channels at once."""

    #: The name of a pattern, as "XX" or "XXpsk3"; a protocol name; or the text of your own, whose last byte is "\n".
    pattern: str = "XX"
    #: What the parties have agreed on before: the same bytes at both, at most 65535.
    prologue: bytes = b""
    #: This party's static key pair, if the pattern has one.
    key: DH | None = field(default=None, repr=False)
    #: The other party's static key, 32 bytes. If a message has the key, the two are compared.
    peer_key: bytes | None = None
    #: Called with the other party's static key as soon as that is known, before anything else is read or written.
    #: Unless it returns True, or an awaitable that gives True, the handshake ends.
    verify: Verify | None = None
    #: Whether to talk to anybody, if nothing else says who may be the other party.
    accept_any_key: bool = False
    #: One secret of 32 bytes for each psk token, in their order.
    psks: Sequence[bytes] = field(default=(), repr=False)
    #: In place of `psks`: returns the secrets shared with the owner of a static key. It is called at the first psk
    #: token. The other party hasn't shown yet that it has the secret key: so choose the secrets, and do nothing else.
    psk_for: PskFor | None = None
    #: After how many messages each direction is rekeyed, the same at both parties; 0 is never.
    interval: int = 0
    #: The payloads of the handshake: payloads[i] goes with message i, from 0 on. Of messages of the other party it is
    #: b"".
    payloads: Sequence[bytes] = field(default=(), repr=False)
    #: How many seconds the handshake of a channel may take; None is no limit.
    handshake_timeout: float | None = 10.0
    #: How many bytes a message of a channel's handshake may have; None is 4096 more than it has without a payload.
    handshake_limit: int | None = None
    #: Draws the ephemeral key pair, a new one for each handshake; None is KeyPair.generate.
    ephemeral: Callable[[], DH] | None = field(default=None, repr=False)

    def check(self, initiator: bool) -> None:
        """Raises the ConfigError that a channel would. It calls neither `verify` nor `psk_for`, and draws no key."""
        self.checked(initiator, late_psks=False)

    def checked(self, initiator: bool, late_psks: bool) -> Layout:
        """The pattern, if nothing is wrong; `late_psks` is whether secrets may still be passed by Handshake.set_psk."""
        _Types(self).check()
        read = layout(self.pattern)
        known = read.knows(initiator)
        self._check_sizes()
        self._check_keys(read, initiator, known)
        self._check_psks(read, initiator, late_psks)
        self._check_payloads(read, initiator)
        if self.verify is None and self.peer_key is None and not read.psks and not self.accept_any_key:
            raise ConfigError("verify", UNAUTHENTICATED)
        return read

    def _check_sizes(self) -> None:
        if len(self.prologue) > MAX_PROLOGUE:
            raise ConfigError("prologue", Code.LENGTH)
        if not 0 <= self.interval < 1 << 64:
            raise ConfigError("interval", "not from 0 to 2^64 - 1")
        if self.handshake_timeout is not None and not self.handshake_timeout > 0:
            raise ConfigError("handshake_timeout", "not above 0; None is no limit")

    def _check_keys(self, read: Layout, initiator: bool, known: bool) -> None:
        has_key = known or read.learns(initiator) is not None
        if read.of_initiator.remote_ephemeral or read.of_responder.remote_ephemeral:
            raise ConfigError("pattern", "it has an ephemeral key before \"...\", which this package doesn't support")
        if self.peer_key is not None and len(self.peer_key) != KEY_LEN:
            raise ConfigError("peer_key", "not 32 bytes")
        if self.peer_key is not None and not has_key:
            raise ConfigError("peer_key", Code.REMOTE_UNEXPECTED)
        if self.peer_key is None and known:
            raise ConfigError("peer_key", Code.REMOTE_MISSING)
        if self.verify is not None and not has_key and not self.accept_any_key:
            raise ConfigError("verify", "the other party has no static key in this pattern")
        if self.key is None and read.needs(initiator).static:
            raise ConfigError("key", Code.STATIC_MISSING)
        longest = max(message.length for message in read.messages)
        if self.handshake_limit is not None and self.handshake_limit < longest:
            raise ConfigError("handshake_limit", f"a message of the pattern has {longest} bytes")

    def _check_psks(self, read: Layout, initiator: bool, late_psks: bool) -> None:
        if self.psk_for is not None:
            if self.psks:
                raise ConfigError("psk_for", "set either psks or psk_for")
            if not read.psks:
                raise ConfigError("psk_for", Code.PSK_COUNT)
            if not read.learns_before_psk(initiator):
                raise ConfigError("psk_for", "the other party's static key isn't known before the first psk token")
            return
        if any(len(psk) != KEY_LEN for psk in self.psks):
            raise ConfigError("psks", "not 32 bytes each")
        if len(self.psks) > MAX_PSKS or len(self.psks) != read.psks and (self.psks or not late_psks):
            raise ConfigError("psks", f"{len(self.psks)} where the pattern has {read.psks} psk tokens")

    def _check_payloads(self, read: Layout, initiator: bool) -> None:
        for index, payload in enumerate(self.payloads):
            if not payload:
                continue
            if index >= len(read.messages):
                raise ConfigError("payloads", f"{index + 1}, where the pattern has {len(read.messages)} messages")
            if read.messages[index].initiator != initiator:
                raise ConfigError("payloads", f"payloads[{index}] isn't b\"\", and the other party writes that message")
            if len(payload) + read.messages[index].length > MAX_MESSAGE:
                raise ConfigError("payloads", f"with payloads[{index}] its message is longer than 65535 bytes")


class _Types:
    """The types of a Config's fields: nothing else in the package looks at them again."""

    def __init__(self, config: Config) -> None:
        self._config = config

    def check(self) -> None:
        """Raises ConfigError at a field of a wrong type."""
        self._is("pattern", str)
        self._is("prologue", (bytes, bytearray, memoryview))
        self._is_optional("peer_key", (bytes, bytearray, memoryview))
        for name in ("verify", "psk_for", "ephemeral"):
            if getattr(self._config, name) is not None and not callable(getattr(self._config, name)):
                self._refuse(name, "a function")
        self._is("accept_any_key", bool)
        self._is("interval", int)
        self._is_optional("handshake_timeout", (int, float))
        self._is_optional("handshake_limit", int)
        self._are_bytes("psks")
        self._are_bytes("payloads")
        self._check_pair()

    def _refuse(self, name: str, wanted: str) -> None:
        raise ConfigError(name, f"{wanted} is wanted, not a {type(getattr(self._config, name)).__name__}")

    def _is(self, name: str, kinds: type | tuple[type, ...]) -> None:
        value, first = getattr(self._config, name), kinds[0] if isinstance(kinds, tuple) else kinds
        if not isinstance(value, kinds) or isinstance(value, bool) and first is not bool:
            self._refuse(name, first.__name__)

    def _is_optional(self, name: str, kinds: type | tuple[type, ...]) -> None:
        if getattr(self._config, name) is not None:
            self._is(name, kinds)

    def _are_bytes(self, name: str) -> None:
        values = getattr(self._config, name)
        if isinstance(values, (str, bytes, bytearray, memoryview)) or not isinstance(values, Sequence):
            self._refuse(name, "a sequence of bytes")
        for value in values:
            if not isinstance(value, (bytes, bytearray, memoryview)):
                raise ConfigError(name, f"bytes are wanted in it, not a {type(value).__name__}")

    def _check_pair(self) -> None:
        key = self._config.key
        if key is None:
            return
        if not callable(getattr(key, "agree", None)) or not hasattr(key, "public"):
            self._refuse("key", "a key pair, with `public` and `agree`,")
        if not isinstance(key.public, (bytes, bytearray, memoryview)) or len(key.public) != KEY_LEN:
            raise ConfigError("key", "its `public` isn't 32 bytes")
