"""A handshake, message by message."""
from __future__ import annotations

from collections.abc import Awaitable, Callable, Generator
from typing import Any, TypeAlias, TypeVar

from ._noise import ffi, lib
from .codes import KEY_LEN, Code
from .config import Config
from .errors import CallError, ConfigError, LowOrderKey, MessageRefused, PeerRefused, PskWanted
from .keys import DH, KeyPair
from .memory import Buffer, Struct, copied, let_go, pointer
from .pattern import pattern_text
from .transport import CipherState, Datagrams, Receiver, Sender

T = TypeVar("T")
# What a handshake does: it yields the awaitables that functions of the Config return, and gets what they give.
Steps: TypeAlias = Generator[Awaitable[Any], Any, T]

_FIELDS = {Code.STATIC_MISSING: "key", Code.REMOTE_MISSING: "peer_key", Code.REMOTE_UNEXPECTED: "peer_key",
           Code.PSK_COUNT: "psks", Code.LENGTH: "prologue", Code.EPHEMERAL_MISSING: "ephemeral"}


def settled(value: Any) -> Steps[Any]:
    """A value, or what an awaitable gives."""
    if hasattr(value, "__await__"):
        value = yield value
    return value


def run(steps: Steps[T]) -> T:
    """The result of a handshake's step in which no function of the Config is asynchronous."""
    try:
        awaitable = next(steps)
    except StopIteration as end:
        return end.value    # type: ignore[no-any-return]
    if hasattr(awaitable, "close"):
        awaitable.close()
    return _refuse(steps, TypeError("a function of the Config is asynchronous, and this call isn't"))


def _refuse(steps: Steps[T], error: BaseException) -> T:
    try:
        steps.throw(error)
    except StopIteration as end:
        return end.value    # type: ignore[no-any-return]
    raise error


class Handshake(Struct):
    """Runs a handshake message by message. The parties write in turn, the initiator first.

    After the last message one of `split`, `datagrams` and `ciphers` uses it up; `hash` and `peer_key` go on. A refused
    message, or another party that isn't accepted, ends it, but in `try_read`. If the Config has neither `psks` nor
    `psk_for`, `set_psk` passes the secrets.
    """

    __slots__ = ("config", "initiator", "_layout", "_result", "_stage", "_ephemeral", "_verified", "_used", "_tries",
                 "_kept", "_asks", "_late")

    def __init__(self, config: Config, initiator: bool, *, late_psks: bool = True) -> None:
        self._layout = config.checked(initiator, late_psks)
        self.config = config
        self.initiator = initiator
        self._verified = False    # whether the other party's static key was, if it is known from the start
        self._used = False      # whether `split`, `datagrams`, `ciphers` or `stream` has used it up
        self._tries = False     # whether `try_read` runs
        self._kept: Any = None  # then the struct as it was before, if the Config has to decide something
        self._asks = False      # whether `try_read` has raised PskWanted, and its message wasn't accepted or refused
        self._late = 0          # how many psks were set since then
        self._result = ffi.new("noise_result *")
        self._stage = ffi.new("noise_stage_result *")
        draws = self._layout.needs(initiator).ephemeral
        self._ephemeral: DH | None = (config.ephemeral or KeyPair.generate)() if draws else None
        super().__init__("noise_handshake")
        self._start()

    def _start(self) -> None:
        config, setup = self.config, ffi.new("noise_setup *")
        setup.responder = not self.initiator
        if self._ephemeral is not None:
            _set_key(setup.e, self._ephemeral.public)
        if config.key is not None:
            _set_key(setup.s, config.key.public)
        if config.peer_key is not None and self._layout.knows(self.initiator):
            _set_key(setup.remote_s, config.peer_key)
        setup.psk_count = len(config.psks)
        for index, psk in enumerate(config.psks):
            ffi.memmove(setup.psks[index], psk, KEY_LEN)
        text = pattern_text(config.pattern).encode()
        prologue, size = pointer(config.prologue)
        try:
            code = lib.noise_start(self._open(), text, len(text), prologue, size, setup)
        finally:
            let_go(prologue)
            lib.noise_wipe(setup, ffi.sizeof(setup[0]))
        if code:
            self._overwrite()
            raise ConfigError(_FIELDS.get(code, "pattern"), Code(code))

    def _open(self) -> Any:
        if self._at is None:
            raise self._gone()
        return self._at[0]

    @property
    def closed(self) -> bool:
        """Whether it was closed, or used up."""
        return self._at is None or self._used

    def _unmade(self, code: int) -> CallError:
        """What a call raises that the library refuses."""
        used = "the handshake was used up by split, datagrams or ciphers"
        return CallError(Code(code), used if self._used and code == Code.ENDED else None)

    def _refuse(self) -> None:
        """Ends the handshake; in `try_read`, leaves it as it was before."""
        if not self._tries:
            self._why = "the handshake has ended, since a message or the other party was refused"
            self._overwrite()
        elif self._kept is not None and self._at is not None:
            self._at[0][0] = self._kept[0]

    def _overwrite(self) -> None:
        super()._overwrite()
        self._forget_ephemeral()

    def _forget_ephemeral(self) -> None:
        ephemeral, self._ephemeral = self._ephemeral, None
        if isinstance(ephemeral, KeyPair):
            ephemeral.close()

    def _passed(self) -> Any:
        with self._lock:
            code = lib.noise_stage(self._open(), self._stage)
        if code:
            raise CallError(Code(code))
        return self._stage

    @property
    def message(self) -> int:
        """How many messages have passed."""
        return self._passed().passed    # type: ignore[no-any-return]

    @property
    def done(self) -> bool:
        """Whether all messages have passed."""
        stage = self._passed()
        return stage.passed == stage.messages    # type: ignore[no-any-return]

    @property
    def writes_next(self) -> bool:
        """Whether this party writes the next message."""
        stage = self._passed()
        return bool(stage.writes_next) and stage.passed < stage.messages

    @property
    def protocol(self) -> str:
        """The protocol name."""
        return self._layout.protocol

    def longest_read(self, index: int) -> int:
        """How many bytes message `index` of a channel's handshake may have."""
        limit = self.config.handshake_limit
        return self._layout.messages[index].length + 4096 if limit is None else limit

    @property
    def hash(self) -> bytes:
        """The handshake hash so far. After the last message it is the same at both parties (Noise, 11.2)."""
        hash_ = ffi.new("char[]", KEY_LEN)
        with self._lock:
            code = lib.noise_hash(self._open(), hash_)
        if code:
            raise CallError(Code(code))
        return ffi.unpack(hash_, KEY_LEN)    # type: ignore[no-any-return]

    @property
    def peer_key(self) -> bytes | None:
        """The other party's static key; None if it isn't known, or not yet."""
        key = ffi.new("noise_key *")
        with self._lock:
            code = lib.noise_remote_static(self._open(), key)
        if code:
            raise CallError(Code(code))
        return bytes(key.bytes) if key.present else None

    def write(self, payload: Buffer = b"") -> bytes:
        """The next message, with this payload. Section 7.7 of the standard says how well the payload is protected."""
        with self._lock:
            return run(self.writing(payload))

    def read(self, message: Buffer) -> bytes:
        """Reads the message that is due: its payload. MessageRefused: the handshake has ended."""
        with self._lock:
            return run(self.reading(message))

    def try_read(self, message: Buffer) -> bytes:
        """Reads the message that is due, if it is the right one: its payload. Any error leaves the handshake as it was,
        and the right message can still be read: MessageRefused takes back what `set_psk` has passed since PskWanted.
        For messages that a stranger can send, as over UDP."""
        with self._lock:
            at = self._open()
            self._tries = True
            if self._decides():
                self._kept = ffi.new("noise_handshake *", at[0])
            try:
                payload = run(self.reading(message))
                self._asks, self._late = False, 0
                return payload
            except PskWanted:
                self._asks = True
                raise
            except BaseException as error:
                self._refuse()
                if isinstance(error, MessageRefused):
                    self._take_back()
                raise
            finally:
                self._tries = False
                if self._kept is not None:
                    lib.noise_wipe(self._kept, ffi.sizeof(self._kept[0]))
                    self._kept = None

    def _take_back(self) -> None:
        """Takes back the psks that were set for a message which was refused."""
        while self._late and self._at is not None:
            self.unset_psk()
        self._asks = False

    def _decides(self) -> bool:
        """Whether the Config has to do with the next message what the library can't take back: it verifies a key that
        the message has, after it was accepted, or it chooses secrets by a key that a stranger has claimed."""
        config = self.config
        verifies = config.verify is not None or config.peer_key is not None
        return config.psk_for is not None or verifies and self.message == self._layout.learns(self.initiator)

    def set_psk(self, psk: bytes) -> None:
        """Passes the secret of the first psk token that has none. Later calls can't replace it, but see `unset_psk`."""
        if len(psk) != KEY_LEN:
            raise ValueError("a psk has 32 bytes")
        with self._lock:
            if code := lib.noise_set_psk(self._open(), psk):
                raise CallError(Code(code))
            self._late += self._asks

    def unset_psk(self) -> None:
        """Takes back the last secret that no message has used yet, if there is one."""
        with self._lock:
            if code := lib.noise_unset_psk(self._open()):
                raise CallError(Code(code))
            self._late -= self._late > 0

    def writing(self, payload: Buffer) -> Steps[bytes]:
        """`write`, where functions of the Config may be asynchronous."""
        data, length = pointer(payload)
        try:
            return (yield from self._written(data, length))
        except BaseException:
            let_go(data)
            raise

    def _written(self, data: Any, length: int) -> Steps[bytes]:
        size = ffi.new("size_t *")
        code = lib.noise_message_len(self._open(), length, size)
        if code == Code.OK:
            yield from self._verify_known()
        room = ffi.new("char[]", size[0])
        code = yield from self._called(lib.noise_write, data, length, room, size[0])
        if code:
            raise self._unmade(code)
        return ffi.unpack(room, self._result.len)    # type: ignore[no-any-return]

    def reading(self, message: Buffer) -> Steps[bytes]:
        """`read`, where functions of the Config may be asynchronous."""
        index = self.message
        if self._used:
            raise self._unmade(Code.ENDED)
        if self.done:
            raise CallError(Code.DONE)
        if self.writes_next:
            raise CallError(Code.NOT_YOUR_TURN)
        yield from self._verify_known()
        room, size = copied(message)
        code = yield from self._called(lib.noise_try_read if self._tries else lib.noise_read, room, size)
        if code:
            raise self._refused(index, code)
        payload: bytes = ffi.unpack(room + getattr(self._result, "from"), self._result.len)
        if index == self._layout.learns(self.initiator):
            yield from self._verify_peer(index + 1)
        return payload

    def _refused(self, index: int, code: int) -> MessageRefused:
        """Ends the handshake at a message."""
        tokens = (*self._layout.messages[index].tokens, "payload")
        token = tokens[self._result.token] if code in (Code.SHORT, Code.TAG) else None
        self._refuse()
        return MessageRefused(index + 1, token, Code(code))

    def _called(self, call: Callable[..., int], *words: Any) -> Steps[int]:
        """Makes a call of the library, and supplies the DH results and the psks that it asks for."""
        while True:
            code = call(self._open(), *words, self._result)
            if code == Code.WANTED:
                yield from self._guarded(self._supply())
            elif code == Code.WANTED_PSK:
                yield from self._guarded(self._choose())
            else:
                return code

    def _guarded(self, steps: Steps[None], message: int | None = None) -> Steps[None]:
        """Runs functions of the Config; if one fails, the handshake has ended."""
        if message is None:
            message = self.message + 1
        try:
            yield from steps
        except (PskWanted, CallError):
            raise
        except Exception as cause:
            self._refuse()
            raise MessageRefused(message, None, cause) from cause
        except BaseException:
            self._refuse()
            raise

    def _supply(self) -> Steps[None]:
        of_static, remote = self._result.of_static, bytes(self._result.remote)
        own = self.config.key if of_static else self._ephemeral
        assert own is not None
        result = yield from settled(own.agree(remote))
        if len(result) != KEY_LEN:
            raise ValueError("a result of X25519 has 32 bytes")
        if not any(result):
            raise LowOrderKey
        if code := lib.noise_answer(self._open(), of_static, remote, bytes(result)):
            raise CallError(Code(code))

    def _choose(self) -> Steps[None]:
        remote = bytes(self._result.remote) if self._result.remote_known else None
        if self.config.psk_for is None or remote is None:
            raise PskWanted(remote)
        psks = yield from settled(self.config.psk_for(remote))
        if len(psks) != self._layout.psks or any(len(psk) != KEY_LEN for psk in psks):
            raise ConfigError("psk_for", f"not {self._layout.psks} secrets of 32 bytes")
        for psk in psks:
            self.set_psk(psk)

    def _verify_known(self) -> Steps[None]:
        """Decides whether a static key of the other party that is known from the start is accepted."""
        if not self._verified and self._layout.knows(self.initiator):
            yield from self._verify_peer(0)
            self._verified = True

    def _verify_peer(self, message: int) -> Steps[None]:
        yield from self._guarded(self._verifying(), message)

    def _verifying(self) -> Steps[None]:
        key, config = self.peer_key, self.config
        assert key is not None
        if config.peer_key is not None and key != config.peer_key:
            raise PeerRefused(f"the other party has another static key than the one expected: {key.hex()}")
        if config.verify is not None:
            accepted = yield from settled(config.verify(key))
            if accepted is not True:
                raise PeerRefused(f"Config.verify didn't accept the other party's static key: {key.hex()}")
            self._open()    # `verify` may have closed it

    def _finish(self, call: Callable[..., int], number: int | None, *structs: Struct) -> None:
        """Makes the structs of what comes after the handshake, which is used up."""
        words = [] if number is None else [number]
        places = [place for it in structs for place in it._at or ()]
        with self._lock:
            if code := call(self._open(), *words, *places):
                raise self._unmade(code)
            self._used = True
            self._forget_ephemeral()

    def split(self) -> tuple[Sender, Receiver]:
        """The two directions, for messages in order. A direction is rekeyed after each `interval` of its messages."""
        sender, receiver = Sender(), Receiver()
        self._finish(lib.noise_finish, self.config.interval, sender, receiver)
        return sender, receiver

    def datagrams(self, window: int = 64) -> Datagrams:
        """For datagrams. One may come after others whose numbers are less than `window` greater: 64, 256 or 1024."""
        if window not in (64, 256, 1024):
            raise CallError(Code.WINDOW)
        made = Datagrams()
        self._finish(lib.noise_finish_datagrams, window, made)
        return made

    def ciphers(self) -> tuple[CipherState, CipherState]:
        """The two cipher states of the standard (Noise, 5.2): to send, and to receive."""
        send, receive = CipherState(), CipherState()
        self._finish(lib.noise_finish_ciphers, None, send, receive)
        return send, receive

    def stream(self) -> tuple[Struct, Struct]:
        """The two directions of a channel, for Channel."""
        sender, receiver = Struct("noise_stream_sender"), Struct("noise_stream_receiver")
        self._finish(lib.noise_finish_stream, self.config.interval, sender, receiver)
        return sender, receiver


def _set_key(at: Any, key: bytes) -> None:
    if len(key) != KEY_LEN:
        raise ValueError("a public key has 32 bytes")
    at.present = 1
    ffi.memmove(at.bytes, key, KEY_LEN)
