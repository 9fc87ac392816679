"""What a pattern's messages consist of, as the library says."""
from __future__ import annotations

from dataclasses import dataclass
from functools import lru_cache
from typing import Any

from ._noise import ffi, lib
from .codes import TAG_LEN, TOKENS, Code
from .errors import ConfigError

SUITE = "_25519_ChaChaPoly_SHA256"


@dataclass(frozen=True, slots=True)
class Fault:
    """The first fault of a pattern text."""

    code: Code      # HEADING to ENDING, or RULE
    line: int       # counted from 1; 0 at RULE
    rule: int       # at RULE the rule of validity, 1 to 5 (include/noise.h); else 0
    message: int    # at RULE the message, counted from 1; what comes after the handshake counts as one more
    token: int      # at RULE the token, counted from 1

    def __str__(self) -> str:
        if self.code == Code.RULE:
            return f"message {self.message}, token {self.token}: rule {self.rule} of validity is broken"
        return f"line {self.line}: {self.code!s}"


def check_pattern(text: str) -> Fault | None:
    """The first fault of a pattern text, whose lines all end with a line feed; None if it has none."""
    result = ffi.new("noise_pattern_result *")
    data = text.encode("utf-8", "replace")
    code = lib.noise_check_pattern(data, len(data), result)
    if code == Code.OK:
        return None
    if code == Code.RULE:
        return Fault(Code.RULE, 0, result.rule, result.message, result.token + 1)
    return Fault(Code(code), result.line, 0, 0, 0)


@dataclass(frozen=True, slots=True)
class Piece:
    """A piece of a message. DH and psk tokens have no bytes; nor has the payload here, which may be of any length."""

    name: str          # the token, "tag" or "payload"
    offset: int        # where it begins, in a message with an empty payload
    length: int
    encrypted: bool


@dataclass(frozen=True, slots=True)
class Message:
    """A message of a pattern."""

    initiator: bool             # whether the initiator sends it
    tokens: tuple[str, ...]
    pieces: tuple[Piece, ...]
    length: int                 # with an empty payload


@dataclass(frozen=True, slots=True)
class Needs:
    """The keys that a party has to have when the handshake begins."""

    ephemeral: bool
    static: bool
    remote_ephemeral: bool
    remote_static: bool


@dataclass(frozen=True, slots=True)
class Layout:
    """A pattern: what each party knows beforehand, and the messages."""

    protocol: str                      # the protocol name
    initiator_before: tuple[str, ...]  # the initiator's public keys that are known beforehand: "e", "s"
    responder_before: tuple[str, ...]
    messages: tuple[Message, ...]
    psks: int                          # how many psk tokens there are
    one_way: bool                      # whether only the initiator sends
    of_initiator: Needs
    of_responder: Needs

    def needs(self, initiator: bool) -> Needs:
        """The keys that a party has to have when the handshake begins."""
        return self.of_initiator if initiator else self.of_responder

    def knows(self, initiator: bool) -> bool:
        """Whether a party has to know the other's static key beforehand."""
        return self.needs(initiator).remote_static

    def learns(self, initiator: bool) -> int | None:
        """The message, counted from 0, that gives a party the other's static key."""
        for index, message in enumerate(self.messages):
            if message.initiator != initiator and "s" in message.tokens:
                return index
        return None

    def learns_before_psk(self, initiator: bool) -> bool:
        """Whether a party has the other's static key before the first psk token."""
        if self.knows(initiator):
            return True
        for message in self.messages:
            for token in message.tokens:
                if token == "psk" or token == "s" and message.initiator != initiator:
                    return token == "s"
        return False


def pattern_text(pattern: str) -> str:
    """What the library gets: a pattern text, or a protocol name."""
    if "\n" in pattern or pattern.startswith("Noise_"):
        return pattern
    return f"Noise_{pattern}{SUITE}"


@lru_cache(256)
def layout(pattern: str) -> Layout:
    """The messages of a pattern: of its name, as "XXpsk3", of a protocol name, or of a text of your own.

    ConfigError: the library doesn't accept it.
    """
    text = pattern_text(pattern)
    if "\n" in text and (fault := check_pattern(text)):    # also of a text without its last line feed
        raise ConfigError("pattern", str(fault))
    data = text.encode("utf-8", "replace")
    info, result = ffi.new("noise_pattern_info *"), ffi.new("noise_pattern_result *")
    if code := lib.noise_pattern(data, len(data), info, result):
        raise ConfigError("pattern", Code(code))
    heading, ends, _ = text.partition(":")
    return Layout(
        f"Noise_{heading}{SUITE}" if ends else text, _names(info.pre_messages[0]), _names(info.pre_messages[1]),
        tuple(_message(data, index, _names(info.tokens[index])) for index in range(info.messages)),
        info.psks, bool(info.one_way), _needs(info.needed[0]), _needs(info.needed[1]))


def _names(tokens: Any) -> tuple[str, ...]:
    """The names of tokens' numbers, up to a 0."""
    return tuple(TOKENS[token] for token in tokens if token)


def _needs(needed: Any) -> Needs:
    return Needs(bool(needed.e), bool(needed.s), bool(needed.remote_e), bool(needed.remote_s))


def _message(pattern: bytes, index: int, tokens: tuple[str, ...]) -> Message:
    """A message with an empty payload."""
    made = ffi.new("noise_message_layout *")
    if code := lib.noise_layout(pattern, len(pattern), index + 1, 0, made):
        raise ConfigError("pattern", Code(code))
    pieces = [piece for number in range(made.count) for piece in _pieces(made.pieces[number])]
    return Message(index % 2 == 0, tokens, tuple(pieces), made.len)


def _pieces(piece: Any) -> list[Piece]:
    """A piece, and its tag apart."""
    start, length = getattr(piece, "from"), piece.len
    if not piece.encrypted:
        return [Piece(TOKENS[piece.token], start, length, False)]
    size = length - TAG_LEN
    return [Piece(TOKENS[piece.token], start, size, True), Piece("tag", start + size, TAG_LEN, False)]
