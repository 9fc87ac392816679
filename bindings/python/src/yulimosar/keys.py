"""Key pairs of X25519."""
from __future__ import annotations

import functools
import os
from collections.abc import Awaitable
from typing import TYPE_CHECKING, Protocol, Self

from .codes import KEY_LEN
from .errors import LowOrderKey

if TYPE_CHECKING:
    from cryptography.hazmat.primitives.asymmetric.x25519 import X25519PrivateKey, X25519PublicKey


class DH(Protocol):
    """A key pair, whose secret key may be in a device: only results of X25519 are asked of it."""

    @property
    def public(self) -> bytes:
        """The public key, 32 bytes."""

    def agree(self, remote: bytes, /) -> bytes | Awaitable[bytes]:
        """X25519 of the secret key and the other party's public key. An exception ends the handshake, as zeros do."""


@functools.cache
def _base_point() -> X25519PublicKey:
    """X25519 of a secret key and this point is the public key (RFC 7748, 6.1)."""
    from cryptography.hazmat.primitives.asymmetric.x25519 import X25519PublicKey
    return X25519PublicKey.from_public_bytes(bytes([9, *bytes(31)]))


class KeyPair:
    """A key pair in memory, by the package `cryptography`. It is a DH."""

    __slots__ = ("_private", "public")

    def __init__(self, private: X25519PrivateKey) -> None:
        self._private: X25519PrivateKey | None = private
        self.public: bytes = private.exchange(_base_point())    # `public_key()` takes four times as long

    @classmethod
    def generate(cls) -> Self:
        """Draws a new key pair."""
        from cryptography.hazmat.primitives.asymmetric.x25519 import X25519PrivateKey
        return cls(X25519PrivateKey.generate())

    @classmethod
    def from_secret(cls, secret: bytes) -> Self:
        """The key pair of a secret key of 32 bytes."""
        from cryptography.hazmat.primitives.asymmetric.x25519 import X25519PrivateKey
        return cls(X25519PrivateKey.from_private_bytes(secret))

    @classmethod
    def from_file(cls, path: str | os.PathLike[str]) -> Self:
        """The key pair of a file that `python3 -m yulimosar keygen` has written: the secret key in 64 hex digits."""
        with open(path, encoding="ascii") as file:
            return cls.from_secret(key_of_digits(file.read()))

    def agree(self, remote: bytes, /) -> bytes:
        """X25519 of the secret key and a public key; LowOrderKey if that is zeros."""
        from cryptography.hazmat.primitives.asymmetric.x25519 import X25519PublicKey
        own = self._own()
        try:
            return own.exchange(X25519PublicKey.from_public_bytes(remote))
        except ValueError:
            raise LowOrderKey from None

    def secret(self) -> bytes:
        """The secret key: keep it from others."""
        from cryptography.hazmat.primitives.serialization import Encoding, NoEncryption, PrivateFormat
        return self._own().private_bytes(Encoding.Raw, PrivateFormat.Raw, NoEncryption())

    def _own(self) -> X25519PrivateKey:
        if self._private is None:
            raise ValueError("the key pair is closed")
        return self._private

    def close(self) -> None:
        """Gives the secret key back to OpenSSL, which overwrites it."""
        self._private = None

    def __repr__(self) -> str:
        return f"<KeyPair {self.public.hex()}>"

    def __reduce__(self) -> str:
        raise TypeError("a KeyPair isn't copied: use secret() and from_secret()")


def key_of_digits(digits: str) -> bytes:
    """The 32 bytes of 64 hex digits."""
    key = bytes.fromhex(digits.strip())
    if len(key) != KEY_LEN:
        raise ValueError("not 64 hex digits")
    return key
