"""Secure channels by the Noise Protocol Framework (revision 34, with 25519, ChaChaPoly and SHA256).

open_connection and start_server are for asyncio, create_connection and create_server for its protocols, connect and
accept for sockets, Channel for anything else; and DatagramProtocol and DatagramChannel for UDP. Below them are
Handshake, Sender, Receiver, Datagrams and CipherState.
"""
from __future__ import annotations

from typing import TYPE_CHECKING, Any

from ._noise import ffi, lib
from .channel import Agreed, Channel, Data, End, Event, Pending
from .codes import MAX_DATAGRAM, MAX_MESSAGE, MAX_PAYLOAD, Code
from .config import Config
from .datagrams import DatagramChannel
from .errors import (
    CallError, ChannelCut, ConfigError, HandshakeTimeout, LowOrderKey, MessageRefused, NoiseError, PeerRefused,
    PskWanted,
)
from .handshake import Handshake
from .keys import DH, KeyPair
from .pattern import Fault, Layout, Message, Needs, Piece, check_pattern, layout
from .transport import CipherState, Datagrams, Receiver, Sender

if TYPE_CHECKING:
    from .sockets import NoiseSocket, accept, connect
    from .streams import Reader, Writer, create_connection, create_server, open_connection, start_server
    from .udp import DatagramPeer, DatagramProtocol

__version__ = "1.0.0"
__all__ = [
    "Agreed", "CallError", "Channel", "ChannelCut", "CipherState", "Code", "Config", "ConfigError", "DH", "Data",
    "DatagramChannel", "DatagramPeer", "DatagramProtocol", "Datagrams", "End", "Event", "Fault", "Handshake",
    "HandshakeTimeout", "KeyPair", "Layout", "LowOrderKey", "MAX_DATAGRAM", "MAX_MESSAGE", "MAX_PAYLOAD", "Message",
    "MessageRefused", "Needs", "NoiseError", "NoiseSocket", "PeerRefused", "Pending", "Piece", "PskWanted", "Reader",
    "Receiver", "Sender", "Writer", "accept", "check_pattern", "connect", "create_connection", "create_server",
    "layout", "open_connection", "start_server",
]

_STREAMS = {"Reader", "Writer", "create_connection", "create_server", "open_connection", "start_server"}
_SOCKETS = {"NoiseSocket", "accept", "connect"}
_UDP = {"DatagramPeer", "DatagramProtocol"}
_STRUCTS = ("handshake", "stream_sender", "stream_receiver", "sender", "receiver", "datagram_sender",
            "datagram_receiver", "cipher")


def __getattr__(name: str) -> Any:
    """Imports asyncio, and the module for sockets, only if they are used."""
    if name in _STREAMS:
        from . import streams
        return getattr(streams, name)
    if name in _SOCKETS:
        from . import sockets
        return getattr(sockets, name)
    if name in _UDP:
        from . import udp
        return getattr(udp, name)
    raise AttributeError(f"module {__name__!r} has no attribute {name!r}")


def __dir__() -> list[str]:
    return sorted({*globals(), *__all__})


def _compare() -> None:
    """Compares the library with the header that the package was built with."""
    if lib.noise_version() != lib.NOISE_VERSION:
        versions = [".".join(str(number >> shift & 255) for shift in (16, 8, 0))
                    for number in (lib.noise_version(), lib.NOISE_VERSION)]
        raise ImportError(f"yulimosar: the library has version {versions[0]}, and its header {versions[1]}")
    for name in _STRUCTS:
        if getattr(lib, f"noise_{name}_size")() != ffi.sizeof(f"noise_{name}"):
            raise ImportError(f"yulimosar: the library has another size of noise_{name} than its header")


_compare()
