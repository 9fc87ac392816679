"""Joins standard input and output to a channel: python3 -m yulimosar connect or listen; and keygen, pubkey.

The status is 0 if both parties have ended their streams, 1 after a fault, with a sentence on standard error, and 2
after wrong options.
"""
from __future__ import annotations

import argparse
import contextlib
import os
import queue
import socket
import sys
import threading
from pathlib import Path

from . import __version__
from .codes import MAX_PAYLOAD, Code
from .config import Config
from .errors import CallError, ConfigError, NoiseError
from .keys import KeyPair, key_of_digits
from .sockets import NoiseSocket, accept, connect

SECONDS = 30.0    # that connecting and a handshake may take
AT_ONCE = 64      # how many handshakes of a listener run at once, so that strangers take little

EXAMPLES = """
  python3 -m yulimosar keygen -o server.key        prints the public key, too
  python3 -m yulimosar pubkey server.key           prints it again
  python3 -m yulimosar listen :9000 --key server.key --peer THE_CLIENTS_KEY
  python3 -m yulimosar connect host:9000 --key client.key --peer THE_SERVERS_KEY
"""


def main() -> None:
    """The command."""
    options = _parser().parse_args()
    try:
        if options.what == "keygen":
            _keygen(options.output)
        elif options.what == "pubkey":
            print(KeyPair.from_file(options.file).public.hex())
        else:
            _join(options)
    except (NoiseError, OSError, ValueError) as fault:
        print(f"yulimosar: {fault}", file=sys.stderr)
        sys.exit(2 if isinstance(fault, ConfigError) else 1)
    except KeyboardInterrupt:
        sys.exit(130)


def _parser() -> argparse.ArgumentParser:
    parser = argparse.ArgumentParser(
        prog="python3 -m yulimosar", epilog="examples:" + EXAMPLES,
        formatter_class=argparse.RawDescriptionHelpFormatter,
        description="Joins standard input and output to a secure channel by the Noise Protocol Framework.")
    parser.add_argument("--version", action="version", version=f"yulimosar {__version__}")
    kinds = parser.add_subparsers(dest="what", required=True)
    keygen = kinds.add_parser("keygen", help="make a static key; the public key goes to standard error")
    keygen.add_argument("-o", dest="output", metavar="FILE", help="write it to this new file")
    pubkey = kinds.add_parser("pubkey", help="print the public key of a key file")
    pubkey.add_argument("file", metavar="FILE", help="the static key that keygen wrote")
    for name, text in (("connect", "connect to HOST:PORT"),
                       ("listen", "take the first connection at [HOST]:PORT whose handshake succeeds")):
        kind = kinds.add_parser(name, help=text)
        kind.add_argument("address", metavar="[HOST]:PORT", type=_address)
        kind.add_argument("--key", metavar="FILE", help="the static key that keygen wrote")
        kind.add_argument("--peer", metavar="KEY", action="append", default=[], type=_digits,
                          help="accept the other party if it has this public key (hex); may be repeated")
        kind.add_argument("--any", action="store_true", help="talk to anybody")
        kind.add_argument("--pattern", default="XX", help="a pattern, as IK or XXpsk3, or @FILE with a pattern text")
        kind.add_argument("--psk", metavar="FILE", action="append", default=[],
                          help="a secret, 64 hex digits; once for each psk token")
        kind.add_argument("--prologue", default="", help="the text that both parties have agreed on")
        kind.add_argument("--interval", type=int, default=0, help="rekey after so many messages; 0 is never")
        kind.add_argument("-v", dest="verbose", action="store_true", help="show what the handshake has agreed on")
    return parser


def _address(text: str) -> tuple[str, int]:
    host, colon, port = text.rpartition(":")
    if not colon or not port.isdigit():
        raise argparse.ArgumentTypeError(f"not [HOST]:PORT: {text}")
    return host.strip("[]"), int(port)


def _digits(text: str) -> bytes:
    try:
        return key_of_digits(text)
    except ValueError:
        raise argparse.ArgumentTypeError(f"not 64 hex digits: {text}") from None


def _keygen(output: str | None) -> None:
    pair = KeyPair.generate()
    line = f"{pair.secret().hex()}\n"
    if output is None:
        sys.stdout.write(line)
    else:
        with open(os.open(output, os.O_WRONLY | os.O_CREAT | os.O_EXCL, 0o600), "w", encoding="ascii") as file:
            file.write(line)
    print(f"public key: {pair.public.hex()}", file=sys.stderr)


def _config(options: argparse.Namespace) -> Config:
    pattern = options.pattern
    peers: list[bytes] = options.peer
    return Config(
        pattern=Path(pattern[1:]).read_text(encoding="utf-8") if pattern.startswith("@") else pattern,
        prologue=options.prologue.encode(),
        key=KeyPair.from_file(options.key) if options.key else None,
        peer_key=peers[0] if len(peers) == 1 else None,
        verify=(lambda key: key in peers) if len(peers) > 1 else None,
        accept_any_key=options.any,
        psks=[key_of_digits(Path(name).read_text(encoding="ascii")) for name in options.psk],
        interval=options.interval,
        handshake_timeout=SECONDS,
    )


def _join(options: argparse.Namespace) -> None:
    config = _config(options)
    config.check(options.what == "connect")
    if options.what == "connect":
        sock = socket.create_connection(options.address, SECONDS)
        sock.settimeout(None)
        channel = connect(sock, config)
    else:
        family = socket.AF_INET6 if ":" in options.address[0] else socket.AF_INET
        with socket.create_server(options.address, family=family) as listener:
            host, port = listener.getsockname()[:2]
            if options.verbose or not options.address[1]:
                print(f"listening on {host}:{port}", file=sys.stderr)
            channel = _Handshakes(listener, config).first()
    if options.verbose:
        key = channel.noise.peer_key
        print(f"{channel.noise.protocol}\nhandshake hash: {channel.noise.hash.hex()}\n"
              f"peer's key: {key.hex() if key else '-'}", file=sys.stderr)
    channel._resets = True    # after a fault, so that the other party's status isn't 0
    try:
        _carry(channel)
        _part(channel._sock)
    except BaseException:
        channel._shut()
        raise
    channel._resets = False
    channel.close()


class _Handshakes:
    """The handshakes of those who connect to a listener, side by side. Where there are too many, the oldest gives way,
    first of those that have said nothing. Failures are reported on standard error."""

    def __init__(self, listener: socket.socket, config: Config) -> None:
        self._listener, self._config = listener, config
        self._made: queue.SimpleQueue[NoiseSocket] = queue.SimpleQueue()
        self._silent: dict[socket.socket, None] = {}    # the oldest first
        self._others: dict[socket.socket, None] = {}
        self._gave_way: set[socket.socket] = set()
        self._over, self._lock = False, threading.Lock()

    def first(self) -> NoiseSocket:
        """The first channel whose handshake succeeds."""
        self._listener.settimeout(0.1)
        while True:
            with contextlib.suppress(queue.Empty):
                return self._made.get_nowait()
            with contextlib.suppress(TimeoutError):
                sock, peer = self._listener.accept()
                self._make_place(sock)
                threading.Thread(target=self._shake, args=(sock, peer), daemon=True).start()

    def _make_place(self, sock: socket.socket) -> None:
        with self._lock:
            if len(self._silent) + len(self._others) >= AT_ONCE:
                places = self._silent or self._others
                oldest = next(iter(places))
                del places[oldest]
                self._gave_way.add(oldest)
                with contextlib.suppress(OSError):
                    oldest.shutdown(socket.SHUT_RDWR)    # which ends its thread
            self._silent[sock] = None

    def _shake(self, sock: socket.socket, peer: tuple[str, int]) -> None:
        try:
            sock.settimeout(SECONDS)
            sock.recv(1, socket.MSG_PEEK)
            sock.settimeout(None)
            with self._lock:
                if sock in self._silent:
                    del self._silent[sock]
                    self._others[sock] = None
            channel = accept(sock, self._config)
            self._hand_over(sock, channel)
        except Exception as fault:
            sock.close()
            if not self._over:
                text = "gave way to a newer connection" if sock in self._gave_way else str(fault)
                print(f"yulimosar: {peer[0]}:{peer[1]}: {text}", file=sys.stderr)
        finally:
            with self._lock:
                self._silent.pop(sock, None)
                self._others.pop(sock, None)
                self._gave_way.discard(sock)

    def _hand_over(self, sock: socket.socket, channel: NoiseSocket) -> None:
        with self._lock:
            if self._over or self._others.pop(sock, False) is False:    # it gave way meanwhile
                channel.abort()
            else:
                self._over = True
                self._made.put(channel)


def _carry(channel: NoiseSocket) -> None:
    """Moves standard input and output, until both parties have ended their streams."""
    faults: list[Exception] = []
    sender = threading.Thread(target=_send, args=(channel, faults), daemon=True)
    sender.start()
    try:
        _receive(channel)
        sender.join()
    except NoiseError:
        if not faults:
            raise
    if faults:
        raise faults[0]


def _send(channel: NoiseSocket, faults: list[Exception]) -> None:
    try:
        while data := os.read(0, MAX_PAYLOAD):
            channel.sendall(data)
        channel.shutdown(socket.SHUT_WR)
    except Exception as fault:
        if not (isinstance(fault, CallError) and fault.code == Code.ONE_WAY):
            faults.append(fault)
            with contextlib.suppress(OSError):
                channel._sock.shutdown(socket.SHUT_RD)    # ends `recv`


def _receive(channel: NoiseSocket) -> None:
    out = sys.stdout.buffer
    try:
        while data := channel.recv(MAX_PAYLOAD):
            out.write(data)
            out.flush()
    except CallError as fault:
        if fault.code != Code.ONE_WAY:
            raise
    os.close(1)    # a filter behind it gets its end


def _part(sock: socket.socket) -> None:
    """Ends the connection, and waits until the other party does: after a fault that party resets it."""
    sock.shutdown(socket.SHUT_WR)
    sock.settimeout(30)
    while sock.recv(4096):
        pass


if __name__ == "__main__":
    main()
