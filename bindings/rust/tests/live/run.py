#!/usr/bin/env python3
"""Runs the ends of one package against each other and against other implementations, over TCP on 127.0.0.1: run.py
WORD=PROGRAM.. -- WORD=PROGRAM.., the package's own first. WORD is a name, and PROGRAM a command that takes the words of
examples/live/main.rs; its last word may be "async" or "websocket".

Each pattern, in both roles, with 1 MB each way at once and both parties closing in each order. Then again with less
bytes behind a relay that flips, cuts, repeats or drops one byte. What each side reports is compared with the theorem on
streams: it has read the first of what the other has written; it reports an end only if the other has ended its stream
and all of it came, and else a refused message or a cut; and after that it ends nothing. NOISE_LIVE=short takes for each
pair of programs and pattern one order, another for the next, and fewer places of a fault.
"""

import concurrent.futures
import itertools
import os
import re
import secrets
import shlex
import socket
import subprocess
import sys
import threading

from cryptography.hazmat.primitives import serialization
from cryptography.hazmat.primitives.asymmetric.x25519 import X25519PrivateKey

SECONDS = 240
IDLE = 0.7  # after so long a relay that has struck closes the connection
SIZE, SMALL = 1_000_000, 700
PATTERNS = ["XX", "IK", "NNpsk0", "XXpsk3", "IKpsk2", "KK"]
ORDERS = [("first", "last"), ("last", "first"), ("first", "first")]
FAULTS = ["flip", "cut", "repeat", "drop"]
MODES = {"async", "websocket"}
RAW = (serialization.Encoding.Raw, serialization.PublicFormat.Raw)


class Direction:
    """What passes one way, with one fault, or none, at a byte."""

    def __init__(self, fault=None, at=None):
        self.fault, self.at = fault, at
        self.sent, self.is_struck, self.is_whole = 0, False, True
        self.repeated = set()  # the byte that is there twice

    def pass_on(self, data):
        """The bytes to pass on, and whether the connection is cut after them."""
        start, self.sent = self.sent, self.sent + len(data)
        if self.is_struck:
            self.is_whole = self.is_whole and set(data) <= self.repeated
        if self.fault is None or not start <= self.at < self.sent:
            return data, False
        place, self.is_struck = self.at - start, True
        before, byte, after = data[:place], data[place : place + 1], data[place + 1 :]
        self.repeated = set(byte) if self.fault == "repeat" else set()
        self.is_whole = self.fault == "repeat" and set(after) <= self.repeated  # then it comes after the end
        changed = {"flip": bytes([byte[0] ^ 1 << self.at % 8]), "cut": b"", "repeat": byte * 2, "drop": b""}[self.fault]
        return before + changed + (b"" if self.fault == "cut" else after), self.fault == "cut"


class Relay:
    """Stands between a client and a server."""

    def __init__(self, server, directions):
        self.server, self.directions = server, directions
        self.listener = socket.create_server(("127.0.0.1", 0))
        self.address = "127.0.0.1:%d" % self.listener.getsockname()[1]
        self.thread = threading.Thread(target=self.run, daemon=True)
        self.thread.start()

    def run(self):
        client = self.listener.accept()[0]
        host, port = self.server.rsplit(":", 1)
        server = socket.create_connection((host, int(port)))
        with client, server:
            ways = [(client, server, self.directions[0]), (server, client, self.directions[1])]
            threads = [threading.Thread(target=self.carry, args=way, daemon=True) for way in ways]
            for thread in threads:
                thread.start()
            for thread in threads:
                thread.join()

    def carry(self, source, sink, direction):
        source.settimeout(IDLE)
        try:
            while data := self.receive(source):
                data, is_cut = direction.pass_on(data)
                sink.sendall(data)
                if is_cut:
                    break
            sink.shutdown(socket.SHUT_WR)
        except OSError:
            for one in (source, sink):
                with_shutdown(one)

    def receive(self, source):
        """Some bytes; where a fault was struck, and nothing comes, none."""
        while True:
            try:
                return source.recv(65536)
            except TimeoutError:
                if any(direction.is_struck for direction in self.directions):
                    return b""


def with_shutdown(connection):
    try:
        connection.shutdown(socket.SHUT_RDWR)
    except OSError:
        pass


class Report:
    """The last line that a party has printed."""

    def __init__(self, line):
        found = re.fullmatch(r"wrote (\d+) (ended|open), read (\d+) (end|cut|refused|lost)", line)
        assert found, f"it prints {line!r}"
        self.wrote, self.has_ended = int(found[1]), found[2] == "ended"
        self.read, self.end = int(found[3]), found[4]

    def __str__(self):
        return f"wrote {self.wrote} {'ended' if self.has_ended else 'open'}, read {self.read} {self.end}"


def key():
    pair = X25519PrivateKey.generate()
    return (
        pair.private_bytes(RAW[0], serialization.PrivateFormat.Raw, serialization.NoEncryption()).hex(),
        pair.public_key().public_bytes(*RAW).hex(),
    )


def pass_session(programs, pattern, orders, size, directions):
    """Passes a session of an initiator and a responder, and returns what each has reported."""
    pairs, psk = [key(), key()], secrets.token_hex(32) if "psk" in pattern else "-"
    words = [[*shlex.split(program)] for program in programs]
    tail = [[order, str(size)] + [it for it in word[-1:] if it in MODES] for order, word in zip(orders, words)]
    words = [word[:-1] if word[-1] in MODES else word for word in words]
    server = [*words[1], pattern, pairs[1][0], pairs[0][1], psk, "@127.0.0.1:0", *tail[1]]
    with subprocess.Popen(server, stdout=subprocess.PIPE, text=True) as responder:
        relay = Relay(responder.stdout.readline().strip(), directions)
        client = [*words[0], pattern, pairs[0][0], pairs[1][1], psk, relay.address, *tail[0]]
        try:
            initiator = subprocess.run(client, stdout=subprocess.PIPE, text=True, timeout=SECONDS, check=True)
            said = responder.communicate(timeout=SECONDS)[0]
            assert responder.returncode == 0, "the responder failed"
        finally:
            responder.kill()
            relay.listener.close()
    relay.thread.join(SECONDS)
    return Report(initiator.stdout.strip()), Report(said.strip())


def compare(reports, orders, size, directions, is_framed):
    """Compares what the parties tell with the theorem on streams. A WebSocket has bytes that aren't the channel's: a
    fault there may damage nothing."""
    is_damaged = any(direction.is_struck for direction in directions)  # a byte after the end may reset the connection
    for index, own in enumerate(reports):
        other, came = reports[1 - index], directions[1 - index]
        assert own.read <= other.wrote, "it has read what wasn't written"
        if own.end == "end":
            assert other.wrote == size and own.read == size and (came.is_whole or is_framed), "an end that isn't one"
        else:
            assert is_damaged, "no end, and nothing was damaged"
            assert orders[index] == "first" or not own.has_ended, "it has ended its stream after a refusal"
        assert is_damaged or own.has_ended


def session(names, programs, pattern, orders, size, faults=(None, None)):
    directions = [Direction(*(fault or ())) for fault in faults]
    what = f"{names[0]} and {names[1]}, {pattern}, {orders}, {size} bytes, {faults}"
    try:
        reports = pass_session(programs, pattern, orders, size, directions)
    except Exception as error:
        raise AssertionError(f"{what}: {error}") from error
    try:
        compare(reports, orders, size, directions, all(program.endswith("websocket") for program in programs))
    except AssertionError as error:
        raise AssertionError(f"{what}: {error}: {reports[0]}; {reports[1]}") from error
    return [direction.sent for direction in directions]


def struck(names, programs, number, parts):
    """Sessions of one pair with each fault, at places over all of what each direction has."""
    pattern, orders = PATTERNS[number % len(PATTERNS)], ORDERS[number % len(ORDERS)]
    sent = session(names, programs, pattern, orders, SMALL)
    for way, fault, part in itertools.product((0, 1), FAULTS, range(parts)):
        faults = [None, None]
        faults[way] = (fault, (sent[way] - 1) * (part * 5 + number % 5) // (parts * 5 - 1))
        session(names, programs, pattern, orders, SMALL, tuple(faults))
    return 2 * len(FAULTS) * parts


def main():
    is_short = os.environ.get("NOISE_LIVE") == "short"
    split = sys.argv.index("--")
    ours, others = (dict(word.split("=", 1) for word in words) for words in (sys.argv[1:split], sys.argv[split + 1 :]))
    programs = {**others, **ours}
    pairs = [pair for own in ours for other in programs for pair in ((own, other), (other, own))]
    runs = list(itertools.product(dict.fromkeys(pairs), PATTERNS, ORDERS))
    if is_short:
        runs = [run for i, run in enumerate(runs) if i % 3 == i // 18 % 3]
    with concurrent.futures.ThreadPoolExecutor(6) as pool:
        plain = [
            pool.submit(session, names, [programs[name] for name in names], pattern, orders, SIZE)
            for names, pattern, orders in runs
        ]
        for it in plain:
            it.result()
        print(f"{len(plain)} sessions with {', '.join(others)}", flush=True)
        damaged = [
            pool.submit(struck, names, [programs[name] for name in names], i, 1 if is_short else 4)
            for i, names in enumerate(dict.fromkeys(pairs))
        ]
        print(f"{sum(it.result() for it in damaged)} sessions behind a relay")


main()
