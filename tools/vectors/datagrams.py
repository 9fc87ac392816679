#!/usr/bin/env python3
"""Makes vectors/datagrams.json: cases for the rules of docs/UDP.md that need no keys of a handshake. Nothing here is of
a package: the MACs are of Python's hmac, the addresses of ipaddress, and what is decided stands here as a table.

    datagrams.py           writes the file
    datagrams.py --check   compares it, and checks it against vectors/datagrams_schema.json
"""

from __future__ import annotations

import hashlib
import hmac
import ipaddress
import json
import sys
from pathlib import Path
from typing import Any

TOP = Path(__file__).resolve().parent.parent.parent
FILE = TOP / "vectors/datagrams.json"
MESSAGE = bytes(range(32))
LONG = bytes(range(256)) * 4
SECRETS = [bytes([16 + n] * 32) for n in range(5)]
MOST = 2**64 - 1

# First byte, length, messages of the pattern, and what it is.
KINDS = [
    (None, 0, 3, "none"),
    (0, 1, 3, "message"), (0, 33, 3, "message"), (1, 97, 3, "message"), (2, 65, 3, "message"), (3, 65, 3, "none"),
    (1, 49, 2, "message"), (2, 49, 2, "none"), (7, 100, 8, "message"), (7, 100, 7, "none"),
    (8, 32, 3, "none"), (8, 33, 3, "transport"), (8, 34, 8, "transport"), (8, 65507, 2, "transport"), (8, 1, 3, "none"),
    (9, 32, 3, "none"), (9, 33, 3, "cookie reply"), (9, 34, 3, "none"), (9, 1, 3, "none"), (9, 66, 3, "none"),
    (10, 16, 3, "none"), (10, 17, 3, "none"), (10, 18, 3, "with cookie"), (10, 49, 3, "with cookie"),
    (10, 49, 8, "with cookie"), (11, 33, 3, "none"), (16, 33, 8, "none"), (255, 100, 3, "none"), (254, 49, 3, "none"),
]  # fmt: skip

# Half-done handshakes, from how many on a cookie is needed, whether a right one came, the datagram's bytes, the bytes
# of the answer, and what is done.
FIRSTS = [
    (0, 16, False, 33, 97, "answer"), (0, 16, False, 33, 99, "answer"), (0, 16, False, 33, 100, "cookie"),
    (15, 16, False, 33, 97, "answer"), (16, 16, False, 33, 97, "cookie"), (17, 16, False, 33, 97, "cookie"),
    (255, 16, False, 1400, 97, "cookie"), (16, 16, True, 49, 97, "answer"), (256, 16, True, 49, 5000, "answer"),
    (0, 0, False, 33, 49, "cookie"), (0, 0, True, 49, 49, "answer"), (255, 256, False, 33, 97, "answer"),
    (256, 256, False, 33, 97, "cookie"), (0, 16, False, 97, 49, "answer"), (0, 16, False, 49, 147, "answer"),
    (0, 16, False, 49, 148, "cookie"), (16, 16, False, 11, 33, "cookie"), (16, 16, False, 10, 30, "none"),
    (0, 16, False, 10, 31, "none"), (0, 16, False, 10, 30, "answer"), (0, 16, False, 1, 4, "none"),
    (0, 16, True, 18, 65536, "answer"),
]  # fmt: skip

# Bytes that came, bytes that went, the bytes of the next datagram, whether the address has shown itself, and whether
# they may go.
SENDS = [
    (33, 0, 97, False, True), (33, 0, 99, False, True), (33, 0, 100, False, False), (33, 97, 2, False, True),
    (33, 97, 3, False, False), (66, 97, 97, False, True), (66, 97, 101, False, True), (66, 97, 102, False, False),
    (0, 0, 1, False, False), (0, 0, 0, False, True), (0, 0, 1, True, True), (33, 1000, 97, True, True),
    (33, 1000, 97, False, False), (11, 0, 33, False, True), (10, 0, 33, False, False), (65507, 0, 196521, False, True),
    (65507, 0, 196522, False, False),
]  # fmt: skip

# The hosts of the handshakes that are half-done, or done (in capitals), the oldest first; and which is closed.
BEGUN = [
    ("a", 0), ("ab", 0), ("ba", 0), ("abb", 1), ("aabbb", 2), ("abab", 0), ("baab", 0), ("abcabca", 0), ("cabbb", 2),
    ("A", 0), ("Ab", 1), ("AAAb", 3), ("AB", 0), ("BAA", 1), ("Aab", 1), ("AAbcc", 3), ("aBBBc", 0), ("bAbAa", 0),
    ("abcdeffedcb", 1), ("aaaaB", 0), ("xyzzyx", 0), ("xyzzyxzy", 1),
]  # fmt: skip

# Milliseconds, a host, how many of its handshakes come with a right cookie then, and how many of them begin.
RATES = [
    (5000, "a", 10, 10), (5100, "a", 22, 22), (5100, "a", 1, 0), (5999, "a", 5, 0), (5999, "b", 33, 32),
    (6000, "a", 40, 32), (6500, "b", 1, 1), (9000, "b", 31, 31), (9001, "b", 2, 1), (9999, "a", 32, 32),
]  # fmt: skip

# IP addresses, and what they are counted by.
HOSTS = [
    ("192.0.2.1", "c0000201"), ("192.0.2.255", "c00002ff"), ("0.0.0.0", "00000000"), ("127.0.0.1", "7f000001"),
    ("::ffff:192.0.2.1", "c0000201"), ("2001:db8::1", "20010db800000000"), ("2001:db8:0:1::1", "20010db800000001"),
    ("2001:db8:0:1:ffff:ffff:ffff:ffff", "20010db800000001"), ("::1", "0000000000000000"),
    ("fe80::1", "fe80000000000000"), ("::192.0.2.1", "0000000000000000"), ("::fffe:192.0.2.1", "0000000000000000"),
    ("1:2:3:4:5:6:7:8", "0001000200030004"),
]  # fmt: skip

# A nonce, the greatest one before it (-1: none), and whether the session's address becomes that of its datagram.
MOVES = [
    (0, -1, True), (1, 0, True), (0, 0, False), (5, 7, False), (7, 7, False), (8, 7, True),
    (2**32, 2**32 - 1, True), (MOST - 1, 2**63, True), (2**63, 2**63 - 1, True), (2**63, MOST - 1, False),
]  # fmt: skip


def address(ip: str, port: int) -> bytes:
    at = ipaddress.ip_address(ip)
    if isinstance(at, ipaddress.IPv6Address) and at.ipv4_mapped is not None:
        at = at.ipv4_mapped
    return (b"\4" if at.version == 4 else b"\6") + at.packed + port.to_bytes(2, "big")


def cookie(secret: bytes, ip: str, port: int, message: bytes) -> bytes:
    text = address(ip, port) + hashlib.sha256(message).digest()
    return hmac.new(secret, text, hashlib.sha256).digest()[:16]


def reply(message: bytes, made: bytes) -> bytes:
    return b"\x09" + hashlib.sha256(message).digest()[:16] + made


def kinds() -> list[dict[str, Any]]:
    return [
        {"firstByte": first, "length": length, "messages": messages, "kind": kind}
        for first, length, messages, kind in KINDS
    ]


def cookies() -> list[dict[str, Any]]:
    """Each differs from another in one thing."""
    cases = [
        (SECRETS[0], "192.0.2.1", 4045, MESSAGE), (SECRETS[1], "192.0.2.1", 4045, MESSAGE),
        (SECRETS[0], "192.0.2.2", 4045, MESSAGE), (SECRETS[0], "192.0.2.1", 4046, MESSAGE),
        (SECRETS[0], "192.0.2.1", 4045, MESSAGE + b"\0"), (SECRETS[0], "192.0.2.1", 4045, b"\1" + MESSAGE[1:]),
        (SECRETS[0], "192.0.2.1", 4045, LONG), (SECRETS[0], "192.0.2.1", 65535, MESSAGE),
        (SECRETS[0], "0.0.0.0", 0, b"\0"),
        (SECRETS[0], "2001:db8::1", 4045, MESSAGE), (SECRETS[0], "2001:db8::2", 4045, MESSAGE),
        (SECRETS[0], "::ffff:192.0.2.1", 4045, MESSAGE), (SECRETS[0], "fe80::1", 1, MESSAGE),
    ]  # fmt: skip
    made = []
    for secret, ip, port, message in cases:
        text = cookie(secret, ip, port, message)
        made.append({
            "secret": secret.hex(), "ip": ip, "port": port, "address": address(ip, port).hex(),
            "message": message.hex(), "cookie": text.hex(), "reply": reply(message, text).hex(),
            "again": (b"\x0a" + text + message).hex(),
        })  # fmt: skip
    return made


def replies() -> list[dict[str, Any]]:
    """What an initiator does with a reply: it keeps the cookie, or it drops one for another message."""
    right = reply(MESSAGE, bytes([7] * 16))
    made: list[dict[str, Any]] = [{"reply": right.hex(), "message": MESSAGE.hex(), "cookie": right[17:].hex()}]
    for place in (1, 8, 16):
        wrong = bytearray(right)
        wrong[place] ^= 1
        made.append({"reply": wrong.hex(), "message": MESSAGE.hex(), "cookie": None})
    made.append({"reply": right.hex(), "message": (MESSAGE + b"\0").hex(), "cookie": None})
    made.append({"reply": right.hex(), "message": (b"\0" + MESSAGE).hex(), "cookie": None})
    other = bytearray(right)
    other[17] ^= 1    # any cookie is kept: only the responder can tell whether it is right
    made.append({"reply": other.hex(), "message": MESSAGE.hex(), "cookie": other[17:].hex()})
    return made


def secrets() -> dict[str, Any]:
    """A responder draws its secrets in this order, and is asked at these milliseconds. The last two secrets are drawn
    after pauses: of 760 s, and of 239 s, in which the one before goes on being right."""
    def at(second: float, number: int, accepted: bool) -> dict[str, Any]:
        made = cookie(SECRETS[number], "192.0.2.1", 4045, MESSAGE)
        return {"milliseconds": round(second * 1000), "cookie": made.hex(), "accepted": accepted}

    steps = [at(1000, 0, True), at(1119.999, 0, True), at(1119.999, 1, False), at(1120, 0, True), at(1120, 1, True),
             at(1239.999, 0, True), at(1240, 0, False), at(1240, 1, True), at(1240, 2, True), at(2000, 1, False),
             at(2000, 2, False), at(2000, 3, True), at(2239, 3, True), at(2239, 4, True), at(2239.999, 3, True),
             at(2240, 3, False), at(2358.999, 4, True)]  # fmt: skip
    return {"ip": "192.0.2.1", "port": 4045, "message": MESSAGE.hex(), "secrets": [it.hex() for it in SECRETS],
            "steps": steps}  # fmt: skip


def words(names: tuple[str, ...], rows: list[Any]) -> list[dict[str, Any]]:
    return [dict(zip(names, row)) for row in rows]


def whole() -> dict[str, Any]:
    begun = [([{"host": it.lower(), "done": it.isupper()} for it in hosts], place) for hosts, place in BEGUN]
    places = [(f"{nonce:016x}", None if newest < 0 else f"{newest:016x}", moved) for nonce, newest, moved in MOVES]
    return {
        "schema": "datagrams_schema.json",
        "page": "docs/UDP.md",
        "kinds": kinds(),
        "hosts": words(("ip", "host"), HOSTS),
        "cookies": cookies(),
        "replies": replies(),
        "secrets": secrets(),
        "firsts": words(("halfDone", "busy", "shown", "came", "answer", "does"), FIRSTS),
        "sends": words(("came", "sent", "length", "shown", "may"), SENDS),
        "rates": words(("milliseconds", "host", "count", "begin"), RATES),
        "givesWay": words(("begun", "place"), begun),
        "moves": words(("nonce", "newest", "moves"), places),
        "indices": [
            {"lastMessage": it.hex(), "index": it.hex()[-16:]}
            for it in (MESSAGE, LONG, MESSAGE[:16], bytes(48) + b"\1")
        ],
    }


def text() -> str:
    """A line for each case."""
    lines = []
    for name, value in whole().items():
        if isinstance(value, list):
            inside = ",\n  ".join(json.dumps(it) for it in value)
            lines.append(f' "{name}": [\n  {inside}\n ]')
        else:
            lines.append(f' "{name}": {json.dumps(value)}')
    return "{\n" + ",\n".join(lines) + "\n}\n"


def check() -> int:
    sys.path.insert(0, str(TOP / "checks/suite"))
    from schema import Schema    # type: ignore[import-not-found]
    schema = json.loads((TOP / "vectors/datagrams_schema.json").read_text("ascii"))
    faults = Schema(schema).faults(json.loads(FILE.read_text("ascii")), schema, "datagrams")
    if FILE.read_text("ascii") != text():
        faults.append("vectors/datagrams.json isn't what tools/vectors/datagrams.py makes")
    print("\n".join(faults), end="\n" if faults else "")
    print(f"datagrams: {sum(len(it) for it in whole().values() if isinstance(it, list))} cases, {len(faults)} faults")
    return int(bool(faults))


if __name__ == "__main__":
    if sys.argv[1:] == ["--check"]:
        sys.exit(check())
    FILE.write_text(text(), "ascii")
