"""The rules for datagrams, by vectors/datagrams.json, which an independent program makes."""
import json
import os
from pathlib import Path

import pytest

from yulimosar import rules
from yulimosar.rules import First, Kind

TOP = Path(os.environ.get("NOISE_TOP") or Path(__file__).resolve().parents[3])
FILE = TOP / "vectors/datagrams.json"
pytestmark = pytest.mark.skipif(not FILE.exists(), reason="vectors/datagrams.json isn't part of the distribution")
CASES = json.loads(FILE.read_text()) if FILE.exists() else {}


def each(name):
    return pytest.mark.parametrize("case", CASES.get(name, []), ids=lambda case: str(list(case.values()))[1:60])


@each("kinds")
def test_kinds(case):
    first = b"" if case["firstByte"] is None else bytes([case["firstByte"]])
    assert rules.kind(first.ljust(case["length"], b"\7"), case["messages"]) == Kind(case["kind"])


@each("hosts")
def test_hosts(case):
    ends = () if "." in case["ip"] and ":" not in case["ip"] else (0, 0)
    for port in (0, 4045, 65535):
        assert rules.host((case["ip"], port, *ends)).hex() == case["host"]


def test_addresses_of_other_networks():
    assert rules.address_bytes("/a/socket") == b"\0/a/socket" == rules.host("/a/socket")
    assert rules.address_bytes(b"\0abstract") == b"\0\0abstract"
    assert rules.address_bytes(("a name", 5)) != rules.address_bytes(("a name", 6))
    assert rules.address_bytes(("fe80::1%eth0", 1, 0, 2)) == rules.address_bytes(("fe80::1", 1))


@each("cookies")
def test_cookies(case):
    secret, message, address = bytes.fromhex(case["secret"]), bytes.fromhex(case["message"]), (case["ip"], case["port"])
    made = rules.cookie(secret, address, message)
    assert (made.hex(), rules.address_bytes(address).hex()) == (case["cookie"], case["address"])
    assert rules.reply(message, made).hex() == case["reply"]
    assert rules.with_cookie(made, message).hex() == case["again"]
    assert rules.kind(rules.reply(message, made), 2) == Kind.COOKIE_REPLY


@each("replies")
def test_replies(case):
    found = rules.cookie_of(bytes.fromhex(case["reply"]), bytes.fromhex(case["message"]))
    assert (found and found.hex()) == case["cookie"]


def test_secrets():
    case = CASES["secrets"]
    drawn = iter(map(bytes.fromhex, case["secrets"]))
    cookies = rules.Cookies(lambda _count: next(drawn))
    for step in case["steps"]:
        made = bytes.fromhex(step["cookie"])
        accepted = cookies.accept(made, (case["ip"], case["port"]), bytes.fromhex(case["message"]),
                                  step["milliseconds"] / 1000)
        assert accepted == step["accepted"], step
    assert not list(drawn)


def test_a_cookie_is_made_by_the_newest_secret():
    cookies = rules.Cookies()
    made = [cookies.make(("192.0.2.1", 1), b"x", now) for now in (0, 119, 120, 240)]
    assert made[0] == made[1] and len(set(made)) == 3


def test_rates():
    rate = rules.Rate()
    for step in CASES["rates"]:
        got = [rate.allow(step["host"].encode(), step["milliseconds"] / 1000) for _ in range(step["count"])]
        assert sum(got) == step["begin"], step


@each("firsts")
def test_firsts(case):
    *words, does = case.values()
    assert rules.first_message(*words) == First(does)


@each("sends")
def test_sends(case):
    *words, may = case.values()
    assert rules.may_send(*words) == may


@each("givesWay")
def test_gives_way(case):
    assert rules.gives_way([(it["host"].encode(), it["done"]) for it in case["begun"]]) == case["place"]


@each("moves")
def test_moves(case):
    newest = -1 if case["newest"] is None else int(case["newest"], 16)
    assert rules.moves(int(case["nonce"], 16), newest) == case["moves"]


@each("indices")
def test_indices(case):
    assert rules.index_of(bytes.fromhex(case["lastMessage"])).hex() == case["index"]
