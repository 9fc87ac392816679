#!/usr/bin/env python3
"""Makes the suite of test vectors.

    make.py PROGRAM FOLDER          writes the suite into FOLDER; PROGRAM is the command `noise`, which says what is
                                    right
    make.py PROGRAM FOLDER EVERY    makes each so-many-th part again, and compares it with the suite in FOLDER

The keys are drawn of a seed (`group.SEED`), and X25519 is computed by `cryptography`. A test that was in FOLDER before
keeps its number, and a number that a test has had is never that of another.
"""

from __future__ import annotations

import json
import sys
from collections import Counter
from collections.abc import Callable
from concurrent.futures import ThreadPoolExecutor
from pathlib import Path
from typing import Any

import cases
import patterns
import special
import starts
import transport
import wrong
from command import Command
from flags import notes
from group import Group, draw
from patterns import SUITE, Protocol

Made = list[dict[str, Any]]
# The pattern that the other party has in its place.
OTHERS = dict(
    N="X", K="N", X="N", NN="NX", NK="XK", NX="NN", KN="KX", KK="IK", KX="KN", XN="IN", XK="IK", XX="IX", IN="XN",
    IK="KK", IX="XX",
)
NAME, SHARED_NAME = "25519_ChaChaPoly_SHA256.json", "25519_ChaChaPoly_SHA256_shared.json"
LICENSE = "MIT OR Apache-2.0"
SOURCE = {
    "suite": SUITE[1:],
    "license": LICENSE,
    "source": "the command `noise` of this repository, but for what docs/VECTORS.md names",
    "confirmed_by": [
        "checks/suite/plain.py, written from the standard alone: all tests",
        "flynn/noise 1.0.0 and dissononce 0.34.3: all that docs/PROTOCOLS.md doesn't name",
    ],
    "proofs": "the code of `noise` is proved, except dist/runtime.c; no proof speaks of this file",
}
SIZES = (
    0, 1, 2, 15, 16, 17, 31, 32, 33, 63, 64, 65, 127, 128, 129, 255, 256, 257, 511, 512, 1024, 4096, 16384, 32767,
    32768, 65518, 65519,
)


class Plan:
    """All groups of the suite, each as a function that makes it."""

    def __init__(self, command: Command) -> None:
        self.command = command
        self.jobs: list[Callable[[], Made]] = []
        first = patterns.fundamental(command)
        self.by_name = {it.section: it for it in first}
        later = patterns.deferred(command)
        one = patterns.psk_places(command, first, 1, "OnePsk")
        two = patterns.psk_places(command, first, 2, "TwoPsks")
        self.by_name |= {it.section: it for it in one + two}
        self.mistakes()
        self.plain(first, one, two, later)
        self.own()
        self.special()

    def group(self, name: str, protocol: Protocol, flags: list[str], **more: Any) -> Group:
        long_name = ["LongName"] if len(protocol.name) > 32 and "OwnPattern" not in flags else []
        return Group(self.command, name, protocol, flags + long_name, **more)

    def add(self, *makers: Callable[[Group], None], **what: Any) -> None:
        """A group with the tests that these functions add."""

        def make() -> Made:
            group = self.group(**what)
            for maker in makers:
                maker(group)
            return [group.as_json()]

        self.jobs.append(make)

    def mistakes(self) -> None:
        def make() -> Made:
            names = ("NN", "XX", "IX", "IK", "KK", "X", "NNpsk0", "NNpsk2", "KNpsk0", "XXpsk3", "IKpsk1")
            groups = [
                self.group(f"{it}, mistakes", self.by_name[it], [self.by_name[it].kind], transport=(0, 3, 5, 4))
                for it in names
            ]
            groups.append(
                self.group(
                    "NN, prologue, mistakes", self.by_name["NN"], ["Prologue"], prologue=b"prologue", lengths=(3,)
                )
            )
            groups.append(
                self.group(
                    "KN, prologue, mistakes", self.by_name["KN"], ["Prologue"], prologue=b"prologue", lengths=(3,)
                )
            )
            groups.append(
                self.group(
                    "XX, rekey, mistakes", self.by_name["XX"], ["Rekey"], also=["Rekey"], transport=(5,) * 8,
                    interval=1, lengths=(4,),
                )
            )
            groups.append(
                self.group(
                    "NN, rekey, mistakes", self.by_name["NN"], ["Rekey"], also=["Rekey"], transport=(5,) * 8,
                    interval=2, lengths=(4,),
                )
            )
            for group in groups:
                cases.positive(group)
            wrong.mistakes(groups)
            return [it.as_json() for it in groups]

        self.jobs.append(make)

    def plain(self, first: list[Protocol], one: list[Protocol], two: list[Protocol], later: list[Protocol]) -> None:
        """Each pattern twice: without prologue and payloads, and with both. The second has the tests of messages that
        are refused."""
        for protocol in first:
            swapped = self.by_name.get(OTHERS.get(protocol.section, ""))
            pattern = [lambda group, it=swapped: cases.other_pattern(group, it)] if swapped else []
            self.add(cases.positive, name=protocol.section, protocol=protocol, flags=[protocol.kind, "EmptyPrologue"])
            also = [transport.one_way] if protocol.is_one_way else []
            self.add(
                cases.positive, cases.negative, transport.negative, cases.looks, *pattern, *also,
                name=f"{protocol.section} with payloads", protocol=protocol, flags=[protocol.kind, "Prologue"],
                prologue=b"\x01", lengths=(3, 1, 20), transport=(2, 3, 4, 5),
            )  # fmt: skip
        for number, protocol in enumerate(one + later):
            kinds = (
                (cases.negative,), (cases.sealed_changes, cases.clear_changes),
                (cases.cuts, cases.other_setups, cases.ended),
            )
            negative = kinds[number % 3] if number % 8 else (cases.negative, transport.negative)
            self.add(cases.positive, name=protocol.section, protocol=protocol, flags=[protocol.kind])
            self.add(
                cases.positive, *negative,
                name=f"{protocol.section} with payloads", protocol=protocol, flags=[protocol.kind, "Prologue"],
                prologue=draw(number % 40, "prologue", number), lengths=(number % 5 + 1, 2, 30), transport=(1, 2, 3, 4),
            )  # fmt: skip
        for number, protocol in enumerate(two):
            negative = (
                (cases.other_setups,) if number % 4 else (cases.other_setups, cases.sealed_changes, cases.clear_changes)
            )
            self.add(
                cases.positive, *negative, name=protocol.section, protocol=protocol, flags=[protocol.kind],
                lengths=(number % 7, 1),
            )

    def own(self) -> None:
        later = patterns.psk_places(self.command, patterns.deferred(self.command), 1, "DeferredPattern")
        for number, protocol in enumerate(later):
            self.add(
                cases.positive, name=protocol.section, protocol=protocol, flags=[protocol.kind, "OnePsk"],
                lengths=(number % 3,), transport=(3, 2),
            )
        for text in patterns.OWN:
            protocol = patterns.protocol_of(text, "OwnPattern")
            early = []
            if any("e" in protocol.before(it) for it in patterns.ROLES):
                early = ["EphemeralInPreMessageWithPsk" if protocol.psks else "EphemeralInPreMessage"]
            self.add(
                cases.positive, cases.cuts, cases.sealed_changes,
                name=protocol.section, protocol=protocol, flags=[protocol.kind], also=early, lengths=(2,),
                prologue=b"own",
            )  # fmt: skip
        for number, protocol in enumerate(patterns.drawn(self.command, "suite", 120)):
            negative = (cases.sealed_changes, cases.clear_changes) if number % 6 == 0 else ()
            self.add(
                cases.positive, *negative, name=protocol.section, protocol=protocol, flags=[protocol.kind],
                lengths=(number % 4,), transport=(0, 9),
            )

    def special(self) -> None:
        by = self.by_name
        for section, count in (("NN", 1), ("XX", 255), ("IK", 65535), ("XXpsk3", 65535), ("N", 65535)):
            flags = ["LongPrologue" if count > 1 else "Prologue"]
            self.add(
                cases.positive, cases.other_setups, name=f"{section}, a prologue of {count}", protocol=by[section],
                flags=flags, prologue=b"p" * count,
            )
        for section in ("NN", "XX", "IK", "IX", "KK", "N", "X", "NNpsk0", "IKpsk2", "XXpsk0+psk3"):
            self.add(
                self.longest, cases.positive, name=f"{section}, longest", protocol=by[section],
                flags=["LongestPayload"], byte=b"l", transport=(),
            )
        for number, size in enumerate(SIZES):
            section = ("NN", "XX", "IK", "N", "KKpsk0")[number % 5]
            what = {
                "name": f"{section}, transport of {size}", "protocol": by[section], "flags": ["TransportSizes"],
                "byte": b"t",
            }
            self.add(cases.positive, **what, transport=(size,) * 2)
        self.transport()
        for section, role, letter in special.TRIED:
            what = self.command, by[section], role, letter
            self.jobs.append(lambda it=what: [group.as_json() for group in special.bad_keys(*it)])
        self.jobs.append(lambda: starts.groups_of(self.command, by, patterns.protocol_of))
        self.jobs.append(lambda: [special.frames(self.group("XX, frames", by["XX"], [], lengths=(3,)), 1)])

    def transport(self) -> None:
        by = self.by_name
        for interval in (1, 2, 3, 5):
            for section in ("NN", "XX", "IK", "X", "NNpsk0"):
                name = f"{section}, a new key after {interval}"
                negative = (transport.negative,) if section in ("XX", "X") else ()
                self.add(
                    cases.positive, *negative,
                    name=name, protocol=by[section], flags=["Rekey"], also=["Rekey"], interval=interval,
                    transport=(6,) * (2 * interval + 4),
                )  # fmt: skip
        for section in ("NN", "XX", "IKpsk2"):
            self.add(
                transport.nonces, name=f"{section}, nonces", protocol=by[section], flags=["HighNonce"], transport=()
            )
            self.add(transport.renewed_at_once, name=f"{section}, a new key at once", protocol=by[section], flags=[],
                     transport=())
        for section in ("NN", "XX", "IKpsk2", "KK", "NNpsk0", "NNpsk2"):
            self.add(
                special.too_long, name=f"{section}, 65536 bytes", protocol=by[section], flags=["LongMessageTaken"],
                transport=(1, 1),
            )
        for section, kind, number in (("NN", "payload", 1), ("XX", "s", 1), ("XXpsk3", "payload", 2)):
            self.add(
                lambda group, it=(number, kind): cases.tag_bits(group, *it), transport.tag_bits,
                name=f"{section}, each bit of a tag", protocol=by[section], flags=[], lengths=(2,), transport=(3, 3),
            )
        for size in range(131):
            self.add(
                cases.positive, name=f"NN, {size} bytes", protocol=by["NN"], flags=["Lengths"],
                prologue=draw(size, "prologue", "lengths", size), lengths=(size,), transport=(size, size),
            )

    @staticmethod
    def longest(group: Group) -> None:
        """Gives the handshake's messages 65535 bytes each."""
        overheads = [len(it.data) - len(it.payload) for it in group.messages]
        group.lengths = tuple(65535 - it for it in overheads)
        group.converse()


def is_what(group: dict[str, Any], test: dict[str, Any]) -> str:
    """What makes a test the same: its set-up, and what its party does and gets."""
    said = ("tcId", "comment", "flags", "result", "after")
    steps = [{key: value for key, value in it.items() if key != "optional"} for it in test.get("steps", [])]
    it = {key: value for key, value in test.items() if key not in said} | {"steps": steps}
    return json.dumps([{key: value for key, value in group.items() if key != "tests"}, it], sort_keys=True)


class Numbers:
    """The numbers of the tests: those of the suite before, and new ones."""

    def __init__(self, path: Path) -> None:
        before = json.loads(path.read_text("ascii")) if path.exists() else {"testGroups": []}
        self.known: dict[str, list[int]] = {}
        for group in before["testGroups"]:
            for test in group["tests"]:
                self.known.setdefault(is_what(group, test), []).append(test["tcId"])
        self.last = before.get("lastTcId", before.get("numberOfTests", 0))

    def give(self, groups: list[dict[str, Any]]) -> None:
        for group in groups:
            for test in group["tests"]:
                if numbers := self.known.get(is_what(group, test)):
                    test["tcId"] = numbers.pop(0)
                else:
                    self.last += 1
                    test["tcId"] = self.last


def text_of(suite: dict[str, Any]) -> str:
    """JSON with a test in each line."""
    groups = suite.pop("testGroups")
    head = json.dumps(suite, indent=1)[:-2]
    texts = []
    for group in groups:
        tests = ",\n  ".join(json.dumps(it, separators=(",", ":")) for it in group["tests"])
        rest = json.dumps({key: value for key, value in group.items() if key != "tests"}, separators=(",", ":"))
        texts.append(f' {rest[:-1]},"tests":[\n  {tests}\n ]}}')
    return f'{head},\n "testGroups": [\n' + ",\n".join(texts) + "\n]}\n"


def suite_of(groups: list[dict[str, Any]], last: int) -> dict[str, Any]:
    tests = [test for group in groups for test in group["tests"]]
    return {
        "algorithm": "Noise_25519_ChaChaPoly_SHA256",
        "schema": "schema.json",
        "generatorVersion": "2",
        **SOURCE,
        "numberOfTests": len(tests),
        "lastTcId": last,
        "notes": notes({flag for test in tests for flag in test["flags"]}),
        "testGroups": groups,
    }


def shared_format(groups: list[dict[str, Any]]) -> dict[str, Any]:
    """The right conversations in the format that cacophony, snow and others read: patterns that have names, and no
    rekeying."""
    vectors = []
    for group in groups:
        tests = [it for it in group["tests"] if it["result"] == "valid"]
        flags = {flag for it in tests for flag in it["flags"]}
        is_plain = (
            group["type"] == "NoiseHandshake"
            and tests
            and not any(flag.startswith("Rekey") for flag in flags)
            and not flags & {"OwnPattern", "LongestPayload", "TransportSizes", "LongPrologue"}
        )
        if (
            is_plain
            and not any(isinstance(it["message"], dict) for it in group["messages"])
            and "HighNonce" not in flags
        ):
            vectors.append(shared_vector(group))
    return {"vectors": vectors}


def shared_vector(group: dict[str, Any]) -> dict[str, Any]:
    made: dict[str, Any] = {"protocol_name": group["protocol"]}
    names = {"s": "static", "e": "ephemeral", "rs": "remote_static"}
    for party, role in (("init", "initiator"), ("resp", "responder")):
        made[f"{party}_prologue"] = group["prologue"]
        made[f"{party}_psks"] = group["psks"]
        made |= {f"{party}_{names[letter]}": key for letter, key in group[role].items()}
    made["handshake_hash"] = group["hash"]
    return made | {"messages": [{"payload": it["payload"], "ciphertext": it["message"]} for it in group["messages"]]}


def differing(groups: list[dict[str, Any]], folder: Path) -> list[str]:
    """The groups that don't stand in the suite of a folder as they were made."""

    def text(group: dict[str, Any]) -> str:
        return json.dumps(group | {"tests": [test | {"tcId": 0} for test in group["tests"]]}, sort_keys=True)

    there = {text(it) for it in json.loads((folder / NAME).read_text("ascii"))["testGroups"]}
    return [f"{it.get('protocol', it['type'])}: {it['tests'][0]['comment']}" for it in groups if text(it) not in there]


def main(words: list[str]) -> int:
    if len(words) not in (2, 3):
        print(__doc__, file=sys.stderr)
        return 2
    every = int(words[2]) if len(words) == 3 else 1
    folder = Path(words[1])
    jobs = Plan(Command(words[0])).jobs[::every]
    with ThreadPoolExecutor(4) as pool:
        made = list(pool.map(lambda job: job(), jobs))
    groups = [group for groups in made for group in groups]
    if every > 1:
        differ = differing(groups, folder)
        print(
            "\n".join(
                [
                    *(f"make: differs: {it}" for it in differ),
                    f"make: {len(groups)} groups made again, {len(differ)} differ",
                ]
            )
        )
        return int(bool(differ))
    numbers = Numbers(folder / NAME)
    numbers.give(groups)
    (folder / NAME).write_text(text_of(suite_of(groups, numbers.last)), encoding="ascii")
    shared = ",\n".join(json.dumps(it, separators=(",", ":")) for it in shared_format(groups)["vectors"])
    (folder / SHARED_NAME).write_text(f'{{"vectors":[\n{shared}\n]}}\n', encoding="ascii")
    results = Counter(test["result"] for group in groups for test in group["tests"])
    print(f"make: {len(groups)} groups, " + ", ".join(f"{count} {result}" for result, count in sorted(results.items())))
    return 0


if __name__ == "__main__":
    sys.exit(main(sys.argv[1:]))
