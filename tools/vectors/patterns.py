"""The patterns of the suite, as texts of the command: fundamental, deferred, with psks, and others that the command
finds valid."""

from __future__ import annotations

import itertools
import random
import re
from pathlib import Path
from typing import NamedTuple

from command import Command, Fault

SUITE = "_25519_ChaChaPoly_SHA256"
ROLES = ("initiator", "responder")
LETTERS = ("e", "s")
FUNDAMENTAL = ("N", "K", "X", "NN", "NK", "NX", "KN", "KK", "KX", "XN", "XK", "XX", "IN", "IK", "IX")
EXAMPLES = Path(__file__).resolve().parent.parent.parent / "examples" / "patterns"

# Patterns of one's own: public keys that are known beforehand, also ephemeral ones (9.2), many messages, tokens in
# other orders.
OWN = (
    "PE:/  <- e/  .../  -> e, ee/  <- s, es/",
    "PEpsk0:/  <- e/  .../  -> psk, e, ee/  <- s, es/",
    "PEpsk1:/  <- e/  .../  -> e, ee, psk/  <- s, es/",
    "PEpsk2:/  <- e/  .../  -> e, ee/  <- s, es, psk/",
    "PES:/  <- e, s/  .../  -> e, ee, es, s, se/",
    "PESpsk0:/  <- e, s/  .../  -> psk, e, ee, es, s, se/",
    "PI:/  -> e/  .../  -> s/  <- e, ee, se, s, es/",
    "PIpsk0:/  -> e/  .../  -> psk, s/  <- e, ee, se, s, es/",
    "PIpsk1:/  -> e/  .../  -> s, psk/  <- e, ee, se, s, es/",
    "PIpsk2:/  -> e/  .../  -> s/  <- e, ee, se, s, es, psk/",
    "PB:/  -> e/  <- e/  .../  -> ee/  <- s, es/",
    "PBpsk0:/  -> e, s/  <- e/  .../  -> psk, ee/  <- se/",
    "LONG:/  -> e/  <- e/  -> ee/  <- s/  -> es/",
    "EIGHT:/  -> e/  <- e/  -> s/  <- s/  -> ee/  <- es/  -> se/  <- ss/",
    "EIGHTpsk8:/  -> e/  <- e/  -> s/  <- s/  -> ee/  <- es/  -> se/  <- ss, psk/",
    "EIGHTpsk0+psk4+psk8:/  -> psk, e/  <- e/  -> s/  <- s, psk/  -> ee/  <- es/  -> se/  <- ss, psk/",
)


class Protocol(NamedTuple):
    """A protocol: its pattern section, its lines, the kind that it is, and what the lines say."""

    section: str
    lines: tuple[str, ...]
    kind: str

    @property
    def name(self) -> str:
        return f"Noise_{self.section}{SUITE}"

    @property
    def base(self) -> str:
        return self.section.split("psk")[0]

    @property
    def is_fundamental(self) -> bool:
        return self.base in FUNDAMENTAL

    @property
    def split(self) -> int:
        return self.lines.index("...") if "..." in self.lines else 0

    @property
    def messages(self) -> list[list[str]]:
        return [line[3:].split(", ") for line in self.lines[self.split + ("..." in self.lines) :]]

    def before(self, role: str) -> list[str]:
        """The public keys of a party's pre-message."""
        arrow = ("->", "<-")[ROLES.index(role)]
        return next((line[3:].split(", ") for line in self.lines[: self.split] if line.startswith(arrow)), [])

    def own(self, role: str) -> set[str]:
        """The letters of the key pairs that a party has."""
        tokens = itertools.chain(*self.messages[ROLES.index(role) :: 2])
        return {it for it in (*tokens, *self.before(role)) if it in LETTERS}

    @property
    def psks(self) -> int:
        return sum(tokens.count("psk") for tokens in self.messages)

    @property
    def is_one_way(self) -> bool:
        return len(self.messages) == 1

    @property
    def text(self) -> str:
        return f"{self.section}:\n" + "".join(f"  {line}\n" for line in self.lines)


def protocol_of(text: str, kind: str) -> Protocol:
    heading, *lines = text.replace("/", "\n").splitlines()
    return Protocol(heading[:-1], tuple(line.strip() for line in lines if not line.startswith("overhead")), kind)


def with_psks(protocol: Protocol, places: tuple[int, ...], kind: str) -> Protocol:
    """The pattern with psk tokens at these places (9.4)."""
    lines = list(protocol.lines)
    first = len(lines) - len(protocol.messages)
    for place in places:
        if place == 0:
            lines[first] = lines[first].replace("> ", "> psk, ", 1)
        else:
            lines[first + place - 1] += ", psk"
    return Protocol(protocol.base + "+".join(f"psk{it}" for it in places), tuple(lines), kind)


def is_valid(command: Command, protocol: Protocol) -> bool:
    try:
        command.run("check", protocol.text)
    except Fault:
        return False
    return True


def fundamental(command: Command) -> list[Protocol]:
    return [protocol_of("\n".join(command.show(f"Noise_{it}{SUITE}")), "FundamentalPattern") for it in FUNDAMENTAL]


def deferred(command: Command) -> list[Protocol]:
    names = sorted(it.stem for it in EXAMPLES.glob("*.pattern") if re.fullmatch("[KNXI]1?[KNX]1?", it.stem))
    found = [protocol_of((EXAMPLES / f"{it}.pattern").read_text("ascii"), "DeferredPattern") for it in names]
    return [it for it in found if is_valid(command, it)]


def psk_places(command: Command, protocols: list[Protocol], count: int, kind: str) -> list[Protocol]:
    """Each protocol with `count` psk tokens, at all places that the rules allow."""
    made = [
        with_psks(it, places, kind)
        for it in protocols
        for places in itertools.combinations(range(len(it.messages) + 1), count)
    ]
    return [it for it in made if is_valid(command, it)]


def drawn(command: Command, seed: str, count: int) -> list[Protocol]:
    """Valid patterns that are drawn, some with names of more than 32 bytes."""
    source, found = random.Random(f"{seed} patterns"), list[Protocol]()
    while len(found) < count:
        number = len(found)
        base = f"Q{number}" if number % 2 else f"OWN{number:05}"
        lines = draw_lines(source)
        protocol = Protocol(base, lines, "OwnPattern")
        if not any(it.lines == lines for it in found) and is_valid(command, protocol):
            found.append(protocol)
    return found


def draw_lines(source: random.Random) -> tuple[str, ...]:
    before = [arrow for arrow in ("-> s", "<- s") if source.random() < 0.3]
    known = {"i": {"s"} if "-> s" in before else set(), "r": {"s"} if "<- s" in before else set()}
    messages, done = [], set[str]()
    for number in range(source.choice((2, 2, 3, 3, 4, 5))):
        party, tokens = "ir"[number % 2], []
        for _ in range(source.randint(1, 4)):
            keys = [it for it in "es" if it not in known[party]]
            dhs = [a + b for a in sorted(known["i"]) for b in sorted(known["r"]) if a + b not in done]
            choice = source.choice((keys or dhs) if source.random() < 0.6 else (dhs or keys)) if keys or dhs else None
            if choice is None:
                break
            (done if len(choice) == 2 else known[party]).add(choice)
            tokens.append(choice)
        messages.append(tokens)
    messages = [it for it in messages if it]
    lines = [f"{('->', '<-')[number % 2]} {', '.join(it)}" for number, it in enumerate(messages)]
    return (*before, *(["..."] if before else []), *lines)
