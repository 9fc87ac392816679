#!/usr/bin/env python3
"""Writes test vectors of other Noise projects as vector files of the command `noise`.

    convert.py FILE FOLDER

FILE has vectors in one of the two forms that Noise projects share: a JSON object whose `vectors` list has objects with
`protocol_name`, `init_ephemeral`, `messages` and so on; or blocks of lines such as `handshake=..`,
`gen_init_ephemeral=..`, `msg_0_payload=..`. For each vector of the names 25519, ChaChaPoly and SHA256 a file of version
2 is written into FOLDER: its keys are the public keys, its DH results are computed by X25519, and its `expect` lines
are the vector's messages. `noise test` on it ends with status 0 exactly if the messages are the same.

What is left out is named on standard output, a line each, with the reason. The status is 0 if at least one file was
written.

The state lines of the output have the handshake hash. It is the vector's, where the vector has one, and else is
computed here from the vector's messages by the key schedule of the standard (5.1, 5.2), which shares nothing with the
code of `noise`.
"""

import hashlib
import hmac
import json
import pathlib
import re
import sys
from functools import lru_cache

from cryptography.exceptions import InvalidTag
from cryptography.hazmat.primitives.asymmetric.x25519 import X25519PrivateKey, X25519PublicKey
from cryptography.hazmat.primitives.ciphers.aead import ChaCha20Poly1305
from cryptography.hazmat.primitives.serialization import Encoding, PublicFormat

SUFFIX = "_25519_ChaChaPoly_SHA256"
PATTERNS = pathlib.Path(__file__).resolve().parent.parent / "patterns"
ROLES = ("initiator", "responder")

# The fundamental patterns (7.4, 7.5): what is known before the first message, and the messages.
FUNDAMENTAL = {
    "N": ("<- s", "e, es"),
    "K": ("-> s/<- s", "e, es, ss"),
    "X": ("<- s", "e, es, s, ss"),
    "NN": ("", "e/e, ee"),
    "NK": ("<- s", "e, es/e, ee"),
    "NX": ("", "e/e, ee, s, es"),
    "XN": ("", "e/e, ee/s, se"),
    "XK": ("<- s", "e, es/e, ee/s, se"),
    "XX": ("", "e/e, ee, s, es/s, se"),
    "KN": ("-> s", "e/e, ee, se"),
    "KK": ("-> s/<- s", "e, es, ss/e, ee, se"),
    "KX": ("-> s", "e/e, ee, se, s, es"),
    "IN": ("", "e, s/e, ee, se"),
    "IK": ("<- s", "e, es, s, ss/e, ee, se"),
    "IX": ("", "e, s/e, ee, se, s, es"),
}


class LeftOut(Exception):
    """Why a vector isn't written as a file."""


class Pattern:
    """A handshake pattern: the roles whose static key is known before, the messages as lists of tokens, and the text
    where one is needed."""

    def __init__(self, section):
        found = re.fullmatch(r"([A-Z][A-Z0-9]{0,7}?)((?:psk[0-8](?:\+psk[0-8])*)?)", section)
        if not found:
            raise LeftOut(f"the pattern {section} isn't one that the file format names")
        base, self.places = found[1], [int(it) for it in re.findall(r"psk(\d)", found[2])]
        self.is_fundamental = base in FUNDAMENTAL
        pre, messages = FUNDAMENTAL[base] if self.is_fundamental else self.read(base)
        self.before = [role for arrow, role in zip(("->", "<-"), ROLES) if arrow in pre]
        self.pre, self.section = [it for it in pre.split("/") if it], section
        self.messages = [it.split(", ") for it in messages.split("/")]
        for place in self.places:
            if place > len(self.messages):
                raise LeftOut(f"psk{place} is beyond the messages of {base}")
            if place == 0:
                self.messages[0].insert(0, "psk")
            else:
                self.messages[place - 1].append("psk")

    @staticmethod
    def read(base):
        path = PATTERNS / f"{base}.pattern"
        if not path.is_file():
            raise LeftOut(f"there is no pattern text for {base}")
        lines = [it.strip() for it in path.read_text(encoding="ascii").splitlines()[1:]]
        at = lines.index("...") + 1 if "..." in lines else 0
        return "/".join(lines[: max(at - 1, 0)]), "/".join(it[3:] for it in lines[at:])

    def text(self):
        lines = [f"{self.section}:"] + [f"  {it}" for it in self.pre] + ["  ..."] * bool(self.pre)
        return lines + [f"  {('->', '<-')[number % 2]} {', '.join(it)}" for number, it in enumerate(self.messages)]


def hkdf(chaining_key, text, count):
    temporary, outputs = hmac.digest(chaining_key, text, "sha256"), [b""]
    for number in range(1, count + 1):
        outputs.append(hmac.digest(temporary, outputs[-1] + bytes([number]), "sha256"))
    return outputs[1:]


class KeySchedule:
    """The hash and the chaining key of a handshake (5.2), as its messages are read by somebody who has all keys and
    decrypts nothing."""

    def __init__(self, name):
        text = name.encode()
        self.hash = text.ljust(32, b"\0") if len(text) <= 32 else hashlib.sha256(text).digest()
        self.chaining_key, self.is_keyed = self.hash, False

    def mix_hash(self, text):
        self.hash = hashlib.sha256(self.hash + text).digest()

    def mix_key(self, text):
        self.chaining_key, self.is_keyed = hkdf(self.chaining_key, text, 2)[0], True

    def mix_key_and_hash(self, text):
        self.chaining_key, second, _ = hkdf(self.chaining_key, text, 3)
        self.mix_hash(second)
        self.is_keyed = True


# (OpenSSL takes a millisecond to read a private key, and the vectors of a project have few)
private_key = lru_cache(1024)(X25519PrivateKey.from_private_bytes)


@lru_cache(1024)
def public_of(private):
    return private_key(private).public_key().public_bytes(Encoding.Raw, PublicFormat.Raw)


def agreement(private, public):
    return private_key(private).exchange(X25519PublicKey.from_public_bytes(public))


class Vector:
    """A vector of either form: the name, the prologue, the private keys by role and letter, the psks, the messages, and
    the hash or None."""

    def __init__(self, name, prologue, private, psks, messages, handshake_hash):
        self.name, self.prologue, self.psks, self.hash = name, prologue, psks, handshake_hash
        self.private, self.messages = {at: it for at, it in private.items() if it}, messages
        self.public = {at: public_of(it) for at, it in self.private.items()}

    def pattern(self):
        if not self.name.startswith("Noise_") or not self.name.endswith(SUFFIX):
            raise LeftOut("another suite")
        section = self.name[len("Noise_") : -len(SUFFIX)]
        if "fallback" in section:
            raise LeftOut("fallback")
        return Pattern(section)

    def public_key(self, role, letter):
        if (role, letter) not in self.public:
            raise LeftOut(f"the {role}'s private key {letter} isn't given")
        return self.public[role, letter]

    def dh_result(self, first, second):
        """The DH result of the initiator's key of the first letter and the responder's of the second."""
        return agreement(self.private["initiator", first], self.public_key("responder", second))

    def schedule(self, pattern):
        """The key schedule after the handshake."""
        schedule, psks = KeySchedule(self.name), iter(self.psks)
        schedule.mix_hash(self.prologue)
        for role in pattern.before:
            schedule.mix_hash(self.public_key(role, "s"))
        for number, (tokens, (_, message)) in enumerate(zip(pattern.messages, self.messages)):
            role, rest = ROLES[number % 2], message
            for token in tokens:
                if token == "e":
                    schedule.mix_hash(rest[:32])
                    if pattern.places:
                        schedule.mix_key(rest[:32])
                    rest = rest[32:]
                elif token == "s":
                    width = 48 if schedule.is_keyed else 32
                    schedule.mix_hash(rest[:width])
                    rest = rest[width:]
                elif token == "psk":
                    schedule.mix_key_and_hash(next(psks))
                else:
                    self.public_key(role, token[ROLES.index(role)])
                    schedule.mix_key(self.dh_result(*token))
            schedule.mix_hash(rest)
        return schedule

    def senders(self, pattern, schedule):
        """Who sends each message. No vector says so: after the handshake it is whoever has the key that opens the
        message, and else the parties in turn. A message of the responder ends a one-way pattern's, since it may send
        none (7.4)."""
        ciphers = dict(zip(ROLES, map(ChaCha20Poly1305, hkdf(schedule.chaining_key, b"", 2))))
        sent, senders = dict.fromkeys(ROLES, 0), [ROLES[number % 2] for number in range(len(pattern.messages))]

        def opens(role, message):
            try:
                ciphers[role].decrypt(bytes(4) + sent[role].to_bytes(8, "little"), message, b"")
            except InvalidTag:
                return False
            return True

        for number, (_, message) in enumerate(self.messages[len(senders) :], len(senders)):
            role = next((it for it in ROLES if opens(it, message)), ROLES[number % 2])
            if len(pattern.messages) == 1 and role != ROLES[0]:
                break
            sent[role] += 1
            senders.append(role)
        return senders

    def keys(self, role):
        """The lines of a party: its public keys, and what DH gives for each of them and each key of the other."""
        own = {letter: self.public.get((role, letter)) for letter in "es"}
        yield f"{role} table {' '.join(it.hex() if it else '-' for it in own.values())}"
        other = ROLES[1 - ROLES.index(role)]
        for letter in "es":
            for theirs in "es":
                if own[letter] and (other, theirs) in self.public:
                    public = self.public[other, theirs]
                    yield f"answer {letter} {public.hex()} {agreement(self.private[role, letter], public).hex()}"

    def lines(self):
        """The lines of the vector file."""
        pattern = self.pattern()
        if len(self.messages) < len(pattern.messages):
            raise LeftOut("it ends before the handshake does")
        if len(self.psks) != len(pattern.places):
            raise LeftOut(f"it has {len(self.psks)} secrets for {len(pattern.places)} psk tokens")
        schedule = self.schedule(pattern)
        yield from ("vector 2", f"protocol {self.name}")
        if not pattern.is_fundamental:
            yield from [*pattern.text(), "end"]
        yield from (f"prologue {self.prologue.hex() or '-'}", "interval 0")
        yield from (f"psk {it.hex()}" for it in self.psks)
        for role in ROLES:
            yield from self.keys(role)
        expected, written, sent = [], dict.fromkeys(ROLES, 0), dict.fromkeys(ROLES, 0)
        for number, (role, (payload, message)) in enumerate(zip(self.senders(pattern, schedule), self.messages)):
            other, text = ROLES[1 - ROLES.index(role)], payload.hex() or "-"
            yield f"say {role} {text} -"
            expected.append(f"wrote {role} {written[role]} {len(message):04x}{message.hex()}")
            expected.append(f"payload {other} {text}")
            written[role] += 1
            sent[role] += number >= len(pattern.messages)
        for role, other in (ROLES, ROLES[::-1]):
            expected.append(f"state {role} transport {sent[role]} {sent[other]} {(self.hash or schedule.hash).hex()}")
        yield from (f"expect {it}" for it in expected)


def from_json(vector):
    def get(name):
        return bytes.fromhex(vector.get(name) or "")

    def private(party):
        return {
            (ROLES[party == "resp"], letter): get(f"{party}_{word}")
            for letter, word in (("e", "ephemeral"), ("s", "static"))
        }

    messages = [(bytes.fromhex(it["payload"]), bytes.fromhex(it["ciphertext"])) for it in vector["messages"]]
    psks = [bytes.fromhex(it) for it in vector.get("init_psks") or ()]
    name = vector.get("protocol_name") or vector["name"]
    return Vector(name, get("init_prologue"), private("init") | private("resp"), psks, messages, get("handshake_hash"))


def from_lines(block):
    rows = [line.split("=", 1) for line in block.splitlines()]
    values = {name: value for name, value in rows if name != "preshared_key"}

    def get(name):
        return bytes.fromhex(values.get(name, ""))

    private = {
        ("initiator", "e"): get("gen_init_ephemeral"),
        ("initiator", "s"): get("init_static"),
        ("responder", "e"): get("gen_resp_ephemeral"),
        ("responder", "s"): get("resp_static"),
    }
    count = sum(name.endswith("_ciphertext") for name in values)
    messages = [(get(f"msg_{number}_payload"), get(f"msg_{number}_ciphertext")) for number in range(count)]
    psks = [bytes.fromhex(value) for name, value in rows if name == "preshared_key"]
    return Vector(values["handshake"], get("prologue"), private, psks, messages, get("handshake_hash"))


def vectors_of(text):
    if text.lstrip().startswith("{"):
        return [from_json(it) for it in json.loads(text)["vectors"]]
    return [from_lines(it) for it in re.split(r"\n\s*\n", text.strip()) if it.strip()]


def main(words):
    if len(words) != 2:
        print("usage: convert.py FILE FOLDER", file=sys.stderr)
        return 2
    folder, count = pathlib.Path(words[1]), 0
    folder.mkdir(parents=True, exist_ok=True)
    for number, vector in enumerate(vectors_of(pathlib.Path(words[0]).read_text(encoding="utf-8"))):
        try:
            text = "".join(f"{line}\n" for line in vector.lines())
        except LeftOut as why:
            print(f"left out: vector {number}, {vector.name}: {why}")
            continue
        (folder / f"{number:04}-{vector.name}.vector").write_text(text, encoding="ascii")
        count += 1
    print(f"{count} files written into {folder}")
    return 0 if count else 1


if __name__ == "__main__":
    sys.exit(main(sys.argv[1:]))
