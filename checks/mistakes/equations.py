"""Puts mistakes that have no name into an implementation of its own (mistaken.py), and works out anew each equation
that `noise compare` prints of its log.

    equations.py PROGRAM [SEED]

An equation has to hold of the logged value, by the right values before the step: its text is read, and computed here.
At least 63 of the mistakes have to get an equation for a value that is wrong. It writes what failed, and a last line
with the counts.
"""

from __future__ import annotations

import contextlib
import pathlib
import random
import re
import struct
import subprocess
import sys
import tempfile
from collections.abc import Callable, Iterator
from typing import Any

import mistaken
from cryptography.hazmat.primitives.ciphers.aead import ChaCha20Poly1305
from mistaken import Cipher, Event, Party, Session, code, digest, run
from named import session_of, vector

LAST = bytes(4) + b"\xff" * 8
NONCES = {
    "2^64 - 1": LAST, "2^63 - 1": bytes(4) + b"\xff" * 7 + b"\x7f", "2^32 - 1": bytes(4) + b"\xff" * 4 + bytes(4),
    "0": bytes(12),
}
NOT_NAMED = "none of the mistakes that are tried gives your values"
LEAST = 63

Change = Callable[[type[Any], type[Any]], None]
Values = dict[str, bytes]


# ---- equations

def parts_of(text: str, mark: str) -> list[str]:
    """The parts between marks that stand in no parentheses."""
    parts, depth, begin = [], 0, 0
    for at, letter in enumerate(text):
        depth += (letter == "(") - (letter == ")")
        if depth == 0 and text.startswith(mark, at):
            parts.append(text[begin:at])
            begin = at + len(mark)
    return [*parts, text[begin:]]


def output(temporary: bytes, variant: str, number: int) -> bytes:
    """An output of HKDF in one of its forms."""
    before = b""
    for count in range(1, number + 1):
        counter = bytes([count])
        before = {
            "": lambda b=before, c=counter: code(temporary, b + c),
            " counted from 0": lambda b=before, n=count: code(temporary, b + bytes([n - 1])),
            " counted by ASCII digits": lambda b=before, n=count: code(temporary, b + str(n).encode()),
            " with a big-endian counter of 4 bytes": lambda b=before, n=count: code(
                temporary, b + struct.pack(">I", n)
            ),
            " with a little-endian counter of 4 bytes": lambda b=before, n=count: code(
                temporary, b + struct.pack("<I", n)
            ),
            " with the counter in front": lambda b=before, c=counter: code(temporary, c + b),
            " without a counter": lambda b=before: code(temporary, b),
            " without the output before": lambda c=counter: code(temporary, c),
            " with key and text of its last HMACs exchanged": lambda b=before, c=counter: code(b + c, temporary),
        }[variant]()
    return before


def informed(temporary: bytes, info: bytes, number: int) -> bytes:
    """An output of HKDF (RFC 5869) with an info."""
    before = b""
    for count in range(1, number + 1):
        before = code(temporary, before + info + bytes([count]))
    return before


def derived(variant: str, ck: bytes, data: bytes, name: bytes) -> tuple[bytes, bytes] | None:
    """The temporary key and the info of HKDF in another way."""
    return {
        " with SHA256 for its first HMAC": (digest(ck + data), b""),
        " whose HMAC hashes each key": (digest(code(digest(ck), data)), b""),
        " with the name as info": (code(ck, data), name),
    }.get(variant)


def sealed(key: bytes, nonce: bytes, data: bytes, text: bytes) -> bytes:
    return ChaCha20Poly1305(key).encrypt(nonce, text, data)


def called(name: str, words: list[str], rest: str, at: Values) -> bytes:
    """What a function of an equation gives."""
    if name == "AEAD":
        nonce = at["n"] if words[1] == "n" else NONCES[words[1]]
        return sealed(value(words[0], at), nonce, value(words[2], at), value(words[3], at))
    given = [value(word, at) for word in words]
    if name == "HKDF-Expand":
        return informed(given[0], given[1], int(rest.removeprefix(", output ")))
    if name == "HKDF":
        variant, _, number = rest.partition(", output ")
        other = derived(variant, given[0], given[1], at.get("name", b""))
        return informed(*other, int(number)) if other else output(code(given[0], given[1]), variant, int(number))
    if name == "HMAC":
        return code(given[0], given[1])
    return {
        "SHA256": digest,
        "reversed": lambda data: data[::-1],
        "twice": lambda data: data + data,
        "hex digits": lambda data: data.hex().encode(),
    }[name](given[0])


def summed(words: list[str], at: Values) -> bytes:
    """Bytes after each other; a length is that of those behind it."""
    length = re.fullmatch(r"([1248])-byte (?:(big|little)-endian )?length", words[0])
    rest = b"".join(value(word, at) for word in words[1:]) if not length else summed(words[1:], at)
    if not length:
        return value(words[0], at) + rest
    order = "big" if length[2] == "big" else "little"
    return len(rest).to_bytes(8, order)[-int(length[1]) :] + rest if order == "big" else (
        len(rest).to_bytes(8, order)[: int(length[1])] + rest
    )


ENDS: dict[str, Callable[[bytes], bytes]] = {
    " without its first byte": lambda data: data[1:],
    " without its last byte": lambda data: data[:-1],
    " without its last 16 bytes": lambda data: data[:-16],
}


def value(text: str, at: Values) -> bytes:
    """The bytes that a text of an equation means."""
    if text in at:
        return at[text]
    if text.startswith("the first 32 bytes of "):
        return value(text.removeprefix("the first 32 bytes of "), at)[:32]
    for front, then in (("MixHash, twice, of ", ""), ("MixHash of what is right, after MixHash of ", "mixed")):
        if text.startswith(front):
            data = value(text.removeprefix(front), at)
            return digest(digest(at["h"] + data) + (at[then] if then else data))
    chosen = re.fullmatch(r"output (\d) of (HKDF\(.*\))", text)
    if chosen:
        return value(f"{chosen[2]}, output {chosen[1]}", at)
    words = parts_of(text, " + ")
    if len(words) > 1:
        # (a length stands in front of all that is behind it)
        for place, word in enumerate(words):
            if word.endswith(" length") and place:
                return b"".join(value(it, at) for it in words[:place]) + summed(words[place:], at)
        return summed(words, at)
    if text.startswith("the first 16 bytes of "):
        return value(text.removeprefix("the first 16 bytes of "), at)[:16]
    for end, form in ENDS.items():
        if text.endswith(end):
            return form(value(text.removesuffix(end), at))
    found = re.match(r"(SHA256|HMAC|HKDF|HKDF-Expand|AEAD|reversed|twice|hex digits)\(", text)
    if found:
        depth, close = 1, found.end()
        while depth:
            depth += (text[close] == "(") - (text[close] == ")")
            close += 1
        return called(found[1], parts_of(text[found.end() : close - 1], ", "), text[close:], at)
    raise ValueError(text)


def holds(name: str, text: str, at: Values, yours: Values) -> bool:
    """Whether an equation holds of a logged value."""
    front = text.removesuffix(" but for the last 16 bytes")
    made = value(front, at)
    if front != text:
        return len(made) == len(yours[name]) and made[:-16] == yours[name][:-16]
    return made == yours[name]


# ---- mistakes

def expanded(temporary: bytes, variant: str = "") -> tuple[bytes, bytes, bytes]:
    return output(temporary, variant, 1), output(temporary, variant, 2), output(temporary, variant, 3)


def of_mix_hash(made: Callable[[Party, bytes], bytes]) -> Change:
    def change(party: type[Any], _: type[Any]) -> None:
        party.mix_hash = lambda self, data: setattr(self, "h", made(self, data))

    return change


def of_first_hash(made: Callable[[bytes], bytes]) -> Change:
    def change(party: type[Any], _: type[Any]) -> None:
        party.first_hash = lambda self, name: made(name)

    return change


def of_prologue(mixed: Callable[[bytes], bytes]) -> Change:
    def change(party: type[Any], _: type[Any]) -> None:
        def mix_prologue(self: Party) -> None:
            self.mix_hash(mixed(self.session.prologue))
            self.say("start", "prologue")

        party.mix_prologue = mix_prologue

    return change


def of_mix_key(made: Callable[[Party, bytes], tuple[bytes, ...]]) -> Change:
    """Both outputs that MixKey takes, of the party and the input."""

    def change(party: type[Any], _: type[Any]) -> None:
        party.mix_key = lambda self, data: self.set_keys(*made(self, data)[:2])

    return change


def of_psk(made: Callable[[Party, bytes], tuple[bytes, bytes, bytes]]) -> Change:
    """The chaining key, what is hashed, and the key."""

    def change(party: type[Any], _: type[Any]) -> None:
        def mix_key_and_hash(self: Party, data: bytes) -> None:
            first, second, third = made(self, data)
            self.mix_hash(second)
            self.set_keys(first, third)

        party.mix_key_and_hash = mix_key_and_hash

    return change


def of_agreement(made: Callable[[bytes], bytes]) -> Change:
    def change(party: type[Any], _: type[Any]) -> None:
        before = party.agree
        party.agree = lambda self, token: made(before(self, token))

    return change


def of_data(made: Callable[[Party], bytes]) -> Change:
    def change(party: type[Any], _: type[Any]) -> None:
        party.ad = made

    return change


def of_text(made: Callable[[bytes], bytes]) -> Change:
    """What is encrypted in place of a text. Nobody reads it."""

    def change(_: type[Any], cipher: type[Any]) -> None:
        before = cipher.encrypt
        cipher.encrypt = lambda self, ad, text: before(self, ad, made(text) if self.key else text)

    return change


def of_split(made: Callable[[Party], tuple[bytes, ...]]) -> Change:
    def change(party: type[Any], cipher: type[Any]) -> None:
        def split(self: Party) -> None:
            mine, theirs = (cipher("", key) for key in made(self)[:2])
            for role, one in (("initiator", mine), ("responder", theirs)):
                self.cipher = one
                self.say("open", role)
            self.sends, self.receives = (mine, theirs) if self.is_initiator else (theirs, mine)
            self.counts = {"sent": 0, "opened": 0}

        party.split = split

    return change


def of_rekey(made: Callable[[bytes], bytes]) -> Change:
    def change(_: type[Any], cipher: type[Any]) -> None:
        cipher.rekey = lambda self: setattr(self, "key", made(self.key))

    return change


def of_begin(made: Callable[[int], int]) -> Change:
    """The nonce at the start of a message."""

    def change(party: type[Any], _: type[Any]) -> None:
        def begin(self: Party) -> list[str]:
            self.cipher.n = made(self.cipher.n)
            return before(self)

        before = party.begin
        party.begin = begin

    return change


def of_info(temporary: bytes, info: bytes) -> tuple[bytes, ...]:
    return tuple(informed(temporary, info, number) for number in (1, 2))


def halved(key: bytes) -> bytes:
    return key[:16] + bytes(16)


def name_of(self: Party) -> bytes:
    return f"Noise_{self.session.pattern}_25519_ChaChaPoly_SHA256".encode()


def of_key(self: Party) -> bytes:
    return self.cipher.key or b""


HASHES = "NN XX IK"
PLANTED: dict[str, tuple[str, Change]] = {
    "hash of a hash": (HASHES, of_mix_hash(lambda self, data: digest(digest(self.h + data)))),
    "hmac for mixhash": (HASHES, of_mix_hash(lambda self, data: code(self.h, data))),
    "hmac under the data": (HASHES, of_mix_hash(lambda self, data: code(data, self.h))),
    "length of 8 bytes": (HASHES, of_mix_hash(lambda self, data: digest(self.h + struct.pack("<Q", len(data)) + data))),
    "length of 1 byte": (HASHES, of_mix_hash(lambda self, data: digest(self.h + bytes([len(data)]) + data))),
    "h left out": (HASHES, of_mix_hash(lambda _, data: digest(data))),
    "ck for h": ("XX IK", of_mix_hash(lambda self, data: digest(self.ck + data))),
    "digest of the data": (HASHES, of_mix_hash(lambda self, data: digest(self.h + digest(data)))),
    "mixhash twice": (HASHES, of_mix_hash(lambda self, data: digest(digest(self.h + data) + data))),
    "data reversed": (HASHES, of_mix_hash(lambda self, data: digest(self.h + data[::-1]))),
    "zero behind the data": (HASHES, of_mix_hash(lambda self, data: digest(self.h + data + b"\0"))),
    "prologue with a line feed": (HASHES, of_prologue(lambda data: data + b"\n")),
    "prologue cut": (HASHES, of_prologue(lambda data: data[:-1])),
    "prologue doubled": (HASHES, of_prologue(lambda data: data + data)),
    "name with a zero": ("XXpsk3", of_first_hash(lambda name: digest(name + b"\0"))),
    "name with a line feed": ("XXpsk3", of_first_hash(lambda name: digest(name + b"\n"))),
    "no name": ("NN", of_first_hash(lambda _: bytes(32))),
    "another name": ("NN IK", of_first_hash(lambda name: name.replace(b"ChaChaPoly", b"AESGCM").ljust(32, b"\0")[:32])),
    "ascii counters": (
        HASHES,
        of_mix_key(lambda self, data: expanded(code(self.ck, data), " counted by ASCII digits")),
    ),
    "big counters": (
        HASHES,
        of_mix_key(lambda self, data: expanded(code(self.ck, data), " with a big-endian counter of 4 bytes")),
    ),
    "counters in front": (
        HASHES,
        of_mix_key(lambda self, data: expanded(code(self.ck, data), " with the counter in front")),
    ),
    "no counters": (HASHES, of_mix_key(lambda self, data: expanded(code(self.ck, data), " without a counter"))),
    "last hmacs exchanged": (
        HASHES,
        of_mix_key(lambda self, data: expanded(code(self.ck, data), " with key and text of its last HMACs exchanged")),
    ),
    "no chaining key": (HASHES, of_mix_key(lambda _, data: expanded(code(b"", data)))),
    "h as the chaining key": (HASHES, of_mix_key(lambda self, data: expanded(code(self.h, data)))),
    "hmac alone": (HASHES, of_mix_key(lambda self, data: (code(self.ck, data), code(data, self.ck)))),
    "sha256 alone": (HASHES, of_mix_key(lambda self, data: (digest(self.ck + data), digest(data + self.ck)))),
    "outputs 2 and 3": (HASHES, of_mix_key(lambda self, data: expanded(code(self.ck, data))[1:])),
    "output 3 as the key": (HASHES, of_mix_key(lambda self, data: expanded(code(self.ck, data))[::2])),
    "ck as the key": (HASHES, of_mix_key(lambda self, data: (expanded(code(self.ck, data))[0],) * 2)),
    "dh result as the key": (HASHES, of_mix_key(lambda self, data: (expanded(code(self.ck, data))[0], data))),
    "mixkey twice": (
        HASHES,
        of_mix_key(lambda self, data: expanded(code(expanded(code(self.ck, data))[0], data))),
    ),
    "dh result in hex": (HASHES, of_agreement(lambda data: data.hex().encode())),
    "dh result of zeros": (HASHES, of_agreement(lambda _: bytes(32))),
    "dh result cut": (HASHES, of_agreement(lambda data: data[:16])),
    "dh result with a zero": (HASHES, of_agreement(lambda data: data + b"\0")),
    "psk hashed itself": (
        "NNpsk0 NNpsk2",
        of_psk(lambda self, data: (expanded(code(self.ck, data))[0], data, expanded(code(self.ck, data))[2])),
    ),
    "first output hashed": (
        "NNpsk0 XXpsk3",
        of_psk(lambda self, data: expanded(code(self.ck, data))[:1] * 2 + expanded(code(self.ck, data))[2:]),
    ),
    "second output as the key": (
        "NNpsk0 XXpsk3",
        of_psk(lambda self, data: expanded(code(self.ck, data))[:2] + expanded(code(self.ck, data))[1:2]),
    ),
    "zeros as associated data": (HASHES, of_data(lambda _: bytes(32))),
    "k as associated data": (HASHES, of_data(of_key)),
    "prologue as associated data": (HASHES, of_data(lambda self: self.session.prologue)),
    "text with a zero": (HASHES, of_text(lambda text: text + b"\0")),
    "text with its length": (HASHES, of_text(lambda text: struct.pack(">H", len(text)) + text)),
    "text reversed": (HASHES, of_text(lambda text: text[::-1])),
    "split of h": ("NN XX", of_split(lambda self: expanded(code(self.h, b"")))),
    "split of k": ("NN XX", of_split(lambda self: expanded(code(of_key(self), b"")))),
    "ck and h as keys": ("NN XX", of_split(lambda self: (self.ck, self.h))),
    "last key kept": ("NN XX", of_split(lambda self: (of_key(self), of_key(self)))),
    "rekey by hkdf": ("NN XX", of_rekey(lambda key: expanded(code(key, b""))[0])),
    "rekey by sha256": ("NN XX", of_rekey(digest)),
    "rekey of the key": ("NN XX", of_rekey(lambda key: sealed(key, LAST, b"", key)[:32])),
    "n set to 0": ("IK", of_begin(lambda _: 0)),
    "n raised by 5": ("IK", of_begin(lambda n: n + 5)),
    "n lowered by 1": ("IK", of_begin(lambda n: max(n - 1, 0))),
    "type byte in front": (HASHES, of_mix_hash(lambda self, data: digest(self.h + b"\5" * (len(data) == 32) + data))),
    "extraction by sha256": (HASHES, of_mix_key(lambda self, data: expanded(digest(self.ck + data)))),
    "keys of hmac hashed": (HASHES, of_mix_key(lambda self, data: expanded(digest(code(digest(self.ck), data))))),
    "name as info": (HASHES, of_mix_key(lambda self, data: of_info(code(self.ck, data), name_of(self)))),
    "no extraction": (HASHES, of_mix_key(lambda self, data: of_info(self.ck, data))),
    "split without extraction": ("NN XX", of_split(lambda self: of_info(self.ck, b"")[::-1])),
    "key of 128 bits": (
        HASHES,
        of_mix_key(lambda self, data: (expanded(code(self.ck, data))[0], halved(expanded(code(self.ck, data))[1]))),
    ),
    "split of 128 bits": ("NN XX", of_split(lambda self: tuple(map(halved, expanded(code(self.ck, b"")))))),
    "rekey by 2^63 - 1": ("NN XX", of_rekey(lambda key: sealed(key, NONCES["2^63 - 1"], b"", bytes(32))[:32])),
    "rekey by 2^32 - 1": ("NN XX", of_rekey(lambda key: sealed(key, NONCES["2^32 - 1"], b"", bytes(32))[:32])),
    "rekey of the key by 0": ("NN XX", of_rekey(lambda key: sealed(key, NONCES["0"], b"", key)[:32])),
}


# ---- logs

@contextlib.contextmanager
def planted(change: Change) -> Iterator[None]:
    """Both parties of mistaken.py have a mistake."""
    party, cipher = type("Party", (Party,), {}), type("Cipher", (Cipher,), {})
    try:
        change(party, cipher)
        mistaken.Party, mistaken.Cipher = party, cipher  # type: ignore[misc]
        yield
    finally:
        mistaken.Party, mistaken.Cipher = Party, Cipher  # type: ignore[misc]


def payload(number: int) -> bytes:
    return b"payload %d" % (number + 1)


def logs(session: Session, role: str, change: Change) -> tuple[list[Event], list[str], list[str]]:
    """The events and the log of right parties, and the log of mistaken ones, of this role."""
    nobody = {"initiator": "", "responder": ""}
    events, right = run(session, nobody, payload, 3)
    with planted(change):
        _, wrong = run(session, nobody, payload, 3)
    own = [[line for line in log if f"trace {role} " in line] for log in (right, wrong)]
    return events, own[0], own[1]


def values_in(line: str) -> Values:
    words = line.split()
    places = (("bytes", 7), ("h", 8), ("ck", 9), ("k", 10))
    return {name: bytes.fromhex(words[at]) for name, at in places if words[at] != "-"}


def taken(session: Session, words: list[str], right: Values) -> Values:
    """What a step takes, by its name in an equation."""
    role, part, token = words[1], words[2], words[4]
    keys = session.keys
    if token in ("ee", "es", "se", "ss"):
        one: mistaken.Key = getattr(keys["initiator"], token[0])
        other: mistaken.Key = getattr(keys["responder"], token[1])
        return {"DH result": one.agree(other.public)}
    if token == "psk":
        return {"psk": session.psks[0]}
    if token == "e":
        return {"e": right["bytes"]}
    if part == "start" and "-" in token:
        owner, _, key = token.partition("-")
        return {"public key": getattr(keys[owner], key).public}
    if token in ("s", "payload"):
        number = int(part)
        writer = "initiator" if number % 2 else "responder"
        return {"text": keys[writer].s.public if token == "s" else payload(number - 1)}
    return {"prologue": session.prologue} if token == "prologue" else {}


def meant(session: Session, before: str, right: str, wrong: str) -> Values:
    """What each name in an equation of a line means."""
    words, now, yours = right.split(), values_in(right), values_in(wrong)
    at = {
        "nothing": b"", "32 zeros": bytes(32), "16 zero bytes": bytes(16), "a zero byte": b"\0",
        "a byte 05": b"\5", "a line feed": b"\n",
        "name": f"Noise_{session.pattern}_25519_ChaChaPoly_SHA256".encode(),
    }
    at |= {name: it for name, it in values_in(before).items() if name != "bytes"} if before else {}
    at |= {f"right {name}": it for name, it in now.items()} | {f"your {name}": it for name, it in yours.items()}
    at["n"] = bytes(4) + struct.pack("<Q", int(before.split()[11]) if before else 0)
    at |= taken(session, words, now)
    at["mixed"] = now.get("bytes", at.get("prologue", at.get("public key", b"")))
    return at


def is_nonce(text: str, right: int, yours: int) -> bool:
    """Whether the equation of a logged nonce holds."""
    said = re.fullmatch(r"right n ([+-]) (\d+)", text)
    if not said:
        return int(text) == yours
    return yours == right + (int(said[2]) if said[1] == "+" else -int(said[2]))


def faults_of(printed: str, at: Values, right: Values, yours: Values, nonces: list[int]) -> tuple[int, list[str]]:
    """How many equations are printed, and what isn't true of the lines that say what the values show."""
    count, faults = 0, []
    shown = [line.strip() for line in printed.split("what they show", 1)[-1].splitlines() if line.startswith("    ")]
    for line in shown:
        said = re.fullmatch(r"(bytes|h|ck|k) = (.*?)(, the shortest of \d+ equations that hold)?", line)
        if said:
            count += 1
            if not holds(said[1], said[2], at, yours):
                faults.append(f"doesn't hold: {line}")
        elif line.startswith("n = "):
            count += 1
            if not is_nonce(line.removeprefix("n = "), *nonces) or nonces[0] == nonces[1]:
                faults.append(f"doesn't hold: {line}")
        elif line.endswith(" is right") and yours.get(line.split()[0]) != right.get(line.split()[0]):
            faults.append(f"isn't right: {line}")
    return count, faults


def main(words: list[str]) -> int:
    program, seed = words[0], int(words[1]) if len(words) > 1 else 99
    draw = random.Random(seed)
    explained = named = 0
    faults: list[str] = []
    with tempfile.TemporaryDirectory() as folder:
        log_path, file_path = pathlib.Path(folder, "yours.log"), pathlib.Path(folder, "right.vector")
        for number, (mistake, (patterns, change)) in enumerate(PLANTED.items()):
            pattern, role = draw.choice(patterns.split()), draw.choice(("initiator", "responder"))
            session = session_of(pattern, b"abc", seed * 100 + number)
            events, right, wrong = logs(session, role, change)
            log_path.write_text("".join(line + "\n" for line in wrong))
            file_path.write_text(vector(program, session, events))
            ran = subprocess.run(
                [program, "compare", str(log_path), str(file_path)], stdout=subprocess.PIPE, text=True, check=False
            )
            found = re.match(r"differs at line (\d+)", ran.stdout)
            if not found or NOT_NAMED not in ran.stdout:
                named += bool(found)
                continue
            place = int(found[1]) - 1
            at = meant(session, right[place - 1] if place else "", right[place], wrong[place])
            nonces = [int(log[place].split()[11]) for log in (right, wrong)]
            count, more = faults_of(ran.stdout, at, values_in(right[place]), values_in(wrong[place]), nonces)
            explained += count > 0 or "is the text" in ran.stdout
            faults += [f"mistakes: {mistake}, {pattern}: {it}" for it in more]
            if not count:
                print(f"mistakes: no equation: {mistake}, {pattern}:\n{ran.stdout}", file=sys.stderr)
    for fault in faults:
        print(fault, file=sys.stderr)
    print(
        f"mistakes: of {len(PLANTED)} without a name {explained} get an equation, {named} a name; "
        f"{len(faults)} equations don't hold; seed {seed}"
    )
    return 0 if explained >= LEAST and not faults else 1


if __name__ == "__main__":
    sys.exit(main(sys.argv[1:]))
