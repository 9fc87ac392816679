#!/usr/bin/env python3
"""Puts 68 mistakes into an implementation of its own (mistaken.py), and looks for each with `noise compare` and the log
that DEBUGGING.md asks for.

    named.py PROGRAM [SEED]

A mistake, the role that makes it, and the pattern are drawn; 20 of the logs have a second, harmless difference. What is
printed has to name the mistake: by the words that stand beside it here, worked out by hand. A mistake of frames alone
is named by `noise test`. At least 64 have to be named, and no other mistake may be said to be the one. In the log of a
right party bytes are put beside each step that has none, and other words in place of right ones: no mistake may be
named of it. It writes what failed, and a last line with the counts.
"""

from __future__ import annotations

import pathlib
import random
import subprocess
import sys
import tempfile
from collections.abc import Callable, Iterator
from typing import NamedTuple

from mistaken import PATTERNS, Event, Key, Keys, Session, digest, run

BOTH = ("initiator", "responder", "both")
NONE = "none of the mistakes that are tried gives your values"
BYTES = "only your log's bytes differ: this step has none, so log -"
FORM = "what your log has here is right"
SAID = ("the mistake that gives your values:", "each of these mistakes gives your values:")


class Case(NamedTuple):
    """A mistake's patterns, the words that name it, the roles that can make it, and what is set."""

    patterns: str
    words: str
    roles: tuple[str, ...] = BOTH
    prologue: bytes | None = None
    is_empty: bool = False


CASES = {
    "nonce-big-endian": Case("XX XXpsk3", "the nonce is big-endian"),
    "nonce-in-first-bytes": Case("XX XXpsk3", "the nonce is in the first 8 bytes"),
    "empty-prologue-left-out": Case("NN XX IK", "MixHash is left out", prologue=b""),
    "prologue-left-out": Case("NN XX KK", "MixHash is left out", prologue=b"abc"),
    "hkdf-inputs-exchanged": Case("NN XX IK", "HKDF's inputs are exchanged"),
    "psk-at-start": Case("NNpsk2 XXpsk3", "are left out, or come later"),
    "payload-not-hashed": Case("NN XX IK", "MixHash of this text is left out"),
    "plain-text-hashed": Case("XX IX NN", "MixHash takes the plain text"),
    "transport-keys-exchanged": Case("NN XX", "another key of the transport"),
    "psk-outputs-exchanged": Case("NNpsk0 XXpsk3", "HKDF's outputs are exchanged"),
    "psk-ephemeral-not-mixed": Case("NNpsk0 XXpsk3", "MixKey of e is left out"),
    "tag-without-key": Case("IX", "without a key a text has no tag"),
    "hashed-before-decryption": Case("XX IK", "h after this text"),
    "length-counts-itself": Case("NN XX", "differs at byte 1: length of message"),
    "length-little-endian": Case("NN XX", "differs at byte 0: length of message"),
    "rekey-sets-nonce-back": Case("NN XX", "Rekey keeps n"),
    "nonce-kept": Case("XX IX", "each new key sets it to 0"),
    "name-hashed": Case("NN XX IK", "the name is hashed"),
    "name-padded": Case("XXpsk3 NNpsk0 NNpsk2", "the name is cut to 32 bytes"),
    "pre-message-left-out": Case("IK KK X", "MixHash is left out"),
    "pre-message-before-prologue": Case("IK KK X", "are left out, or come later"),
    "es-se-exchanged": Case("IX KK", "another DH result or psk of the run", ("responder",)),
    "hkdf-unchained": Case("NN XX IK", "HKDF's second output doesn't take the first"),
    "ss-as-es": Case("IK KK X", "another DH result or psk of the run"),
    "written-ephemeral-not-hashed": Case("NN XX IK", "MixHash is left out"),
    "dh-reversed": Case("NN XX IK", "reversed"),
    "no-associated-data": Case("XX IK NN", "there is no associated data"),
    "chaining-key-kept": Case("NN XX", "ck stays as it was"),
    "transport-associated-data": Case("NN XX", "its associated data isn't empty", ("responder",)),
    "transport-from-one": Case("NN XX", "Split's keys begin with 0"),
    "psk-by-mix-key": Case("NNpsk0 XXpsk3", "MixKey stands in place of MixKeyAndHash"),
    "empty-text-in-clear": Case("XX", "there is a key, so", is_empty=True),
    "rekey-by-nonce": Case("NN XX", "Rekey's nonce is n"),
    "rekey-last-bytes": Case("NN XX", "Rekey takes the last 32 of 48 bytes"),
    "name-lower-case": Case("NN XX IK", "lower-case letters"),
    "chaining-key-of-zeros": Case("NN XX", "ck begins as zeros"),
    "hkdf-from-zero": Case("NN XX", "HKDF counts its outputs from 0"),
    "outputs-exchanged": Case("NN XX IK", "HKDF's outputs are exchanged"),
    "tag-not-hashed": Case("XX IK NN", "MixHash takes the bytes without the tag"),
    "static-in-clear": Case("XX IK", "there is a key, so"),
    "read-ephemeral-not-hashed": Case("NN XX", "MixHash is left out"),
    "split-of-hash": Case("NN XX", "Split's HKDF takes ck and h"),
    "split-of-zeros": Case("NN XX", "Split's HKDF takes ck and 32 zero bytes"),
    "tag-in-front": Case("XX IK NN", "the tag is in front"),
    "chaining-key-as-data": Case("XX IK NN", "the associated data is ck"),
    "hashed-before-encryption": Case("XX IK NN", "MixHash of the plain text comes before encryption", ("both",)),
    "input-digested": Case("NN XX IK", "HKDF takes SHA256 of the DH result"),
    "length-hashed": Case("NN XX IK", "MixHash takes a length in front"),
    "length-hashed-little": Case("NN XX IK", "MixHash takes a length in front", prologue=b"abc"),
    "length-hashed-4": Case("NN XX IK", "MixHash takes a length in front"),
    "length-hashed-4-little": Case("NN XX IK", "MixHash takes a length in front", prologue=b"abc"),
    "length-mixed": Case("NN XX IK", "a MixHash of its own takes a length"),
    "length-mixed-4-little": Case("NN XX IK", "a MixHash of its own takes a length", prologue=b"abc"),
    "pre-message-mixed-wrongly": Case("EPH EPHpsk0", "MixKey of e is "),
    "es-forgotten": Case("XX", "are left out, or come later", ("responder", "both")),
    "es-forgotten-in-clear": Case("IK", "are left out, or come later", ("initiator", "both")),
    "payload-before-static": Case("XX", "are left out, or come later", ("initiator", "both")),
    "nonce-zero-each-message": Case("XX XXpsk3", "n is 0 here"),
    "pre-message-of-own-key": Case("IK X", "MixHash takes another public key of the file", ("initiator",)),
    "own-ephemeral-hashed": Case("NN XX IK", "MixHash takes another public key of the file"),
    "prologue-as-digits": Case("NN XX IK", "MixHash takes the hex digits as text", prologue=b"abc"),
    "open-earlier-hash": Case("NN XX IK", "h is that of an earlier step"),
    "split-inputs-exchanged": Case("NN XX", "Split's HKDF has its inputs exchanged"),
    "rekey-one-later": Case("NN XX", "Rekey hasn't come yet"),
    "one-counter": Case("NN XX", "each direction has its own n"),
    "new-key-from-one": Case("NN XX IK", "n begins at 1"),
    "split-later": Case("NN XX", "Split takes the second and the third output"),
    "ephemeral-as-static": Case("XX IX", "the text is another public key of the file"),
}

# Differences of a log that change nothing.
HARMLESS = (
    "carriage returns", "byte order mark", "prefix", "indentation", "upper case", "0x", "bytes of Python", "role",
    "other lines", "spaces",
)


def harmless(difference: str, lines: list[str]) -> bytes:
    def each(change: Callable[[str], str]) -> list[str]:
        return [" ".join(change(word) if len(word) >= 32 else word for word in line.split(" ")) for line in lines]

    end, front = "\n", b""
    if difference == "carriage returns":
        end = "\r\n"
    elif difference == "byte order mark":
        front = b"\xef\xbb\xbf"
    elif difference == "prefix":
        lines = ["INFO:root:" + line for line in lines]
    elif difference == "indentation":
        lines = ["\t  " + line for line in lines]
    elif difference == "upper case":
        lines = each(str.upper)
    elif difference == "0x":
        lines = each(lambda word: "0x" + word)
    elif difference == "bytes of Python":
        lines = each(lambda word: f"b'{word}'")
    elif difference == "role":
        lines = [line.replace("trace i", "trace I").replace("trace r", "trace R") for line in lines]
    elif difference == "other lines":
        lines = ["connected", *lines, "done"]
    elif difference == "spaces":
        lines = [line.replace(" ? ? ", "  ? ? ") + " " for line in lines]
    return front + "".join(line + end for line in lines).encode()


def secret(seed: int, name: str) -> bytes:
    return digest(f"{seed} {name}".encode())


def session_of(pattern: str, prologue: bytes, seed: int) -> Session:
    keys = {
        role: Keys(Key(secret(seed, role + " e")), Key(secret(seed, role + " s")))
        for role in ("initiator", "responder")
    }
    session = Session(pattern, prologue, keys, [], 2)
    return session._replace(psks=[secret(seed, f"psk {place}") for place in session.places])


def pattern_text(session: Session) -> str:
    """The text of a pattern of one's own, which has a key of a pre-message that no fundamental pattern has, or
    nothing."""
    known, messages = PATTERNS[session.base]
    if not any(token == "e" for _, token in known):
        return ""
    lines = [
        f"{session.pattern}:", *(f"  {'->' if role == 'initiator' else '<-'} {token}" for role, token in known),
        "  ...",
    ]
    for number, tokens in enumerate(messages):
        words = [*("psk" for place in session.places if place == number == 0), *tokens.split()]
        words += ["psk" for place in session.places if place == number + 1]
        lines.append(f"  {'->' if number % 2 == 0 else '<-'} {', '.join(words)}")
    return "".join(line + "\n" for line in lines)


def vector(program: str, session: Session, events: list[Event]) -> str:
    """The vector file that DEBUGGING.md asks for: the template with the keys, payloads and frames of the run."""
    own = pattern_text(session)
    name = "-" if own else f"Noise_{session.pattern}_25519_ChaChaPoly_SHA256"
    text = subprocess.run([program, "template", name], input=own, stdout=subprocess.PIPE, text=True, check=True).stdout
    one, two = session.keys["initiator"], session.keys["responder"]
    digits = {"e1": one.e.public, "51": one.s.public, "e2": two.e.public, "52": two.s.public}
    digits |= {
        "ee": one.e.agree(two.e.public), "e5": one.e.agree(two.s.public), "5e": one.s.agree(two.e.public),
        "55": one.s.agree(two.s.public),
    }
    digits |= {f"a{place}": psk for place, psk in zip(session.places, session.psks, strict=True)}
    for placeholder, data in digits.items():
        text = text.replace(" " + placeholder * 32, " " + data.hex())
    text = (
        text.replace("vector 1", "vector 2", 1)
        .replace("prologue -", f"prologue {session.prologue.hex() or '-'}")
        .replace("interval 0", f"interval {session.interval}")
    )
    lines = [line for line in text.splitlines() if not line.startswith("say")]
    lines += [f"say {role} {payload.hex() or '-'} -" for role, payload, _ in events]
    counts = {"initiator": 0, "responder": 0}
    for role, payload, frame in events:
        other = "responder" if role == "initiator" else "initiator"
        lines += [f"expect wrote {role} {counts[role]} {frame.hex()}", f"expect payload {other} {payload.hex() or '-'}"]
        counts[role] += 1
    return "".join(line + "\n" for line in lines)


def verdict(printed: str, words: str) -> str:
    """`named` where the words are among those of the mistakes that are said, `misleading` where another is said to be
    the one, or else `missing`."""
    if words in printed and NONE not in printed:
        return "named"
    return "misleading" if SAID[0] in printed or "if your end refused this message" in printed else "missing"


def other_forms(words: list[str]) -> Iterator[tuple[int, str, str]]:
    """What a right line of a key schedule may have in place of one of its words: the place, the word, and what has to
    be said of it. The last is a message that is dropped, with its bytes."""
    part, token, some = words[2], words[4], "ab" * 32
    if token not in ("payload", "s") and words[7] == "-":
        yield 7, some, BYTES
    for place in (8, 9):
        if part == "transport":
            yield place, some, FORM
        elif part == "open":
            yield place, "-", FORM
    if token == "opened":
        yield 4, "dropped", "your end refused a right message with the right key and n"


def right_faults(program: str, pattern: str, seed: int, room: pathlib.Path) -> tuple[int, list[str]]:
    """Of the log of two right parties, each line in each other form: how many, and of which a mistake is named."""
    session, count = session_of(pattern, b"abc", seed), 0
    faults: list[str] = []
    events, log = run(session, {"initiator": "", "responder": ""}, lambda n: b"payload %d" % (n + 1), 3)
    log_path, file_path = room / "right.log", room / "right.vector"
    file_path.write_text(vector(program, session, events))
    for number, line in enumerate(log):
        for place, word, said in other_forms(line.split()):
            words = line.split()
            words[place] = word
            if word == "dropped":
                words[7] = "ab" * 16
            log_path.write_text("".join(it + "\n" for it in [*log[:number], " ".join(words), *log[number + 1 :]]))
            files = [str(log_path), str(file_path)]
            ran = subprocess.run([program, "compare", *files], stdout=subprocess.PIPE, text=True, check=False)
            count += 1
            if said not in ran.stdout or any(it in ran.stdout for it in (*SAID, NONE)):
                faults.append(f"mistakes: misleading: {pattern}, a right log with {' '.join(words)}:\n{ran.stdout}")
    return count, faults


def check_right(program: str, seed: int) -> bool:
    """Whether no mistake is named of right logs in other forms."""
    count = 0
    faults: list[str] = []
    with tempfile.TemporaryDirectory() as folder:
        for pattern in ("XXpsk3", "IK", "NNpsk0"):
            more, found = right_faults(program, pattern, seed, pathlib.Path(folder))
            count, faults = count + more, faults + found
    for fault in faults:
        print(fault, file=sys.stderr)
    print(f"mistakes: {count} right lines in another form, {len(faults)} of which are said to be mistakes")
    return not faults


def main(words: list[str]) -> int:
    program, seed = words[0], int(words[1]) if len(words) > 1 else 76
    draw = random.Random(seed)
    counts = {"named": 0, "misleading": 0, "missing": 0}
    differing = set(draw.sample(sorted(CASES), 20))
    with tempfile.TemporaryDirectory() as folder:
        log_path, file_path = pathlib.Path(folder, "yours.log"), pathlib.Path(folder, "right.vector")
        for number, (mistake, case) in enumerate(CASES.items()):
            pattern, role = draw.choice(case.patterns.split()), draw.choice(case.roles)
            prologue = draw.choice((b"", b"abc")) if case.prologue is None else case.prologue
            difference = draw.choice(HARMLESS) if mistake in differing else ""
            session = session_of(pattern, prologue, seed * 100 + number)
            mistakes = {it: mistake if role in (it, "both") else "" for it in ("initiator", "responder")}
            events, log = run(session, mistakes, lambda n: b"" if case.is_empty else b"payload %d" % (n + 1), 3)
            shown = [line for line in log if role == "both" or f"trace {role} " in line]
            log_path.write_bytes(harmless(difference, shown))
            file_path.write_text(vector(program, session, events))
            command = "test" if case.words.startswith("differs at byte") else "compare"
            files = [str(file_path)] if command == "test" else [str(log_path), str(file_path)]
            ran = subprocess.run(
                [program, command, *files], stdout=subprocess.PIPE, stderr=subprocess.STDOUT, text=True, check=False
            )
            said = verdict(ran.stdout, case.words)
            counts[said] += 1
            if said != "named":
                print(
                    f"mistakes: {said}: {mistake}, {pattern}, {role}, "
                    f"{difference or 'no other difference'}:\n{ran.stdout}",
                    file=sys.stderr,
                )
    print(
        f"mistakes: of {len(CASES)} mistakes {counts['named']} named, {counts['misleading']} misleading, "
        f"{counts['missing']} not named; seed {seed}"
    )
    right = check_right(program, seed)
    return 0 if counts["named"] >= 64 and not counts["misleading"] and right else 1


if __name__ == "__main__":
    sys.exit(main(sys.argv[1:]))
