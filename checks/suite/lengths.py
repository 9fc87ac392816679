"""Counts the lengths that the suite reaches, mod 64: of texts that are encrypted and decrypted, by ChaCha20's blocks of
64 bytes; and of texts that are hashed after `h`, by SHA-256's. All have to be there, and those of 0 to 130 bytes.

    lengths.py SUITE.json
"""

from __future__ import annotations

import json
import sys
from pathlib import Path
from typing import Any

MOST = 130
KINDS = ("hashed", "encrypted in the handshake", "encrypted by the transport")


def length_of(value: Any) -> int:
    return len(value) // 2 if isinstance(value, str) else value["count"]


def messages_of(group: dict) -> list[tuple[str, int]]:
    """What is hashed and encrypted of the payloads of a right conversation: the kind, and the length."""
    found, is_sealed = [("hashed", length_of(group["prologue"]))], False
    lines = group["pattern"][group["pattern"].index("...") + 1 if "..." in group["pattern"] else 0 :]
    has_psk = bool(group["psks"])
    for number, message in enumerate(group["messages"]):
        length = length_of(message["payload"])
        if number >= group["handshakeMessages"]:
            found.append(("encrypted by the transport", length))
            continue
        tokens = lines[number][3:].split(", ")
        is_sealed = is_sealed or any(it not in ("e", "s") or it == "e" and has_psk for it in tokens)
        found.append(("hashed", length + 16 * is_sealed))
        if is_sealed:
            found.append(("encrypted in the handshake", length))
    return found


def main(words: list[str]) -> int:
    groups = json.loads(Path(words[0]).read_text("ascii"))["testGroups"]
    reached: dict[str, set[int]] = {kind: set() for kind in KINDS}
    for group in groups:
        if group["type"] == "NoiseHandshake" and any(test["result"] == "valid" for test in group["tests"]):
            for kind, length in messages_of(group):
                reached[kind].add(length)
    faults = []
    for kind, lengths in reached.items():
        rests = {it % 64 for it in lengths}
        short = set(range(MOST + 1)) - lengths
        print(f"lengths: {kind}: {len(rests)} of 64 lengths mod 64, {MOST + 1 - len(short)} of {MOST + 1} up to {MOST}")
        faults += [kind] if len(rests) < 64 or short else []
    return int(bool(faults))


if __name__ == "__main__":
    sys.exit(main(sys.argv[1:]))
