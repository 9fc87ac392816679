#!/usr/bin/env python3
"""Speaks the line protocol of the test vectors: lines.py PARTY. PARTY is a module beside this file, as
`party_dissononce`; another program needs what `answer` does, and no more."""

from __future__ import annotations

import importlib
import sys
from typing import Any

from runner import NotSupported


def data_of(word: str) -> bytes:
    return b"" if word in ("-", "empty") else bytes.fromhex(word)


def setup_of(words: list[str]) -> tuple[dict[str, Any], str]:
    """The set-up of a line `start`."""
    role, what, pattern, prologue, psks, *keys, protocol = words
    own = {it: "" if key == "empty" else key for it, key in zip(("e", "s", "re", "rs"), keys) if key != "-"}
    lines = [it if it == "..." else f"{it[:2]} {it[2:].replace(',', ', ')}" for it in pattern.split("/")]
    listed = [] if psks == "-" else [data_of(it).hex() for it in psks.split(",")]
    setup = {"protocol": protocol, "pattern": lines, "prologue": data_of(prologue), "psks": listed, role: own}
    return setup | ({} if what == "-" else {"what": what}), role


def answer(kind: Any, party: Any, word: str, words: list[str]) -> tuple[Any, bytes | None]:
    if word == "start":
        return kind(*setup_of(words)), None
    if word in ("write", "read"):
        return party, getattr(party, word)(data_of(words[0]))
    if word == "rekey":
        return party, party.rekey(words[0])
    if word == "nonce":
        return party, party.set_nonce(words[0], int(words[1]))
    return party, party.hash() if word == "hash" else party.remote_static()


def main(words: list[str]) -> int:
    kind, party = importlib.import_module(words[0]).Party, None
    for line in sys.stdin:
        word, *rest = line.rstrip("\n").split(" ", 10)
        try:
            party, data = answer(kind, party, word, rest)
            print("ok", (data or b"").hex() or "-", flush=True)
        except NotSupported as why:
            print("unsupported", why, flush=True)
        except kind.REFUSALS as refusal:
            print("refused", (kind.place(refusal) or "") if party else "", flush=True)
    return 0


if __name__ == "__main__":
    sys.exit(main(sys.argv[1:]))
