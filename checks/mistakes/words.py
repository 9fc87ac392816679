#!/usr/bin/env python3
"""What is said of logs in other words: words.py PROGRAM [SEED].

Each log is that of a party, with other words in one line or in all. Where the party is right no mistake is named, and
what is printed has the words that stand beside it here. Where it isn't, its mistake is named. It writes what failed,
and a last line with the counts.
"""

from __future__ import annotations

import pathlib
import subprocess
import sys
import tempfile
from collections.abc import Iterator

sys.dont_write_bytecode = True

# pylint: disable=wrong-import-position
import named  # noqa: E402
from mistaken import Event, Session, run  # noqa: E402

UNKNOWN = "words that aren't hex digits aren't compared"
DASH = "your log has - for a hash or a chaining key that this step has"
BYTES = "only the bytes differ, and h is that of the right ones"
REFUSED = "or it decrypts with another key than k, or with other associated data than h"
AGREES, DIFFERS = "agrees in ", "differs at line "
NO_BYTES = ("none", "None", "null", "nil", "(none)")
NO_KEY = (*NO_BYTES, "00" * 32)
PREFIXES = ("TRACE noise: trace", "level=trace msg=trace", "trace responder: trace", "[trace]\ttrace", '"trace')
NO_HEX = ("<hash>", '"..."', ":".join(["ab"] * 32), "undefined")


def payload(number: int) -> bytes:
    return b"payload %d" % (number + 1)


def in_other_words(lines: list[str], texts: dict[str, str]) -> Iterator[tuple[list[str], str]]:
    """Right logs with other words in one line, and what has to be said of each."""
    for number, line in enumerate(lines):
        words = line.split(" ")
        for place, word, said in others_of(words, texts):
            changed = [*words[:place], word, *words[place + 1 :]]
            yield [*lines[:number], " ".join(changed), *lines[number + 1 :]], said


def others_of(words: list[str], texts: dict[str, str]) -> Iterator[tuple[int, str, str]]:
    """What may stand in place of a word of a line: the place, the word, and what has to be said."""
    is_step = words[2].isdigit() or words[2] == "start"
    yield from ((0, word, AGREES) for word in PREFIXES)
    yield 11, "000" + words[11], AGREES
    if words[10] == "-":
        yield from ((10, word, AGREES) for word in NO_KEY)
    if words[7] == "-":
        yield from ((7, word, AGREES) for word in NO_BYTES)
    if is_step:
        yield 9, "-", DASH
        yield from ((place, word, UNKNOWN) for place in (8, 9, 10) for word in NO_HEX if words[place] != "-")
    if words[4] == "payload" and words[7] != texts[words[2]]:
        yield 7, texts[words[2]], BYTES


def wrong_words(lines: list[str]) -> Iterator[list[str]]:
    """Logs in which one line has a word for no key, or a key of zeros, where there is a key."""
    for number, line in enumerate(lines):
        words = line.split(" ")
        if words[10] != "-":
            for word in NO_KEY:
                yield [*lines[:number], " ".join([*words[:10], word, words[11]]), *lines[number + 1 :]]


def ends(lines: list[str], number: int) -> Iterator[tuple[str, str, bool]]:
    """Ends without LF of a log before a line: each end, what has to be said of it, and whether the line differs."""
    words = lines[number].split(" ")
    nonce = f"the last line, {number + 1}, has no LF: its nonce may be cut off, and isn't compared\n"
    yield " ".join(words[:8]), f"the last line, {number + 1}, is cut off\n", False
    for word in ("7", words[11], words[11] + "\t", "7 "):
        is_cut = word[-1].isdigit()
        yield " ".join([*words[:11], word]), nonce if is_cut else "", word == "7 " and words[11] != "7"
    yield " ".join([*words[:10], "ab" * 32, "7"]), nonce, True


def compared(
    program: str, folder: pathlib.Path, session: Session, events: list[Event], lines: list[str], end: str = ""
) -> str:
    """What is printed of a log of these lines, and of an end without LF."""
    log_path, file_path = folder / "yours.log", folder / "right.vector"
    log_path.write_text("".join(line + "\n" for line in lines) + end)
    if not file_path.exists():
        file_path.write_text(named.vector(program, session, events))
    command = [program, "compare", str(log_path), str(file_path)]
    return subprocess.run(command, stdout=subprocess.PIPE, stderr=subprocess.STDOUT, text=True, check=False).stdout


def right_faults(program: str, pattern: str, seed: int) -> tuple[int, list[str]]:
    """Of a right party's log: how many forms of it there are, and of which another thing is said."""
    session, count = named.session_of(pattern, b"abc", seed), 0
    faults = []
    events, log = run(session, {"initiator": "", "responder": ""}, payload, 3)
    lines = [line for line in log if line.startswith("trace initiator ")]
    texts = {str(number + 1): payload(number).hex() for number in range(9)}
    with tempfile.TemporaryDirectory() as folder:
        for changed, said in in_other_words(lines, texts):
            printed = compared(program, pathlib.Path(folder), session, events, changed)
            count += 1
            if said not in printed or any(it in printed for it in (*named.SAID, named.NONE)):
                faults.append(f"{pattern}: not said: {said}:\n{printed}")
        printed = compared(program, pathlib.Path(folder), session, events, lines)
        if "decrypted texts compared: none" not in printed:
            faults.append(f"{pattern}: a log that agrees:\n{printed}")
        for number, line in enumerate(lines):
            words = line.split(" ")
            if words[4] == "payload" and words[7] != texts[words[2]]:
                printed = compared(program, pathlib.Path(folder), session, events, lines[:number])
                count += 1
                if REFUSED not in printed:
                    faults.append(f"{pattern}: not said: {REFUSED}:\n{printed}")
            for end, said, differs in ends(lines, number) if number else ():
                printed = compared(program, pathlib.Path(folder), session, events, lines[:number], end)
                count += 1
                if said not in printed or differs != printed.startswith(DIFFERS) or said == "" and "LF" in printed:
                    faults.append(f"{pattern}: cut off in line {number + 1}, {end}:\n{printed}")
        for changed in wrong_words(lines):
            printed = compared(program, pathlib.Path(folder), session, events, changed)
            count += 1
            if not printed.startswith(DIFFERS):
                faults.append(f"{pattern}: a log that has no key where there is one agrees:\n{printed}")
    return count + 1, faults


def wrong_faults(program: str, seed: int) -> tuple[int, list[str]]:
    """Of logs of parties with a mistake, with a word for no key in each line: how many, and of which the mistake isn't
    told."""
    faults = []
    mistakes = ("prologue-left-out", "hkdf-inputs-exchanged", "name-hashed", "written-ephemeral-not-hashed")
    for mistake in mistakes:
        session = named.session_of("NN", b"abc", seed)
        events, log = run(session, {"initiator": mistake, "responder": mistake}, payload, 3)
        lines = [line.split(" ") for line in log if line.startswith("trace initiator ")]
        changed = [" ".join([*words[:10], "None" if words[10] == "-" else words[10], words[11]]) for words in lines]
        with tempfile.TemporaryDirectory() as folder:
            printed = compared(program, pathlib.Path(folder), session, events, changed)
        others = {it.words for it in named.CASES.values() if it.words not in named.CASES[mistake].words}
        if named.CASES[mistake].words not in printed or any(it in printed for it in others):
            faults.append(f"{mistake} isn't told of a log with None for no key:\n{printed}")
    return len(mistakes), faults


def main(words: list[str]) -> int:
    program, seed = words[0], int(words[1]) if len(words) > 1 else 7
    count, faults = wrong_faults(program, seed)
    for pattern in ("XXpsk3", "IK", "NN"):
        more, found = right_faults(program, pattern, seed)
        count, faults = count + more, faults + found
    for fault in faults:
        print(f"mistakes: {fault}", file=sys.stderr)
    print(f"mistakes: {count} forms of logs, {len(faults)} not told as worked out by hand")
    return 1 if faults else 0


if __name__ == "__main__":
    sys.exit(main(sys.argv[1:]))
