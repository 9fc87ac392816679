#!/usr/bin/env python3
"""Logs that lack lines: gaps.py PROGRAM [SEED].

400 logs of right parties lack lines anywhere, end early, or have `?` for values, and half of them are cut off in their
last line: `noise compare` may say of none that it differs. 300 logs of parties with a mistake of the transport lack
lines too: where a mistake is named, it is the one that was made. One of the mistakes is a log's alone: `n` after the
message in place of before. It writes what failed, and a last line with the counts.
"""

from __future__ import annotations

import pathlib
import random
import subprocess
import sys
import tempfile

sys.dont_write_bytecode = True

# pylint: disable=wrong-import-position
import named  # noqa: E402
from mistaken import Session, run  # noqa: E402

LATE = "n after the message"

# The mistakes of the transport, and the words that name each, worked out by hand.
WORDS = {
    LATE: "n is one too great",
    **{
        mistake: named.CASES[mistake].words
        for mistake in (
            "one-counter", "rekey-one-later", "rekey-sets-nonce-back", "rekey-by-nonce", "rekey-last-bytes",
            "transport-keys-exchanged", "transport-from-one",
        )
    },
}


# Where a log has one message of a direction, n = 1 in place of 0 is of both mistakes, and the words of one are right of
# the other: n is one too great.
SAME = {"transport-from-one": WORDS[LATE]}


def with_late_nonce(line: str) -> str:
    """The line of a party that logs n after the message."""
    words = line.split(" ")
    if words[4] in ("sent", "opened"):
        words[11] = str(int(words[11]) + 1)
    return " ".join(words)


def with_gaps(draw: random.Random, lines: list[str]) -> list[str]:
    """Some of the lines of a log, in their order, at least one."""
    kind = draw.choice(("anywhere", "transport", "first of the transport", "Rekey", "end"))
    places = [number for number, line in enumerate(lines) if " transport " in line]
    if kind == "anywhere":
        kept = [line for line in lines if draw.random() < 0.7]
    elif kind == "transport":
        kept = [line for line in lines if " transport " not in line or draw.random() < 0.6]
    elif kind == "first of the transport" and places:
        kept = lines[: places[0]] + lines[places[0] + 1 :]
    elif kind == "Rekey":
        kept = [line for line in lines if " renewed " not in line]
    else:
        kept = lines[: draw.randint(1, len(lines))]
    return kept or lines[:1]


def in_other_form(draw: random.Random, line: str) -> str:
    """A line with `?` for some of its values."""
    words = line.split(" ")
    return " ".join("?" if place > 6 and draw.random() < 0.1 else word for place, word in enumerate(words))


def compared(program: str, folder: pathlib.Path, session: Session, events: list, log: list[str], cut: int = 0) -> str:
    """What `noise compare` prints of a log without so many bytes at its end."""
    log_path, file_path = folder / "yours.log", folder / "right.vector"
    text = "".join(line + "\n" for line in log)
    log_path.write_text(text[: len(text) - cut])
    file_path.write_text(named.vector(program, session, events))
    command = [program, "compare", str(log_path), str(file_path)]
    return subprocess.run(command, stdout=subprocess.PIPE, stderr=subprocess.STDOUT, text=True, check=False).stdout


def drawn(draw: random.Random, patterns: str, mistake: str, number: int) -> tuple[Session, list, list[str]]:
    """A run of a pattern, at an interval, with a mistake of both parties, and the log of one of them or of both."""
    session = named.session_of(draw.choice(patterns.split()), draw.choice((b"", b"abc")), number)
    session = session._replace(interval=draw.choice((0, 1, 2, 5)))
    made = {role: "" if mistake == LATE else mistake for role in ("initiator", "responder")}
    events, log = run(session, made, lambda n: b"payload %d" % (n + 1), draw.choice((3, 6, 9)))
    role = draw.choice(("initiator", "responder", ""))
    return session, events, [line for line in log if not role or f"trace {role} " in line]


def accused(program: str, draw: random.Random, folder: pathlib.Path) -> list[str]:
    """What is said of right logs that lack lines, where it isn't that they agree or end."""
    faults = []
    for number in range(400):
        session, events, log = drawn(draw, "XX IK NN XXpsk3 KK NNpsk0 X", "", number)
        lines = [in_other_form(draw, line) for line in with_gaps(draw, log)]
        ends = random.Random(number)
        cut = ends.choice((1, 2, 3, ends.randint(4, len(lines[-1])))) if number % 2 and len(lines) > 1 else 0
        said = compared(program, folder, session, events, lines, cut)
        if not said.startswith(("agrees in ", "ends before ")):
            place = f"{session.pattern}, interval {session.interval}, without {cut} bytes"
            faults.append(f"a right log of {place} is accused:\n{said}")
    return faults


def misnamed(program: str, draw: random.Random, folder: pathlib.Path) -> tuple[int, list[str]]:
    """Of the logs with a mistake, how many name it, and what is said where another is named."""
    count = 0
    faults = []
    for number in range(300):
        mistake = draw.choice(sorted(WORDS))
        session, events, log = drawn(draw, "NN XX", mistake, number)
        lines = with_gaps(draw, [with_late_nonce(line) for line in log] if mistake == LATE else log)
        said = compared(program, folder, session, events, lines)
        if WORDS[mistake] in said or SAME.get(mistake, WORDS[mistake]) in said:
            count += 1
        elif any(head in said for head in named.SAID):
            faults.append(f"{mistake}, {session.pattern}, interval {session.interval}, another is named:\n{said}")
    return count, faults


def main(words: list[str]) -> int:
    program, draw = words[0], random.Random(int(words[1]) if len(words) > 1 else 99)
    with tempfile.TemporaryDirectory() as folder:
        wrong = accused(program, draw, pathlib.Path(folder))
        count, others = misnamed(program, draw, pathlib.Path(folder))
    for fault in [*wrong, *others]:
        print(f"mistakes: {fault}", file=sys.stderr)
    print(
        f"mistakes: 400 right logs that lack lines, {len(wrong)} accused; of 300 with a mistake of the transport "
        f"{count} named, {len(others)} as another"
    )
    return 1 if wrong or others or count < 100 else 0


if __name__ == "__main__":
    sys.exit(main(sys.argv[1:]))
