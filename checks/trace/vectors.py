"""Right vector files (docs/FILES.md), and the lines of their runs with the key schedules of both parties."""

import re
from typing import NamedTuple

from ends import ROLES, Datagrams, End, Keys, Line, other

# The messages of the fifteen patterns, and the tokens of their pre-messages, the initiator's first (Noise, 7.4 and
# 7.5).
PATTERNS = {
    "N": (("", "s"), "e es"),
    "K": (("s", "s"), "e es ss"),
    "X": (("", "s"), "e es s ss"),
    "NN": (("", ""), "e; e ee"),
    "NK": (("", "s"), "e es; e ee"),
    "NX": (("", ""), "e; e ee s es"),
    "KN": (("s", ""), "e; e ee se"),
    "KK": (("s", "s"), "e es ss; e ee se"),
    "KX": (("s", ""), "e; e ee se s es"),
    "XN": (("", ""), "e; e ee; s se"),
    "XK": (("", "s"), "e es; e ee; s se"),
    "XX": (("", ""), "e; e ee s es; s se"),
    "IN": (("", ""), "e s; e ee se"),
    "IK": (("", "s"), "e es s ss; e ee se"),
    "IX": (("", ""), "e s; e ee se s es"),
}


class Setup(NamedTuple):
    """What both parties start from."""

    name: bytes
    pre: dict
    messages: list
    psks: bool
    prologue: bytes
    interval: int
    secrets: list


class File(NamedTuple):
    """A vector file: the setup, the keys of each role, and its events."""

    setup: Setup
    keys: dict
    events: list
    window: int
    datagram_events: list


def bytes_of(word):
    """The bytes of a hex word."""
    return b"" if word == "-" else bytes.fromhex(word)


def pattern_of(name):
    """The pre-messages and the messages of a fundamental pattern with its psk indices (9.4), or None."""
    base, places = re.fullmatch(r"Noise_([A-Z][A-Z0-9]*)((?:psk\d(?:\+psk\d)*)?)_.*", name).groups()
    if base not in PATTERNS:
        return None
    pre, text = PATTERNS[base]
    messages = [message.split() for message in text.split(";")]
    for place in map(int, re.findall(r"\d", places)):
        if place == 0:
            messages[0].insert(0, "psk")
        else:
            messages[place - 1].append("psk")
    return dict(zip(ROLES, pre)), messages


def block_of(lines):
    """The pre-messages and the messages of the pattern text that a file has."""
    pre, messages = {role: "" for role in ROLES}, []
    lines.pop(0)
    before = "  ..." in lines[: lines.index("end")]
    while (line := lines.pop(0)) != "end":
        if line == "  ...":
            before = False
            continue
        arrow, tokens = line.split(maxsplit=1)
        if before:
            pre[ROLES[arrow == "<-"]] = tokens.replace(", ", "")
        else:
            messages.append(tokens.split(", "))
    return pre, messages


def keys_of(lines):
    """The keys of a party."""
    _, kind, *words = lines.pop(0).split(" ")
    public = {letter: bytes_of(word) for letter, word in zip("es", words) if word != "-"}
    answers = []
    while lines and lines[0].startswith("answer "):
        _, own, key, answer = lines.pop(0).split(" ")
        answers.append((own, bytes_of(key), bytes_of(answer)))
    return Keys(kind, public, answers)


def read(text):
    """A right vector file."""
    lines = text.rstrip("\n").split("\n")[1:]
    name = lines.pop(0).split(" ")[1]
    pre, messages = pattern_of(name) or block_of(lines)
    prologue, interval, secrets = bytes_of(lines.pop(0).split(" ")[1]), int(lines.pop(0).split(" ")[1]), []
    while lines[0].startswith("psk "):
        secrets.append(bytes_of(lines.pop(0).split(" ")[1]))
    psks = any("psk" in message for message in messages)
    setup = Setup(name.encode(), pre, messages, psks, prologue, interval, secrets)
    keys = {role: keys_of(lines) for role in ROLES}
    events = [line.split(" ") for line in lines if not line.startswith("expect ")]
    over = next((place for place, event in enumerate(events) if event[0] == "datagrams"), None)
    if over is None:
        return File(setup, keys, events, 0, [])
    return File(setup, keys, events[:over], int(events[over][1]), events[over + 1 :])


def happen(event, ends):
    """One event between the two parties."""
    word, role = event[0], event[1]
    end, peer = ends[role], ends[other(role)]
    if word in ("say", "write"):
        frame = end.write(bytes_of(event[2]))
        if word == "say" and frame is not None:
            peer.receive(frame)
    elif word == "raw":
        end.receive(bytes_of(event[2]))
    elif int(event[2]) < len(peer.frames):
        end.receive(peer.frames[int(event[2])])
    else:
        end.say(f"missing {role} {event[2]}")


def datagram_happens(event, ends):
    """One event between two parties that have gone over to datagrams."""
    word, role, given = event
    end, peer = ends[role], ends[other(role)]
    if word == "seal":
        end.seal(bytes_of(given))
    elif word == "foreign":
        end.open(bytes_of(given))
    elif int(given) < len(peer.sealed):
        end.open(peer.sealed[int(given)])
    else:
        end.end.say(f"missing {role} {given}")


def run(file):
    """The lines of the run of a file, with those of the key schedules."""
    lines, ends = [], {}
    for role in ROLES:
        ends[role] = End(role, file.setup, file.keys[role], file.keys[other(role)].public)
        lines += ends[role].lines
        ends[role].lines = lines
    for event in file.events:
        happen(event, ends)
    states = [Line(ends[role].state_line()) for role in ROLES]
    if not file.window:
        return lines + states
    if not all(end.can_go_over() for end in ends.values()):
        return [*lines, Line("no-datagrams"), *states]
    lines.append(Line(f"datagrams {file.window}"))
    for role in ROLES:
        ends[role].show_datagram_keys()
    over = {role: Datagrams(ends[role], file.window) for role in ROLES}
    for event in file.datagram_events:
        datagram_happens(event, over)
    return lines + [Line(f"state {role} datagrams {len(over[role].sealed)}") for role in ROLES]
