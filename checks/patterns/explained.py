#!/usr/bin/env python3
"""What `noise explain` says of random valid patterns: explained.py PROGRAM COUNT SEED. Where each key and payload
begins and ends, what is encrypted, what is mixed in, which private keys are enough, who can have written a message and
whether a recording of it is accepted again has to be as it is worked out here, from the standard alone (Noise, 5.2,
5.3, 7.1, 7.3 and 9), with no line of the program's code or output."""

import itertools
import random
import re
import subprocess
import sys
import tempfile
from pathlib import Path
from typing import NamedTuple

ROLES = ("initiator", "responder")
KEYS = tuple(itertools.product(ROLES, "es"))
DHS = ("ee", "es", "se", "ss")  # the initiator's key, and the responder's
KEY_LEN, TAG_LEN = 32, 16


class Pattern(NamedTuple):
    """The keys that each party knows of the other before, the tokens of the messages, and the places of psks."""

    known: dict
    messages: list
    psks: list

    def sent(self):
        """The messages, with their senders: the initiator's first (7.1)."""
        return zip(itertools.cycle(ROLES), self.messages)

    def text(self, name):
        """The pattern's text, under this name."""
        lines = [f"{name}{'+'.join(f'psk{it}' for it in self.psks)}:"]
        pre = [f"  {arrow(it)} {', '.join(self.known[it])}" for it in ROLES if self.known[it]]
        lines += [*pre, "  ..."] if pre else []
        lines += [f"  {arrow(sender)} {', '.join(tokens)}" for sender, tokens in self.sent()]
        return "".join(f"{line}\n" for line in lines)


def arrow(role):
    return "->" if role == "initiator" else "<-"


def other(role):
    return ROLES[1 - ROLES.index(role)]


def parties_of(dh):
    """The two keys of a DH: a party and its key."""
    return list(zip(ROLES, dh))


# ---- random patterns


class Walk:
    """What stands before a place of a pattern, and the rules that hold there (7.3, 9.3)."""

    def __init__(self, known):
        self.keys = {(role, key) for role in ROLES for key in known[role]}
        self.dhs, self.has_psk = set(), False

    def add(self, sender, token):
        if token in DHS:
            self.dhs.add(token)
        elif token == "psk":
            self.has_psk = True
        else:
            self.keys.add((sender, token))

    def may_encrypt(self, sender):
        """A DH of the sender's static key comes with that of its ephemeral key and the same remote key (7.3), a psk
        with its ephemeral key (9.3)."""
        place = ROLES.index(sender)
        for dh in self.dhs:
            fresh = dh[:place] + "e" + dh[place + 1 :]
            if fresh not in self.dhs:
                return False
        return not self.has_psk or (sender, "e") in self.keys

    def choices(self, sender):
        """The tokens that may stand next: a key once, a DH once and of known keys, and a static key where its sender
        may encrypt."""
        keys = [it for it in "es" if (sender, it) not in self.keys and (it == "e" or self.may_encrypt(sender))]
        return keys + [it for it in DHS if it not in self.dhs and self.keys.issuperset(parties_of(it))]


def drawn(draw):
    """A pattern, or None where the walk ends at a broken rule."""
    pre = [[], [], [], ["s"], ["s"], ["e"], ["e", "s"]]
    known = {role: draw.choice(pre) for role in ROLES}
    count = draw.choice([1, 2, 2, 3, 3, 4, 5, 6, 7, 8])
    psks = [it for it in range(count + 1) if draw.random() < 0.3] if draw.random() < 0.5 else []
    walk, messages = Walk(known), []
    for number, sender in zip(range(1, count + 1), itertools.cycle(ROLES)):
        tokens = []
        if number == 1 and 0 in psks:
            tokens.append("psk")
            walk.add(sender, "psk")
        for _ in range(draw.randint(1, 1 if count > 6 else 5)):
            choices = walk.choices(sender)
            if choices:
                tokens.append(draw.choice(choices))
                walk.add(sender, tokens[-1])
        if not set(tokens) - {"psk"}:
            return None
        if number in psks:
            tokens.append("psk")
            walk.add(sender, "psk")
        if not walk.may_encrypt(sender):
            return None
        messages.append(tokens)
    if not all(walk.may_encrypt(it) for it in ROLES[:count]):
        return None
    return Pattern(known, messages, psks)


def patterns(draw, count):
    """So many different ones, as many of each count of messages as come."""
    found = {}
    while len(found) < count:
        pattern = drawn(draw)
        if pattern:
            found[pattern.text("Q")] = pattern
    return list(found.values())


# ---- what has to be said of them


def least(needed):
    """The least sets of private keys that have one key of each of these sets of two."""
    enough = [set(it) for n in range(5) for it in itertools.combinations(KEYS, n) if all(set(it) & dh for dh in needed)]
    return {frozenset(it) for it in enough if not any(less < it for less in enough)}


class Run:
    """A handshake as 5.3 and 9.2 process it, and what has to be said of it."""

    def __init__(self, pattern):
        self.pattern, self.facts = pattern, []
        self.sent = {(role, key) for role in ROLES for key in pattern.known[role]}
        self.chosen = set()    # keys that come in messages, which whoever writes them may choose
        self.mixed, self.count = [], 0
        self.has_key = bool(pattern.psks) and any("e" in it for it in pattern.known.values())

    def says(self, *fact):
        self.facts.append(fact)

    def key(self, what, chooser):
        """What is mixed into a key, which private keys are enough, and how many keys of its own somebody needs who
        takes the part of the chooser."""
        names = set(self.mixed) | ({"psk" if self.count == 1 else "psks"} if self.count else set())
        pairs = [set(parties_of(it)) for it in self.mixed]
        own = {it for it in self.chosen if it[0] == chooser}
        sent = {"e"} if (chooser, "e") in own else set()
        parts = sorted((it for it in least(pairs) if it <= own), key=len)
        part = [sorted(sent | {key for _, key in it}) for it in parts[:1]] if pairs else []
        self.says("key", what, names or {"nothing"}, least(pairs) if pairs else None, part)

    def origin(self, writer, has_tag):
        """Who can have written what is sent now, and whether a recording is accepted again."""
        if not has_tag:
            self.says("origin", "anyone: it has no tag", None, True)
            return
        pairs = [set(parties_of(it)) for it in self.mixed]
        others = [it for it in pairs if (writer, "e") not in it & self.chosen]
        is_fresh = (other(writer), "e") in self.sent
        if others:
            self.says("origin", "whoever has", least(others), not is_fresh)
        elif self.count:
            self.says("origin", "whoever has the psk", None, not is_fresh)
        else:
            self.says("origin", "anyone, with an e" if pairs else "anyone: everybody", None, not is_fresh)

    def token(self, sender, token, at):
        """Processes a token, and gives the place of the next one."""
        end = at
        if token in ("e", "s"):
            is_encrypted = token == "s" and self.has_key
            end += KEY_LEN + (TAG_LEN if is_encrypted else 0)
            self.says("piece", token, at, end - 1, is_encrypted)
            if is_encrypted:
                self.key("s", other(sender))
            if (sender, token) not in self.sent:
                self.chosen.add((sender, token))
            self.sent.add((sender, token))
            self.has_key = self.has_key or (token == "e" and bool(self.pattern.psks))
        else:
            self.has_key = True
            if token == "psk":
                self.count += 1
            else:
                self.mixed.append(token)
        return end

    def all_facts(self):
        for number, (sender, tokens) in enumerate(self.pattern.sent(), 1):
            front, at = len(self.facts), 0
            for token in tokens:
                at = self.token(sender, token, at)
            self.says("payload", at, self.has_key)
            if self.has_key:
                self.key("payload", other(sender))
            self.facts.insert(front, ("message", number, sender, at + (TAG_LEN if self.has_key else 0)))
            self.origin(sender, self.has_key)
        self.key("a recording", None)
        for writer in ROLES[: len(self.pattern.messages)]:
            self.origin(writer, True)
        return self.facts


# ---- what is said

WORDS = {f"the {role}'s {key}": frozenset([(role, key)]) for role, key in KEYS}
WORDS |= {f"the {role}'s e and s": frozenset([(role, "e"), (role, "s")]) for role in ROLES}
WORDS |= {f"both parties' {key}": frozenset((role, key) for role in ROLES) for key in "es"}
WORDS |= {
    f"the initiator's {one} and the responder's {two}": frozenset(parties_of(one + two)) for one, two in ("es", "se")
}
LINES = {
    "message": re.compile(r"  message (\d+), of the (\w+), is (\d+) bytes longer than its payload"),
    "piece": re.compile(r"    ([es]): bytes (\d+) to (\d+), (in the clear|encrypted)\b.*"),
    "payload": re.compile(r"    payload: from byte (\d+) on, (in the clear|encrypted)\b.*"),
    "key": re.compile(r"    key of (s|payload|a recording): (.*) mixed in\. (.*)"),
    "origin": re.compile(r"    (?:it|the initiator's|the responder's) can be written by (.*)"),
    "again": re.compile(r"    a recording of it is (accepted again|refused): .*"),
}


def ways(text):
    """The sets of private keys of a text that names them."""
    return {WORDS[it] for it in text.split(", or ")}


def key_fact(what, mixed, text):
    found = re.fullmatch(
        r"Enough: ([^.;]*)(?:; and in each case the psks?)?\.(?: Whoever takes the \w+'s part needs only "
        r"(an e|an s|an e and an s) of its own(?: and the psks?)?\.)?",
        text,
    )
    is_none = text.startswith("No DH") or re.fullmatch(r"Enough: the psks? alone\.", text)
    part = re.findall("an? ([es])", found[2]) if found and found[2] else None
    return ("key", what, set(mixed.split(", ")), None if is_none else ways(found[1]), [part] if part else [])


def origin_fact(text):
    found = re.fullmatch(r"whoever has ([^.;]*)(?:; and in each case the psks?)?\.", text)
    if found and found[1] not in ("the psk", "the psks"):
        return ["origin", "whoever has", ways(found[1])]
    return [
        "origin",
        "whoever has the psk" if found else re.match(r"anyone(, with an e|: everybody|: it has no tag)", text)[0], None,
    ]


def said_facts(lines):
    """The facts of the lines of an explanation."""
    facts = []
    for line in lines:
        for kind, form in LINES.items():
            found = form.fullmatch(line)
            if not found:
                continue
            words = [int(it) if it.isdigit() else it for it in found.groups()]
            if kind in ("piece", "payload"):
                facts.append((kind, *words[:-1], words[-1] == "encrypted"))
            elif kind == "key":
                facts.append(key_fact(*words))
            elif kind == "origin":
                facts.append(origin_fact(*words))
            elif kind == "again":
                facts[-1] = (*facts[-1], words[0] == "accepted again")
            else:
                facts.append((kind, *words))
    return facts


def explained(program, texts):
    """The lines of the explanation of each text, below the first; all have to be valid."""
    with tempfile.TemporaryDirectory() as folder:
        names = [f"{n}.pattern" for n in range(len(texts))]
        for name, text in zip(names, texts):
            Path(folder, name).write_text(text, encoding="ascii")
        ran = subprocess.run([program, "explain", *names], cwd=folder, capture_output=True, text=True, check=False)
    found = []
    for line in ran.stdout.splitlines():
        if not line.startswith(" "):
            found.append([])
            if ": valid " not in line:
                sys.exit(f"patterns: a pattern that is valid by the standard's rules: {line}\n{texts[len(found) - 1]}")
        found[-1].append(line)
    if ran.returncode or ran.stderr or len(found) != len(texts):
        sys.exit(f"patterns: explain: status {ran.returncode}, {len(found)} of {len(texts)} patterns: {ran.stderr}")
    return [it[1:] for it in found]


def main():
    program, count, seed = sys.argv[1], int(sys.argv[2]), int(sys.argv[3])
    drawn_ones = patterns(random.Random(seed), count)
    texts = [pattern.text(f"Q{n}") for n, pattern in enumerate(drawn_ones)]
    for pattern, text, lines in zip(drawn_ones, texts, explained(str(Path(program).resolve()), texts)):
        for expected, said in itertools.zip_longest(Run(pattern).all_facts(), said_facts(lines)):
            if expected != said:
                sys.exit(
                    f"patterns: explain says something else of this pattern:\n{text}expected {expected}\nsaid {said}"
                )
    lengths = [len(it.messages) for it in drawn_ones]
    print(
        f"patterns: {count} random patterns, of {min(lengths)} to {max(lengths)} messages, are explained as another "
        f"program works them out (seed {seed})"
    )
    known = sum(any(pattern.known.values()) for pattern in drawn_ones)
    with_psks = sum(bool(pattern.psks) for pattern in drawn_ones)
    print(f"patterns: {known} random patterns with keys before, and {with_psks} with psks")


if __name__ == "__main__":
    main()
