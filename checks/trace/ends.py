"""One end of a session, with the lines of its key schedule (Noise, 5.2, 5.3, 9.2, 11.3 and 11.4)."""

import hashlib
from typing import NamedTuple

from suite import LAST_NONCE, TAG_BYTES, hkdf, rekey, seal, unseal

ROLES = ("initiator", "responder")
MOST_BYTES = 65535


def other(role):
    """The other role."""
    return ROLES[1 - ROLES.index(role)]


def hex_word(text):
    """Bytes in hex, and `-` for none."""
    return text.hex() or "-"


class Line(NamedTuple):
    """A line of output: what is said of a key schedule has a role and a part of the run, `handshake` or `transport`."""

    text: str
    role: str = ""
    part: str = ""


class Stop(Exception):
    """Reading or writing stops at a token: its number, and the cause."""


class Schedule:
    """SymmetricState (5.2)."""

    def __init__(self, name):
        self.hash = name.ljust(32, b"\0") if len(name) <= 32 else hashlib.sha256(name).digest()
        self.chaining_key, self.key, self.nonce = self.hash, b"", 0

    def copy(self):
        """A state like this one."""
        made = Schedule(b"")
        made.hash, made.chaining_key, made.key, made.nonce = self.hash, self.chaining_key, self.key, self.nonce
        return made

    def words(self):
        """What a line says of the state."""
        return f"{self.hash.hex()} {self.chaining_key.hex()} {hex_word(self.key)} {self.nonce}"

    def mix_hash(self, text):
        """MixHash."""
        self.hash = hashlib.sha256(self.hash + text).digest()

    def mix_key(self, text):
        """MixKey."""
        self.chaining_key, self.key = hkdf(self.chaining_key, text, 2)
        self.nonce = 0

    def mix_key_and_hash(self, text):
        """MixKeyAndHash."""
        self.chaining_key, mixed, self.key = hkdf(self.chaining_key, text, 3)
        self.mix_hash(mixed)
        self.nonce = 0

    def encrypt(self, plaintext):
        """EncryptAndHash."""
        text = plaintext
        if self.key:
            text = seal(self.key, self.nonce, self.hash, plaintext)
            self.nonce += 1
        self.mix_hash(text)
        return text

    def decrypt(self, text):
        """DecryptAndHash: None where the tag is wrong."""
        plaintext = text
        if self.key:
            plaintext = unseal(self.key, self.nonce, self.hash, text)
            if plaintext is None:
                return None
            self.nonce += 1
        self.mix_hash(text)
        return plaintext


class Keys(NamedTuple):
    """The key pairs of a party: `xor`, or `table` with its DH results."""

    kind: str
    public: dict
    answers: list

    def agree(self, own, public):
        """What DH gives for an own key and a public key, or None."""
        if self.kind == "xor":
            return bytes(x ^ y for x, y in zip(self.public[own], public))
        fitting = [answer for letter, key, answer in self.answers if (letter, key) == (own, public)]
        return fitting[0] if fitting else None


class End:
    """One end, and the lines of its key schedule."""

    def __init__(self, role, setup, keys, remote):
        self.role, self.setup, self.keys = role, setup, keys
        self.remote = {letter: remote[letter] for letter in setup.pre[other(role)]}
        self.state, self.passed, self.phase = Schedule(setup.name), 0, "handshake"
        self.frames, self.held = [], b""
        self.secrets = list(setup.secrets)
        self.transport, self.nonces, self.starts = {}, {it: 0 for it in ROLES}, {}
        self.lines = []
        self.start()

    # ---- lines

    def say(self, text):
        """A line that `replay` prints too."""
        self.lines.append(Line(text))

    def show(self, part, place, rest):
        """A line of the key schedule; the place is the part as the line has it, with a number and a name."""
        self.lines.append(Line(f"trace {self.role} {place} {rest}", self.role, part))

    # ---- the start

    def mix_public(self, letter, key, state):
        """What a public key does to the state: in a pattern with psks an `e` is mixed as a key too (9.2). Gives the
        calls."""
        state.mix_hash(key)
        if letter == "e" and self.setup.psks:
            state.mix_key(key)
            return "MixHash,MixKey"
        return "MixHash"

    def start(self):
        """The name, the prologue, and the keys of the pre-messages, the initiator's first."""
        steps = [("name", "InitializeSymmetric", self.state.words())]
        self.state.mix_hash(self.setup.prologue)
        steps.append(("prologue", "MixHash", self.state.words()))
        for party in ROLES:
            known = self.keys.public if party == self.role else self.remote
            for letter in self.setup.pre[party]:
                call = self.mix_public(letter, known[letter], self.state)
                steps.append((f"{party}-{letter}", call, self.state.words()))
        for number, (name, call, words) in enumerate(steps):
            self.show("handshake", "start", f"{number} {name} {call} - - {words}")

    # ---- the handshake

    def is_turn(self):
        """Whether the next message is this party's."""
        return self.passed % 2 == ROLES.index(self.role)

    def tokens(self):
        """The tokens of the next message."""
        return self.setup.messages[self.passed]

    def agreed(self, token, remote):
        """What DH gives at a token: its first letter is the initiator's key (7.1)."""
        own, theirs = token if self.role == "initiator" else token[::-1]
        return self.keys.agree(own, remote[theirs])

    def message_len(self, payload):
        """How many bytes the next message has."""
        keyed, length = bool(self.state.key), payload
        for token in self.tokens():
            length += 32 if token in ("e", "s") else 0
            length += TAG_BYTES if token == "s" and keyed else 0
            keyed = keyed or token not in ("e", "s") or (token == "e" and self.setup.psks)
        return length + (TAG_BYTES if keyed else 0)

    def step(self, number, name, call, start, piece, state):
        """The line of a token or of the payload."""
        self.show(
            "handshake", str(self.passed + 1), f"{number} {name} {call} {start} {hex_word(piece)} {state.words()}"
        )

    def write_message(self, payload, head):
        """WriteMessage (5.3): the message, or the token that it stops at."""
        state, message, secrets, shown = self.state.copy(), b"", self.secrets[:], []
        for number, token in enumerate(self.tokens()):
            piece, call = b"", "MixKey"
            if token == "e":
                piece = self.keys.public["e"]
                call = self.mix_public("e", piece, state)
            elif token == "s":
                piece, call = state.encrypt(self.keys.public["s"]), "EncryptAndHash"
            elif token == "psk":
                call = "MixKeyAndHash"
                state.mix_key_and_hash(secrets.pop(0))
            else:
                answer = self.agreed(token, self.remote)
                if answer is None:
                    self.phase = "ended"
                    self.say(f"unwritten {self.role} agreement {number}")
                    # (no message is there to show bytes of)
                    self.show_steps([(*step[:4], b"", step[5]) for step in shown])
                    return None
                state.mix_key(answer)
            shown.append((number, token, call, len(message), piece, state.copy()))
            message += piece
        piece = state.encrypt(payload)
        shown.append((len(self.tokens()), "payload", "EncryptAndHash", len(message), piece, state.copy()))
        self.say(head(message + piece))
        self.show_steps(shown)
        self.pass_on(state, self.remote, secrets)
        return message + piece

    def read_token(self, token, rest, reader):
        """Reads a token: the calls and its bytes, or why it is refused."""
        state, remote, secrets = reader
        if token == "psk":
            state.mix_key_and_hash(secrets.pop(0))
            return "MixKeyAndHash", b""
        if token in ("e", "s"):
            width = 48 if token == "s" and state.key else 32
            if len(rest) < width:
                raise Stop("short")
            piece = rest[:width]
            key = piece if token == "e" else state.decrypt(piece)
            if key is None:
                raise Stop("tag")
            remote[token] = key
            return (self.mix_public("e", key, state) if token == "e" else "DecryptAndHash"), piece
        answer = self.agreed(token, remote)
        if answer is None:
            raise Stop("agreement")
        state.mix_key(answer)
        return "MixKey", b""

    def read_message(self, message):
        """ReadMessage (5.3)."""
        reader, shown, start, number = (self.state.copy(), dict(self.remote), self.secrets[:]), [], 0, 0
        try:
            for number, token in enumerate(self.tokens()):
                call, piece = self.read_token(token, message[start:], reader)
                shown.append((number, token, call, start, piece, reader[0].copy()))
                start += len(piece)
            number = len(self.tokens())
            rest = message[start:]
            if reader[0].key and len(rest) < TAG_BYTES:
                raise Stop("short")
            payload = reader[0].decrypt(rest)
            if payload is None:
                raise Stop("tag")
        except Stop as why:
            self.phase = "ended"
            self.say(f"refused {self.role} {number} {why}")
            self.show_steps(shown)
            return
        shown.append((number, "payload", "DecryptAndHash", start, rest, reader[0].copy()))
        self.say(f"payload {self.role} {hex_word(payload)}")
        self.show_steps(shown)
        self.pass_on(*reader)

    def show_steps(self, shown):
        """The lines of the steps of a message."""
        for number, name, call, start, piece, state in shown:
            self.step(number, name, call, start, piece, state)

    def pass_on(self, state, remote, secrets):
        """A message has passed; after the last one the session opens (Split, 5.2)."""
        self.state, self.remote, self.secrets = state, remote, secrets
        self.passed += 1
        if self.passed < len(self.setup.messages):
            return
        self.phase = "transport"
        self.starts = dict(zip(ROLES, hkdf(state.chaining_key, b"", 2)))
        self.transport = dict(self.starts)
        for number, writer in enumerate(ROLES):
            rest = f"{state.hash.hex()} {state.chaining_key.hex()} {self.starts[writer].hex()} 0"
            self.show("transport", "open", f"{number} {writer} Split - - {rest}")

    # ---- after the handshake

    def silent_party(self):
        """The party that may not write after a one-way pattern (7.4)."""
        return "responder" if len(self.setup.messages) == 1 else ""

    def use(self, writer, name, call):
        """The line of a transport message."""
        rest = f"- {name} {call} - - - - {self.transport[writer].hex()} {self.nonces[writer]}"
        self.show("transport", "transport", rest)

    def go_on(self, writer):
        """The next nonce of a direction, and its next key, after so many messages (11.3)."""
        self.nonces[writer] += 1
        interval = self.setup.interval
        if interval and self.nonces[writer] % interval == 0:
            self.transport[writer] = rekey(self.transport[writer])
            self.use(writer, "renewed", "Rekey")

    def refusal(self, length):
        """Why no message with a payload of this length can be written, or nothing."""
        if self.phase == "ended":
            return "ended"
        if self.phase == "handshake" and not self.is_turn():
            return "not-your-turn"
        if self.phase == "transport" and self.silent_party() == self.role:
            return "one-way"
        whole = self.message_len(length) if self.phase == "handshake" else length + TAG_BYTES
        return "too-long" if whole > MOST_BYTES else ""

    def write(self, payload):
        """Writes a message. Gives its frame, or None."""
        why = self.refusal(len(payload))
        if why:
            self.say(f"unwritten {self.role} {why}")
            return None

        def framed(message):
            return len(message).to_bytes(2, "big") + message

        def head(message):
            return f"wrote {self.role} {len(self.frames)} {framed(message).hex()}"

        if self.phase == "handshake":
            message = self.write_message(payload, head)
            if message is None:
                return None
        else:
            message = seal(self.transport[self.role], self.nonces[self.role], b"", payload)
            self.say(head(message))
            self.use(self.role, "sent", "EncryptWithAd")
            self.go_on(self.role)
        self.frames.append(framed(message))
        return self.frames[-1]

    def read(self, message):
        """Reads a whole message."""
        if self.phase == "handshake":
            self.read_message(message)
            return
        writer = other(self.role)
        short = len(message) < TAG_BYTES
        payload = None if short else unseal(self.transport[writer], self.nonces[writer], b"", message)
        if payload is None:
            self.say(f"dropped {self.role} {'short' if short else 'tag'}")
            self.use(writer, "dropped", "DecryptWithAd")
            return
        self.say(f"payload {self.role} {hex_word(payload)}")
        self.use(writer, "opened", "DecryptWithAd")
        self.go_on(writer)

    def idle(self):
        """Why this party doesn't listen, or nothing."""
        if self.phase == "ended":
            return "ended"
        if self.phase == "handshake":
            return "your-turn" if self.is_turn() else ""
        return "silent" if self.silent_party() == other(self.role) else ""

    def receive(self, delivered):
        """Bytes come to this party: they are cut into frames, each of which is read."""
        rest = delivered
        while True:
            why = self.idle()
            if why:
                if rest:
                    self.say(f"left {self.role} {why} {len(rest)}")
                break
            whole = self.held + rest
            length = int.from_bytes(whole[:2], "big")
            if len(whole) < 2 or len(whole) < 2 + length:
                self.held = whole
                break
            self.held, rest = b"", whole[2 + length :]
            self.read(whole[2 : 2 + length])
        if self.held:
            self.say(f"held {self.role} {len(self.held)}")

    # ---- datagrams

    def can_go_over(self):
        """Whether the end is open and untouched."""
        return self.phase == "transport" and not any(self.nonces.values()) and not self.held

    def show_datagram_keys(self):
        """The keys of the datagrams."""
        for number, writer in enumerate(ROLES):
            self.show("transport", "datagrams", f"{number} {writer} - - - - - {self.starts[writer].hex()} -")

    def state_line(self):
        """Where this party stands at the end of a run."""
        own, theirs = self.nonces[self.role], self.nonces[other(self.role)]
        return {
            "handshake": f"state {self.role} handshake {self.passed}",
            "transport": f"state {self.role} transport {own} {theirs} {self.state.hash.hex()}",
            "ended": f"state {self.role} ended",
        }[self.phase]


class Datagrams:
    """A party that has gone over to datagrams (11.4)."""

    def __init__(self, end, window):
        self.end, self.role, self.window = end, end.role, window
        self.sealed, self.opened = [], set()

    def seal(self, payload):
        """Seals a payload."""
        if self.end.silent_party() == self.role:
            self.end.say(f"unsealed {self.role} one-way")
        elif len(payload) + TAG_BYTES > MOST_BYTES:
            self.end.say(f"unsealed {self.role} too-long")
        else:
            number = len(self.sealed)
            self.sealed.append(number.to_bytes(8, "big") + seal(self.end.starts[self.role], number, b"", payload))
            self.end.say(f"sealed {self.role} {number} {self.sealed[-1].hex()}")

    def fault(self, datagram):
        """What is wrong with a datagram before its tag, the first in the page's order."""
        nonce, greatest = int.from_bytes(datagram[:8], "big"), max(self.opened, default=0)
        faults = [
            ("one-way", self.end.silent_party() == other(self.role)),
            ("short", len(datagram) < 8 + TAG_BYTES),
            ("too-long", len(datagram) > 8 + MOST_BYTES),
            ("reserved", nonce == LAST_NONCE),
            ("old", greatest >= nonce + self.window),
            ("repeated", nonce in self.opened),
        ]
        return next((word for word, holds in faults if holds), "")

    def open(self, datagram):
        """Opens a datagram."""
        why, payload, nonce = self.fault(datagram), None, int.from_bytes(datagram[:8], "big")
        if not why:
            payload = unseal(self.end.starts[other(self.role)], nonce, b"", datagram[8:])
            why = "tag" if payload is None else ""
        if why:
            self.end.say(f"rejected {self.role} {why}")
        else:
            self.opened.add(nonce)
            self.end.say(f"payload {self.role} {hex_word(payload)}")
