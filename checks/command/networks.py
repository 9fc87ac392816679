"""Peers and networks that cut, change, repeat and exchange what is sent, each case a file under the command.

Where a damaged message is refused follows from the standard (Noise, 5.3, 9.2 and 11.3) and the table below, and nothing
of the program. The sessions are drawn from numbers: of three one is of a pattern without a psk, one has `psk0`, and one
has `psk` at the last message.
"""

import multiprocessing
import re
from typing import NamedTuple

from program import Ran, difference, run, shown

# The fifteen patterns (Noise, 7.4 and 7.5): the base, the number of messages, and their tokens. `d` stands for any DH
# token, `.` for the payload of a message that isn't the last; `p` is a psk token, where one is put in.
PATTERNS = [
    ("N", 1, "ed"),
    ("K", 1, "edd"),
    ("X", 1, "edsd"),
    ("NN", 2, "e.ed"),
    ("NK", 2, "ed.ed"),
    ("NX", 2, "e.edsd"),
    ("KN", 2, "e.edd"),
    ("KK", 2, "edd.edd"),
    ("KX", 2, "e.eddsd"),
    ("XN", 3, "e.ed.sd"),
    ("XK", 3, "ed.ed.sd"),
    ("XX", 3, "e.edsd.sd"),
    ("IN", 2, "es.edd"),
    ("IK", 2, "edsd.edd"),
    ("IX", 2, "es.eddsd"),
]
# How many cases the numbers from 0, from 15 and from 30 on have, fifteen each: worked out by a program in another
# language.
COUNTS = [5674, 7129, 8378]
ROLES = ("initiator", "responder")
ANY_HASH = "[0-9a-f]{64}"
MESSAGES_OF_SESSION = 6


class Piece(NamedTuple):
    """The bytes of a token in its message; `sealed`: with a tag."""

    message: int
    token: int
    start: int
    end: int
    sealed: bool
    payload: bool


class Refusal(NamedTuple):
    """The message and the token at which a message is refused, and why."""

    message: int
    token: int
    cause: str


def pieces_of(tokens, payloads):
    """The pieces of messages of these tokens, with these payloads. A DH and a psk make a key, and where there are psks
    an `e` does."""
    pieces, message, token, start, key = [], 0, 0, 0, False
    for letter in tokens:
        payload = letter == "."
        sealed = key and letter in ".s"
        length = 32 if letter in "es" else len(payloads[message]) if payload else 0
        end = start + length + (16 if sealed else 0)
        pieces.append(Piece(message, token, start, end, sealed, payload))
        key = key or letter in "dp" or (letter == "e" and "p" in tokens)
        message, token, start = (message + 1, 0, 0) if payload else (message, token + 1, end)
    return pieces


def cut_refusal(pieces, message, length):
    """Where a message is refused that was cut to so many bytes: at the first piece that isn't whole. None where that is
    a payload without a key."""
    piece = next(it for it in pieces if it.message == message and length < it.end)
    if piece.payload and not piece.sealed:
        return None
    tagged = piece.payload and length - piece.start >= 16
    return Refusal(message, piece.token, "tag" if tagged else "short")


def spoiled_refusal(pieces, message, offset):
    """Where it comes out that a message is another from this byte on: at the first piece with a tag that ends after it,
    in this message or a later one."""
    piece = next(
        it for it in pieces if it.sealed and (it.message > message or (it.message == message and it.end > offset))
    )
    return Refusal(piece.message, piece.token, "tag")


class Draws:
    """Bytes that follow from a number, by a linear congruence of 64 bits."""

    def __init__(self, number):
        self.number = number

    def byte(self):
        """The next byte."""
        self.number = (self.number * 6364136223846793005 + 1442695040888963407) % 2**64
        return self.number >> 56

    def key(self):
        """32 bytes."""
        return bytes(self.byte() for _ in range(32))

    def payload(self):
        """Up to three bytes."""
        length = self.byte() % 4
        return self.key()[:length]


class Session:
    """What two parties start from, and the payloads of their messages: those of the handshake, and then six of the
    session."""

    def __init__(self, number):
        base, self.handshake, tokens = PATTERNS[number // 3]
        places, front, behind = [([], "", ""), ([0], "p", ""), ([self.handshake], "", "p")][number % 3]
        draws = Draws(number)
        self.payloads = [draws.payload() for _ in range(self.handshake + MESSAGES_OF_SESSION)]
        self.pieces = pieces_of(front + tokens + behind + "." * (1 + MESSAGES_OF_SESSION), self.payloads)
        self.head = head_of(base, places, draws)
        self.frames, self.hash = [], None

    def place(self, message):
        """Who writes a message, and the number of its frame among those of its writer. In a one-way session it is
        always the initiator."""
        return (0, message) if self.handshake == 1 else (message % 2, message // 2)

    def payload_in(self, message, frame):
        """The bytes of a message's frame after its public keys."""
        return frame[2 + next(it.start for it in self.pieces if it.message == message and it.payload) :]

    def length(self, message):
        """How many bytes a message has."""
        return max(it.end for it in self.pieces if it.message == message)

    def clear_in(self, message):
        """How many bytes of a message stand before the first piece with a tag."""
        return next(it.start for it in self.pieces if it.message == message and it.sealed)


def head_of(base, places, draws):
    """The lines of a file before its events."""
    prologue, interval, psk = draws.key(), draws.byte() % 4, draws.key()
    keys = [draws.key().hex() for _ in range(4)]
    name = base + "".join(f"psk{place}" for place in places)
    lines = [
        "vector 1", f"protocol Noise_{name}_25519_ChaChaPoly_SHA256", f"prologue {prologue.hex()}",
        f"interval {interval}",
    ]
    lines += [f"psk {psk.hex()}" for _ in places]
    return "\n".join([*lines, f"initiator xor {keys[0]} {keys[1]}", f"responder xor {keys[2]} {keys[3]}", ""])


def hex_of(some):
    """Two lower-case digits for each byte, `-` for none."""
    return some.hex() or "-"


class Schedule:
    """Events between the ends of a session, and a pattern of each line that is to be printed of them."""

    def __init__(self, session):
        self.session = session
        self.events, self.told = [], []
        self.passed, self.nonces, self.ended = [0, 0], [[0, 0], [0, 0]], [False, False]
        self.is_changed = False

    def event(self, text, told):
        """An event, and the line that is told of it."""
        self.events.append(text)
        self.told.append(told)

    def has_passed(self, role, written):
        """A party has written, or else accepted, a message."""
        if self.passed[role] < self.session.handshake:
            self.passed[role] += 1
        else:
            self.nonces[role][0 if written else 1] += 1

    def wrote(self, message):
        """The line of a message that is written. After a changed message was accepted, tags are others."""
        role, number = self.session.place(message)
        self.has_passed(role, True)
        line, length = f"wrote {ROLES[role]} {number} ", self.session.length(message)
        if not self.session.frames:
            return f"{line}{length:04x}[0-9a-f]{{{2 * length}}}"
        frame = self.session.frames[message]
        if not self.is_changed:
            return line + frame.hex()
        clear = 2 + self.session.clear_in(message)
        rest = frame[clear:].hex()
        return f"{line}{frame[:clear].hex()}(?!{rest})[0-9a-f]{{{len(rest)}}}"

    def accepted(self, message, payload):
        """The line of a message that is accepted with this payload."""
        role = 1 - self.session.place(message)[0]
        self.has_passed(role, False)
        return f"payload {ROLES[role]} {hex_of(payload)}"

    def say(self, message):
        """A message is written and comes through at once, in pieces."""
        payload = self.session.payloads[message]
        self.event(f"say {ROLES[self.session.place(message)[0]]} {hex_of(payload)} 1,0,7", self.wrote(message))
        self.told.append(self.accepted(message, payload))

    def write(self, message):
        """A message is written."""
        payload = self.session.payloads[message]
        self.event(f"write {ROLES[self.session.place(message)[0]]} {hex_of(payload)}", self.wrote(message))

    def deliver(self, message, told):
        """The frame of a message comes, and this line is told of it."""
        role, number = self.session.place(message)
        self.event(f"deliver {ROLES[1 - role]} {number} -", told)

    def comes_through(self, message):
        """The frame of a message comes, and is accepted."""
        self.deliver(message, self.accepted(message, self.session.payloads[message]))

    def raw(self, role, frame, told):
        """These bytes come."""
        self.event(f"raw {ROLES[role]} {hex_of(frame)}", told)

    def has_ended(self, role):
        """A party has ended: it writes nothing, and takes nothing."""
        self.ended[role] = True
        self.event(f"write {ROLES[role]} -", f"unwritten {ROLES[role]} ended")
        self.raw(role, b"\0", f"left {ROLES[role]} ended 1")

    def state(self, role):
        """The line of where an end stands at last."""
        line = f"state {ROLES[role]} "
        if self.ended[role]:
            return f"{line}ended"
        if self.passed[role] < self.session.handshake:
            return f"{line}handshake {self.passed[role]}"
        send, receive = self.nonces[role]
        other_hash = f"(?!{self.session.hash}){ANY_HASH}"
        return f"{line}transport {send} {receive} " + (other_hash if self.is_changed else self.session.hash or ANY_HASH)

    def run(self, command):
        """The lines that a command prints, which have to be those that are told, and the file."""
        file = self.session.head + "".join(f"{event}\n" for event in self.events)
        ran = run([command, "/dev/stdin"], given=file.encode())
        patterns = [*self.told, self.state(0), self.state(1)]
        lines = ran.out.decode().splitlines()
        met = len(lines) == len(patterns) and all(map(re.fullmatch, patterns, lines))
        if not met or ran != Ran(0, "".join(f"{line}\n" for line in lines).encode(), b""):
            raise NotMet(difference(f"{command} on\n{file}", "".join(f"{it}\n" for it in patterns), shown(ran)))
        return lines


class NotMet(Exception):
    """A run that isn't as it has to be."""


def undamaged(session):
    """All messages come through, under both commands. Keeps their frames, and the hash that both parties tell."""
    schedule = Schedule(session)
    for message in range(len(session.payloads)):
        schedule.say(message)
    said, replayed = schedule.run("talk"), schedule.run("replay")
    first, second = (line.split()[-1] for line in said[-2:])
    if said != replayed or first != second:
        raise NotMet(f"command: talk and replay differ, or the hashes of the two parties, on\n{session.head}")
    session.frames = [bytes.fromhex(line.split()[3]) for line in said if line.startswith("wrote")]
    session.hash = first


def bad_network(session):
    """Each frame comes twice, and of each two neighbouring transport frames of one direction the second also comes
    before the first."""
    schedule, count = Schedule(session), len(session.payloads)
    cases = count
    for message in range(count):
        schedule.write(message)
        if message < session.handshake:
            receiver = ROLES[1 - session.place(message)[0]]
            is_last = message + 1 == session.handshake
            schedule.comes_through(message)
            schedule.deliver(
                message,
                f"dropped {receiver} tag" if is_last else f"left {receiver} your-turn {len(session.frames[message])}",
            )
    step = 1 if session.handshake == 1 else 2
    for message in range(session.handshake, count):
        dropped = f"dropped {ROLES[1 - session.place(message)[0]]} tag"
        if message + step < count:
            schedule.deliver(message + step, dropped)
            cases += 1
        schedule.comes_through(message)
        schedule.deliver(message, dropped)
    schedule.run("replay")
    return cases


def is_refused(session, message, frame, refusal):
    """This frame comes in place of that of a message. All is accepted up to the message that is refused, which ends a
    handshake; of the session the message's own frame is then accepted."""
    schedule = Schedule(session)
    for before in range(message):
        schedule.say(before)
    schedule.write(message)
    receiver = 1 - session.place(message)[0]
    refused = f"{refusal.token} {refusal.cause}"
    if message >= session.handshake:
        schedule.raw(receiver, frame, f"dropped {ROLES[receiver]} {refusal.cause}")
        schedule.comes_through(message)
    elif refusal.message == message:
        schedule.raw(receiver, frame, f"refused {ROLES[receiver]} {refused}")
        schedule.has_ended(receiver)
    else:
        schedule.raw(receiver, frame, schedule.accepted(message, session.payload_in(message, frame)))
        schedule.is_changed = True
        schedule.write(refusal.message)
        schedule.deliver(refusal.message, f"refused {ROLES[1 - receiver]} {refused}")
        schedule.has_ended(1 - receiver)
    schedule.run("replay")


def cut_frame(frame, length):
    """The frame of so many first bytes of its message."""
    return length.to_bytes(2, "big") + frame[2 : 2 + length]


def flipped_frame(frame, offset):
    """The frame with one bit of a byte of its message flipped."""
    return frame[: 2 + offset] + bytes([frame[2 + offset] ^ 1 << offset % 8]) + frame[3 + offset :]


def cases_of(number):
    """Runs all cases of a number. Returns how many there are, and what is told of the first that isn't met."""
    session = Session(number)
    try:
        undamaged(session)
        cases = bad_network(session)
        for message, frame in enumerate(session.frames):
            for offset in range(len(frame) - 2):
                spoiled = spoiled_refusal(session.pieces, message, offset)
                is_refused(session, message, flipped_frame(frame, offset), spoiled)
                is_refused(
                    session, message, cut_frame(frame, offset), cut_refusal(session.pieces, message, offset) or spoiled
                )
                cases += 2
    except NotMet as fault:
        return 0, str(fault)
    return cases, None


def damage_each():
    """Runs all cases of all numbers. Returns how many there are, and the faults."""
    with multiprocessing.Pool() as pool:
        done = pool.map(cases_of, range(45), chunksize=1)
    faults = [fault for _, fault in done if fault]
    counts = [sum(cases for cases, _ in done[start : start + 15]) for start in (0, 15, 30)]
    if not faults and counts != COUNTS:
        faults.append(f"command: damaged messages: {counts} cases, and not {COUNTS}")
    return sum(counts), faults
