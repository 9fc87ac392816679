"""The vector files, run by this package: it prints what `noise replay` prints of them (docs/FILES.md).

The `expect` lines of examples/vectors were computed by an independent program, examples/README.md has the output of the
other files, and NOISE_VECTORS names a folder of files that examples/vectors/convert.py has made of vectors of another
project. With NOISE_COMMAND, the path of the command, each file's output is compared with that of the command, too.
"""
import os
import re
import subprocess
from pathlib import Path

import pytest

from yulimosar import CallError, Code, Config, Handshake, MessageRefused, layout

TOP = Path(os.environ.get("NOISE_TOP") or Path(__file__).resolve().parents[3])
COMMAND = os.environ.get("NOISE_COMMAND")
# Handshakes that this package refuses before they begin, a key pair without a DH result, and a file with a wrong line.
LEFT_OUT = {"no-dh-result", "no-ephemeral-key", "psk-index", "rule", "leading-zero"}
FILES = [path for path in sorted((TOP / "examples/vectors").glob("*.vector")) if path.stem not in LEFT_OUT]
FOREIGN = sorted(Path(os.environ["NOISE_VECTORS"]).glob("*.vector")) if os.environ.get("NOISE_VECTORS") else []
WORDS = {Code.NOT_YOUR_TURN: "not-your-turn", Code.TOO_LONG: "too-long", Code.ONE_WAY: "one-way", None: "ended",
         Code.SHORT: "short", Code.TAG: "tag", Code.RESERVED: "reserved", Code.OLD: "old", Code.REPEATED: "repeated"}


class Toy:
    """A key pair whose results of X25519 are the xor of the public keys, or those of `answer` lines."""

    def __init__(self, public, answers):
        self.public, self.answers = public, answers

    def agree(self, remote):
        return bytes(a ^ b for a, b in zip(self.public, remote)) if self.answers is None else self.answers[remote]


def hexed(word):
    return b"" if word == "-" else bytes.fromhex(word)


def digits(data):
    return data.hex() or "-"


class End:
    """One end of a run. `say` gets its lines."""

    def __init__(self, role, config, say):
        self.role, self.say, self.frames, self.held, self.ended = role, say, [], b"", False
        self.handshake = Handshake(config, role == "initiator")
        self.one_way = layout(config.pattern).one_way
        self.halves = self.datagrams = None
        self.sealed, self.passed, self.nonces = [], 0, [0, 0]

    @property
    def shaken(self):
        return self.halves is not None or not self.handshake.closed and self.handshake.done

    def transport(self):
        self.halves = self.halves or self.handshake.split()
        return self.halves

    def write(self, payload):
        """The frame of the next message, if it is written."""
        try:
            if self.ended:
                raise CallError(None)
            if self.shaken:
                message = self.transport()[0].seal(payload)
                self.nonces[0] += 1
            else:
                message = self.handshake.write(payload)
                self.passed += 1
        except CallError as error:
            self.say(f"unwritten {self.role} {WORDS[error.code]}")
            return None
        self.frames.append(len(message).to_bytes(2, "big") + message)
        self.say(f"wrote {self.role} {len(self.frames) - 1} {self.frames[-1].hex()}")
        return self.frames[-1]

    def deaf(self):
        if self.ended:
            return "ended"
        if self.shaken:
            return "silent" if self.one_way and self.role == "initiator" else None
        return "your-turn" if self.handshake.writes_next else None

    def receive(self, data):
        while data:
            if word := self.deaf():
                self.say(f"left {self.role} {word} {len(data)}")
                return
            self.held += data[:1]
            data = data[1:]
            if len(self.held) >= 2 and len(self.held) == 2 + int.from_bytes(self.held[:2], "big"):
                message, self.held = self.held[2:], b""
                self.take(message)
        if self.held:
            self.say(f"held {self.role} {len(self.held)}")

    def take(self, message):
        try:
            if self.shaken:
                payload = self.transport()[1].open(message)
                self.nonces[1] += 1
            else:
                tokens = layout(self.handshake.config.pattern).messages[self.passed].tokens
                payload = self.handshake.read(message)
                self.passed += 1
        except MessageRefused as refused:
            if self.shaken:
                self.say(f"dropped {self.role} {WORDS[refused.cause]}")
            else:
                self.ended = True
                self.say(f"refused {self.role} {(*tokens, 'payload').index(refused.token)} {WORDS[refused.cause]}")
            return
        self.say(f"payload {self.role} {digits(payload)}")

    def take_datagram(self, datagram):
        try:
            self.say(f"payload {self.role} {digits(self.datagrams.open(datagram))}")
        except CallError as error:
            self.say(f"rejected {self.role} {WORDS[error.code]}")
        except MessageRefused as refused:
            self.say(f"rejected {self.role} {WORDS[refused.cause]}")

    def state(self):
        if self.ended:
            return "ended"
        if self.datagrams:
            return f"datagrams {self.datagrams.nonce}"
        if not self.shaken:
            return f"handshake {self.passed}"
        return f"transport {self.nonces[0]} {self.nonces[1]} {self.handshake.hash.hex()}"


class Run:
    """The run of a file; `said` are its lines."""

    def __init__(self, text):
        self.lines, self.said = text.split("\n"), []
        configs = read_configs(self.lines, text)
        self.ends = {role: End(role, config, self.said.append) for role, config in configs.items()}
        self.over = False    # whether the datagram events aren't run
        for line in self.lines:
            kind, *words = line.split(" ")
            if act := getattr(self, f"do_{kind}", None):
                act(*words)
        self.said += [f"state {role} {end.state()}" for role, end in self.ends.items()]

    def other(self, role):
        return self.ends["responder" if role == "initiator" else "initiator"]

    def do_say(self, role, payload, _cuts):
        if frame := self.ends[role].write(hexed(payload)):
            self.other(role).receive(frame)

    def do_write(self, role, payload):
        self.ends[role].write(hexed(payload))

    def do_deliver(self, role, number, _cuts):
        frames = self.other(role).frames
        if int(number) < len(frames):
            self.ends[role].receive(frames[int(number)])
        else:
            self.said.append(f"missing {role} {number}")

    def do_raw(self, role, data):
        self.ends[role].receive(hexed(data))

    def do_datagrams(self, window):
        if any(end.halves or end.held or not end.shaken for end in self.ends.values()):
            self.over = True
            self.said.append("no-datagrams")
            return
        for end in self.ends.values():
            end.datagrams = end.handshake.datagrams(int(window))
        self.said.append(f"datagrams {window}")

    def do_seal(self, role, payload):
        end = self.ends[role]
        if self.over:
            return
        try:
            end.sealed.append(end.datagrams.seal(hexed(payload)))
            self.said.append(f"sealed {role} {len(end.sealed) - 1} {end.sealed[-1].hex()}")
        except CallError as error:
            self.said.append(f"unsealed {role} {WORDS[error.code]}")

    def do_open(self, role, number):
        sealed = self.other(role).sealed
        if self.over:
            return
        if int(number) < len(sealed):
            self.ends[role].take_datagram(sealed[int(number)])
        else:
            self.said.append(f"missing {role} {number}")

    def do_foreign(self, role, data):
        if not self.over:
            self.ends[role].take_datagram(hexed(data))


def read_configs(lines, text):
    """The Config of each role."""
    values = {line.split(" ")[0]: line.split(" ")[1] for line in lines if line.count(" ") == 1}
    block = re.search(r"^([A-Z0-9a-z+]+:\n(?:  .*\n)+)end$", text, re.M)
    pattern, keys, answers = block[1] if block else values["protocol"], {}, None
    for kind, *words in (line.split(" ") for line in lines):
        if kind in ("initiator", "responder"):
            answers = {"e": {}, "s": {}} if words[0] == "table" else {"e": None, "s": None}
            keys[kind] = [None if key == "-" else Toy(hexed(key), answers[of]) for of, key in zip("es", words[1:])]
        elif kind == "answer":
            answers[words[0]].setdefault(hexed(words[1]), hexed(words[2]))
    psks = [hexed(line[4:]) for line in lines if line.startswith("psk ")]
    made = {}
    for role, other in (("initiator", "responder"), ("responder", "initiator")):
        knows = layout(pattern).knows(role == "initiator")
        made[role] = Config(
            pattern=pattern, prologue=hexed(values["prologue"]), interval=int(values["interval"]), psks=psks,
            key=keys[role][1], peer_key=keys[other][1].public if knows else None, accept_any_key=True,
            ephemeral=lambda pair=keys[role][0]: pair)
    return made


def recorded():
    """The outputs on examples/README.md, by file."""
    page, outputs = TOP / "examples/README.md", {}
    if not page.exists():
        return outputs
    page = page.read_text()
    for words, block in re.findall(r"^    \$ \./noise (?:talk|replay) (\S+)\n((?:    .*\n)+)", page, re.M):
        lines = [line[4:] for line in block.split("\n") if line]
        outputs[words] = [line for line in lines if not line.startswith(("standard error", "status"))]
    return outputs


@pytest.mark.parametrize("path", FILES + FOREIGN, ids=lambda path: getattr(path, "stem", "none"))
def test_vectors(path):
    text = path.read_text()
    said, compared = Run(text).said, 0
    expected = [line[7:] for line in text.split("\n") if line.startswith("expect ")]
    if expected:
        assert (said == expected) == (path.stem != "unmet")
        compared += 1
    page = recorded().get(f"examples/vectors/{path.name}")
    if page:
        for line, shown in zip(said, page, strict=True):
            assert line == shown or shown.endswith("...") and line.startswith(shown[:-3])
        compared += 1
    if COMMAND:
        done = subprocess.run([COMMAND, "replay", path], capture_output=True, text=True)
        assert done.stdout.split("\n")[:-1] == said
        compared += 1
    assert compared


@pytest.mark.skipif(not (TOP / "examples").exists(), reason="the repository isn't there")
def test_all_files_are_run():
    assert len(FILES) >= 18 and len(recorded()) >= 10
