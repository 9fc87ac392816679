#!/usr/bin/env python3
"""Two parties of one session, by ctypes, with a relay between them that flips, cuts, repeats or drops at each byte,
whatever the order in which they end.

relay.py LIBRARY.so HEADER says how many sessions it tried, and fails where a party reports what the theorem on streams
doesn't allow: what it has is the first of what the other has written; it reports an end only if the other has ended and
all of it came; and else it has refused a message, or reports a cut. The pieces in which bytes come are another in each
session. X25519 is a toy, as in the checks in C: the result of two public keys is their xor.
"""
import ctypes
import itertools
import random
import re
import sys
from pathlib import Path

OK, END, MORE, CLOSED, CUT, WANTED = 0, 41, 42, 43, 44, 20
TEXTS = ([b"a first text", b"b", b"the last of the client"], [b"1", b"what the server has to say", b"and good bye"])
LONG = 4096


class Result(ctypes.Structure):
    _fields_ = [
        ("start", ctypes.c_size_t), ("len", ctypes.c_size_t), ("token", ctypes.c_uint8), ("of_static", ctypes.c_uint8),
        ("remote", ctypes.c_uint8 * 32), ("remote_known", ctypes.c_uint8),
    ]


class StreamResult(ctypes.Structure):
    _fields_ = [
        ("start", ctypes.c_size_t), ("len", ctypes.c_size_t), ("used", ctypes.c_size_t), ("wanted", ctypes.c_size_t),
    ]


class Stage(ctypes.Structure):
    _fields_ = [
        ("messages", ctypes.c_uint8), ("passed", ctypes.c_uint8), ("ended", ctypes.c_uint8),
        ("writes_next", ctypes.c_uint8),
    ]


class Key(ctypes.Structure):
    _fields_ = [("present", ctypes.c_uint8), ("bytes", ctypes.c_uint8 * 32)]


class Setup(ctypes.Structure):
    _fields_ = [
        ("responder", ctypes.c_uint8), ("e", Key), ("s", Key), ("remote_e", Key), ("remote_s", Key),
        ("psk_count", ctypes.c_uint8), ("psks", (ctypes.c_uint8 * 32) * 9),
    ]


def struct_of(header, name):
    """An aligned place for an opaque struct, of the size that the header has."""
    size = int(re.search(r"opaque\[(\d+)\]; } " + name + ";", header)[1])
    return (ctypes.c_uint64 * (size // 8))


def public_key(role, of_static):
    return bytes((17 + 60 * role + 101 * of_static + 7 * i) % 256 for i in range(32))


def ref(it):
    return ctypes.byref(it)


class End:
    """One party: it does its handshake, writes its texts, and ends its stream, at once or, where it waits, only once
    the other's has ended."""

    def __init__(self, library, kinds, role, waits, send, close):
        self.call, self.role, self.waits, self.send, self.close = library, role, waits, send, close
        self.h, self.sender, self.receiver = (kind() for kind in kinds)
        self.held, self.got = b"", b""
        self.is_open = self.failed = self.wrote = self.ended = self.got_end = False
        setup = Setup(responder=role)
        for key, of_static in ((setup.e, 0), (setup.s, 1)):
            key.present = 1
            key.bytes[:] = public_key(role, of_static)
        name, prologue = b"Noise_XX_25519_ChaChaPoly_SHA256", b"relay"
        self.must(library.noise_start(ref(self.h), name, len(name), prologue, len(prologue), ref(setup)))

    def must(self, code):
        if code != OK:
            raise AssertionError(f"code {code}")

    def repeat(self, call, *words):
        result = Result()
        while (code := call(ref(self.h), *words, ref(result))) == WANTED:
            own = public_key(self.role, result.of_static)
            answer = bytes(a ^ b for a, b in zip(own, result.remote))
            self.must(self.call.noise_answer(ref(self.h), result.of_static, result.remote, answer))
        return code, result

    def give_up(self):
        self.failed = True
        self.close()

    def shake(self):
        stage, result = Stage(), StreamResult()
        self.must(self.call.noise_stage(ref(self.h), ref(stage)))
        if stage.passed == stage.messages:
            self.must(
                self.call.noise_finish_stream(ref(self.h), ctypes.c_uint64(2), ref(self.sender), ref(self.receiver))
            )
            self.is_open = True
            return True
        if stage.writes_next:
            out = ctypes.create_string_buffer(LONG)
            code, written = self.repeat(self.call.noise_write, b"", 0, ctypes.byref(out, 2), LONG - 2)
            self.must(code)
            self.must(self.call.noise_frame_message(out, LONG, written.len, ref(result)))
            self.send(out.raw[:result.len])
            return True
        if self.call.noise_frame_find(self.held, len(self.held), ref(result)) == MORE:
            return False
        message = ctypes.create_string_buffer(self.held[result.start:result.start + result.len], max(result.len, 1))
        code, _ = self.repeat(self.call.noise_read, message, result.len)
        self.held = self.held[result.used:]
        if code != OK:
            self.give_up()
        return True

    def write(self):
        out, result = ctypes.create_string_buffer(LONG), StreamResult()
        if not self.wrote:
            self.wrote = True
            for text in TEXTS[self.role]:
                self.must(self.call.noise_stream_write(ref(self.sender), text, len(text), out, LONG, ref(result)))
                self.send(out.raw[:result.len])
            return True
        if self.ended or (self.waits and not self.got_end):
            return False
        self.ended = True
        self.must(self.call.noise_stream_end(ref(self.sender), out, LONG, ref(result)))
        self.send(out.raw[:result.len])
        return True

    def read(self):
        if self.got_end:
            return False
        result, size = StreamResult(), len(self.held)
        buffer = ctypes.create_string_buffer(self.held, max(size, 1))
        code = self.call.noise_stream_read(ref(self.receiver), buffer, size, ref(result))
        if code == MORE:
            return False
        if code == OK:
            self.got += buffer.raw[result.start:result.start + result.len]
        elif code == END:
            self.got_end = True
        else:
            self.give_up()
            return True
        self.held = self.held[result.used:]
        return True

    def run(self, came):
        """Takes what came, and does all that it can."""
        did, self.held = bool(came), self.held + came
        while not self.failed and (self.read() or self.write() if self.is_open else self.shake()):
            did = True
        if self.ended and self.got_end:
            self.close()
        return did

    def report(self):
        """Whether it says that the other's stream was whole."""
        if not self.is_open or self.failed:
            return False
        code = self.call.noise_stream_is_cut(ref(self.receiver), ctypes.c_size_t(len(self.held)))
        assert code == (OK if self.got_end and not self.held else CUT), code
        return code == OK


class Pipe:
    """One direction, with one fault, or none, at a byte."""

    def __init__(self, fault, at, bit):
        self.fault, self.at, self.bit, self.sent, self.waiting, self.closed = fault, at, bit, 0, bytearray(), False

    def send(self, data):
        for byte in data:
            here = self.fault != "nothing" and self.sent == self.at
            self.sent += 1
            if here and self.fault == "cut":
                self.closed = True
            if self.closed or (here and self.fault == "drop"):
                continue
            if here and self.fault == "flip":
                byte ^= 1 << self.bit
            self.waiting += bytes([byte] * (2 if here and self.fault == "repeat" else 1))

    def close(self):
        self.closed = True

    def take(self, most):
        piece = bytes(self.waiting[:most])
        del self.waiting[:most]
        return piece


def pass_session(library, kinds, waits, faults, pieces):
    pipes = [Pipe(*fault) for fault in faults]
    ends = [End(library, kinds, role, waits[role], pipes[role].send, pipes[role].close) for role in (0, 1)]
    did = True
    while did:
        did = False
        for role in (0, 1):
            did = ends[role].run(pipes[1 - role].take(pieces.randint(1, 70))) or did
    for role in (0, 1):
        written = b"".join(TEXTS[1 - role])
        assert written.startswith(ends[role].got), "what was read isn't the first of what was written"
        if ends[role].got_end:
            assert ends[1 - role].ended and ends[role].got == written, "an end, and not all of it came"
    return [end.report() for end in ends], [pipe.sent for pipe in pipes]


def main():
    library, header = ctypes.CDLL(sys.argv[1]), Path(sys.argv[2]).read_text()
    kinds = [struct_of(header, name) for name in ("noise_handshake", "noise_stream_sender", "noise_stream_receiver")]
    version = [int(part) for part in re.findall(r"#define NOISE_VERSION_[A-Z]+ (\d+)", header)]
    assert library.noise_version() == version[0] << 16 | version[1] << 8 | version[2], "another version"
    for name, kind in zip(("handshake", "stream_sender", "stream_receiver"), kinds):
        size = getattr(library, f"noise_{name}_size")
        size.restype = ctypes.c_size_t
        assert size() == ctypes.sizeof(kind), name
    none, pieces, sessions = ("nothing", 0, 0), random.Random(20261126), 0
    for waits in ((False, False), (True, False), (False, True)):
        whole, sent = pass_session(library, kinds, waits, [none, none], pieces)
        assert whole == [True, True], whole
        for direction, kind in itertools.product((0, 1), ("flip", "cut", "repeat", "drop")):
            for at in range(sent[direction]):
                fault = (kind, at, pieces.randrange(8))
                whole, _ = pass_session(
                    library, kinds, waits, [fault, none] if direction == 0 else [none, fault], pieces
                )
                assert not whole[1 - direction], (waits, direction, fault)
                sessions += 1
    print(
        f"c-library: relay.py: {sessions} damaged sessions by ctypes; in each the reader of the damaged direction knew"
    )


main()
