#!/usr/bin/env python3
"""Runs the suite with any program that speaks the line protocol of docs/VECTORS.md.

The report is that of the runners. PROGRAM runs twice, once for each role. If it ends, says what is no answer, or has
given none for 60 seconds, the test has failed, and the next one starts the program again. --only runs a part: the tests
that have one of the words, which are joined by commas, as number, pattern or flag.
"""

from __future__ import annotations

import shutil
import subprocess
import sys
import threading
from pathlib import Path
from typing import Any

RUNNERS = Path(__file__).resolve().parent.parent.parent / "examples" / "vectors-runners" / "python"
sys.path.insert(0, str(RUNNERS))

import runner  # noqa: E402

LIMIT = 60  # seconds for an answer


class Refused(Exception):
    """The program refuses; `token` is where, if it says so."""

    def __init__(self, words: str) -> None:
        super().__init__(words or "refused")
        self.token = words.split(" ")[0] or None


class Ended(Exception):
    """The program has ended, or said what it may not say: a crash."""


def digits(data: bytes | None) -> str:
    return data.hex() if data else "-"


class Program:
    """A running program, which is one party after another."""

    def __init__(self, command: list[str]) -> None:
        self.command = command
        self.process: subprocess.Popen[bytes] | None = None

    def ask(self, line: str) -> bytes:
        """The bytes that a request gives."""
        if self.process is None:
            self.process = subprocess.Popen(self.command, stdin=subprocess.PIPE, stdout=subprocess.PIPE)
        timer = threading.Timer(LIMIT, self.process.kill)
        timer.start()
        try:
            assert self.process.stdin and self.process.stdout
            self.process.stdin.write(line.encode() + b"\n")
            self.process.stdin.flush()
            said = self.process.stdout.readline().decode("utf-8", "replace")
        except OSError:
            said = ""
        finally:
            timer.cancel()
        return self.bytes_of(line, said)

    def bytes_of(self, line: str, said: str) -> bytes:
        word, _, rest = said.rstrip("\r\n").partition(" ")
        if said.endswith("\n") and word == "refused":
            raise Refused(rest)
        if said.endswith("\n") and word == "unsupported":
            raise runner.NotSupported(rest)
        if said.endswith("\n") and word == "ok":
            return b"" if rest in ("", "-") else bytes.fromhex(rest)
        self.end()
        raise Ended(f"to {line[:60]!r} the program says {said[:60]!r}")

    def end(self) -> None:
        if self.process is not None:
            self.process.kill()
            self.process.communicate()
            self.process = None


class Party:
    """A party, as runner.py drives it; `programs` are those of the roles."""

    REFUSALS = (Refused,)
    programs: dict[str, Program] = {}

    def __init__(self, setup: dict[str, Any], role: str) -> None:
        own, pattern = setup[role], "/".join(setup["pattern"]).replace(" ", "")
        self.program = self.programs[role]
        words = [
            "start", role, setup.get("what", "-"), pattern, digits(setup["prologue"]),
            ",".join(it or "empty" for it in setup["psks"]) or "-",
            *(own[it] or "empty" if it in own else "-" for it in ("e", "s", "re", "rs")), setup["protocol"],
        ]
        self.program.ask(" ".join(words))

    def write(self, payload: bytes) -> bytes:
        return self.program.ask(f"write {digits(payload)}")

    def read(self, message: bytes) -> bytes:
        return self.program.ask(f"read {digits(message)}")

    def rekey(self, direction: str) -> None:
        self.program.ask(f"rekey {direction}")

    def set_nonce(self, direction: str, nonce: int) -> None:
        self.program.ask(f"nonce {direction} {nonce}")

    def hash(self) -> bytes:
        return self.program.ask("hash")

    def remote_static(self) -> bytes:
        return self.program.ask("remote")

    @staticmethod
    def place(refusal: Refused) -> str | None:
        return refusal.token


def main(words: list[str]) -> int:
    at = words.index("--") if "--" in words else len(words)
    reader = runner.reader("lines.py SUITE.json [JUNIT.xml] [--only WORDS] -- PROGRAM [WORD ..]", __doc__)
    said, program = reader.parse_intermixed_args(words[:at]), words[at + 1 :]
    if not program:
        reader.error("the program is missing, after --")
    if not shutil.which(program[0]):
        reader.error(f"there is no program {program[0]}")
    Party.programs = {role: Program(program) for role in ("initiator", "responder")}
    try:
        return runner.report(Party, program[0], said.suite, said.junit, said.only)
    finally:
        for it in Party.programs.values():
            it.end()


if __name__ == "__main__":
    sys.exit(main(sys.argv[1:]))
