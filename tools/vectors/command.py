"""The command `noise`, which alone says what is right."""

from __future__ import annotations

import subprocess
import sys


class Fault(Exception):
    """The command found something wrong with what it was given."""


class Command:
    """The program `noise` of a file."""

    def __init__(self, program: str) -> None:
        self.program = program

    def run(self, word: str, text: str) -> list[str]:
        """The lines that the command prints of a text."""
        done = subprocess.run([self.program, word, "-"], input=text.encode(), capture_output=True, check=False)
        if done.returncode:
            raise Fault((done.stdout + done.stderr).decode())
        sys.stderr.write(done.stderr.decode())  # what ./noise says of its build
        return done.stdout.decode().splitlines()

    def show(self, name: str) -> list[str]:
        done = subprocess.run([self.program, "show", name], capture_output=True, check=True)
        return [line for line in done.stdout.decode().splitlines() if not line.startswith("overhead")]
