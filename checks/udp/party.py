"""A server or clients as a program of their own."""

from __future__ import annotations

import asyncio
import contextlib
from asyncio.subprocess import DEVNULL, PIPE, Process


class Party:
    """One that runs, and what it prints."""

    def __init__(self, process: Process) -> None:
        self._process, self.port = process, 0

    @classmethod
    @contextlib.asynccontextmanager
    async def begun(cls, command: list[str]):
        """Runs a program, and ends it."""
        party = cls(await asyncio.create_subprocess_exec(*command, stdin=PIPE, stdout=PIPE, stderr=DEVNULL))
        try:
            yield party
        finally:
            await party.end()

    async def line(self, with_words: str, seconds: float = 120) -> str:
        """The next line with these words."""
        async with asyncio.timeout(seconds):
            while line := (await self._process.stdout.readline()).decode().strip():
                if with_words in line:
                    return line
        raise EOFError(f"the program has ended without {with_words!r}")

    async def asks(self, text: str) -> str:
        """Has a client ask for a text: what it says of it."""
        self._process.stdin.write(f"{text}\n".encode())
        return (await asyncio.wait_for(self._process.stdout.readline(), 120)).decode().strip()

    def kill(self) -> None:
        """Ends the program at once."""
        with contextlib.suppress(ProcessLookupError):
            self._process.kill()

    async def end(self) -> None:
        """Ends the program, and waits until it has."""
        self.kill()
        await self._process.communicate()
