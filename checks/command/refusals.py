"""Commands whose files or output fail at each byte, both where the program reads and writes a byte a call, and as it
does by itself."""

import functools
import multiprocessing
import os
import subprocess

from cases import words_of
from program import PROGRAM, Ran, run

MOST_LIMITS = 400


def refuse_each(listed, refuse):
    """For each command that the file lists, each limit of its reads and of its writes. Returns how many runs there
    were, and the faults."""
    folder = os.path.dirname(listed)
    with open(listed, encoding="utf-8") as file:
        lines = [line[2:].rstrip("\n") for line in file if line.startswith("$ ")]
    tries = [it for line in lines for it in tries_of(line, folder)]
    with multiprocessing.Pool() as pool:
        faults = pool.map(functools.partial(fault_of, folder, refuse), tries, chunksize=16)
    return len(tries), [it for it in faults if it]


def tries_of(line, folder):
    """The runs of a command: its words, the variables, and what it has to do."""
    _, words = words_of(line)
    whole = run(words, folder)
    yield words, {}, whole._replace(err=b"")
    if words[0] not in ("list", "show", "test"):
        for size, told in refused_reads(words, folder):
            for variables in limits("READ", [size]):
                yield words, variables, Ran(3, b"", told)
        yield words, {"READ_PIECE": "1"}, whole
    step = max(1, len(whole.out) // MOST_LIMITS)
    for variables in limits("OUTPUT", range(0, len(whole.out), step)):
        yield words, variables, Ran(3, whole.out[: int(variables["OUTPUT_LIMIT"])], b"cannot write\n")
    yield words, {"OUTPUT_PIECE": "1"}, whole


def refused_reads(words, folder):
    """After how many bytes a read of the command's files fails, and what is told then: the first word is no file where
    it is a pattern's name, and a file after it is named."""
    first = passed = 0
    for word in words[1:]:
        if os.path.exists(f"{folder}/{word}"):
            passed += os.path.getsize(f"{folder}/{word}")
            line = "cannot read\n" if word == words[1] else f"fault {word}: cannot read\n"
            told = f"{line}  {word}: reading it fails.\n"
            yield from ((size, told.encode()) for size in range(first, passed + 1))
            first = passed + 1


def closed_pipe(words, folder):
    """A command whose output is a pipe that nobody reads has to end with status 3 and without a word. Returns its
    faults."""
    reader, writer = os.pipe()
    os.close(reader)
    ran = subprocess.run(
        [PROGRAM, *words], cwd=folder, stdin=subprocess.DEVNULL, stdout=writer, stderr=subprocess.PIPE, check=False
    )
    os.close(writer)
    if (ran.returncode, ran.stderr) == (3, b""):
        return []
    return [f"command: noise {' '.join(words)} into a closed pipe: status {ran.returncode}, {ran.stderr}"]


def limits(stream, sizes):
    """The variables by which the calls of a stream fail after so many bytes, with calls of any size and with calls of a
    byte."""
    for size in sizes:
        yield {f"{stream}_LIMIT": str(size)}
        yield {f"{stream}_LIMIT": str(size), f"{stream}_PIECE": "1"}


def fault_of(folder, refuse, attempt):
    """What is told of a run that isn't as it has to be, and nothing of another."""
    words, variables, expected = attempt
    ran = run(words, folder, {**variables, "LD_PRELOAD": refuse})
    if ran == expected:
        return None
    return f"command: {variables} noise {' '.join(words)}: not as expected\nexpected {expected}\nprinted {ran}"
