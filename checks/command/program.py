"""The built program: a run of it, and what is told where a run isn't as expected."""

import difflib
import functools
import os
import re
import signal
import subprocess
import sys
from typing import NamedTuple

TOP = os.path.dirname(os.path.dirname(os.path.dirname(os.path.realpath(__file__))))
PROGRAM = os.path.realpath(os.environ.get("NOISE_PROGRAM", f"{TOP}/crates/noise/out/noise"))
ANY_TEXT = "[..]"
LIMIT = 300    # seconds of a run; the longest takes one of a processor


class Ran(NamedTuple):
    """What a run did."""

    status: int
    out: bytes
    err: bytes


def run(words, folder=None, variables=None, given=None):
    """Runs the program on these words, in this folder, with these variables beside its own, and with these bytes on its
    standard input."""
    environment = {**os.environ, "LC_ALL": "C", **(variables or {})}
    try:
        ran = spawned(words, folder, environment) if given is None else piped(words, folder, environment, given)
    except subprocess.TimeoutExpired:    # (thousands of others would take as long)
        tell(
            f"command: noise {' '.join(words)[:200]}: it takes more than {LIMIT} seconds, with "
            f"{variables or 'no variables'}"
        )
        os._exit(1)
    return ran


def piped(words, folder, environment, given):
    """A run with these bytes on standard input."""
    ran = subprocess.run(
        [PROGRAM, *words], cwd=folder, env=environment, input=given, capture_output=True, check=False, timeout=LIMIT
    )
    return Ran(ran.returncode, ran.stdout, ran.stderr)


@functools.cache
def places(process):
    """Files of this process: nothing, one for output and one for errors; and its folder."""
    assert process == os.getpid()
    return os.open("/dev/null", os.O_RDWR), os.memfd_create("out"), os.memfd_create("err"), os.open(".", os.O_RDONLY)


def spawned(words, folder, environment):
    """A run with nothing on standard input. There are thousands: without pipes each takes a third of the time less."""
    null, out, err, home = places(os.getpid())
    for it in (out, err):
        os.ftruncate(it, 0)
        os.lseek(it, 0, os.SEEK_SET)
    moves = [(os.POSIX_SPAWN_DUP2, it, number) for number, it in enumerate((null, out, err))]
    os.chdir(folder or home)
    try:
        status = ended(os.posix_spawn(PROGRAM, [PROGRAM, *words], environment, file_actions=moves), words)
    finally:
        os.chdir(home)
    return Ran(status, *(os.pread(it, os.fstat(it).st_size, 0) for it in (out, err)))


def ended(process, words):
    """The status of a process, which is ended when its time is over."""
    signal.signal(signal.SIGALRM, lambda *_: os.kill(process, signal.SIGKILL))
    signal.alarm(LIMIT)
    status = os.waitstatus_to_exitcode(os.waitpid(process, 0)[1])
    signal.alarm(0)
    if status == -signal.SIGKILL:
        raise subprocess.TimeoutExpired(words, LIMIT)
    return status


def shown(ran):
    """A run in the form in which cases have it."""
    out, err = (it.decode(errors="backslashreplace") for it in (ran.out, ran.err))
    if any(it and not it.endswith("\n") for it in (out, err)):
        err += "(the last line has no LF)\n"
    text = out + "".join(f"standard error: {line}\n" for line in err.splitlines())
    return text + (f"status: {ran.status}\n" if ran.status else "")


def is_met(expected, printed):
    """Whether a text is the expected one, in which `[..]` stands for any text."""
    parts = map(re.escape, expected.split(ANY_TEXT))
    return re.fullmatch(".*".join(parts), printed, re.DOTALL) is not None


def difference(name, expected, printed):
    """What is told of a run that isn't as expected: its lines, those that are expected and not printed after `-`, and
    those printed after `+`."""
    lines = difflib.unified_diff(expected.splitlines(), printed.splitlines(), "expected", "printed", n=999, lineterm="")
    return "\n".join([f"command: {name}: not as expected", *lines])


def tell(fault):
    """Writes a fault to standard error."""
    print(fault, file=sys.stderr)
