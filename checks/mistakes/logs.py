#!/usr/bin/env python3
"""Compares the logs that make.py of examples/vectors/mistakes writes with what the file `logs` says of them: logs.py
PROGRAM.

`noise compare` has to say of the log of a party with each mistake what is there, and that the log of a right party
agrees. The commands of make.py are called here, not started: there are a hundred.
"""

from __future__ import annotations

import contextlib
import io
import pathlib
import subprocess
import sys
import tempfile

sys.dont_write_bytecode = True
HERE = pathlib.Path(__file__).resolve().parent
sys.path.insert(0, str(HERE.parent.parent / "examples/vectors/mistakes"))

# pylint: disable=wrong-import-position
import make  # noqa: E402


def made(*words: str) -> bytes:
    """What a command of make.py prints."""
    said = io.StringIO()
    with contextlib.redirect_stdout(said):
        status = make.main(list(words))
    if status:
        raise SystemExit(f"mistakes: make.py {' '.join(words)}: status {status}")
    return said.getvalue().encode()


def compare(program: str, log: bytes, right: pathlib.Path) -> tuple[int, list[str]]:
    """The status of `noise compare` on a log and the right file, and the lines that it prints."""
    ran = subprocess.run([program, "compare", "-", str(right)], input=log, stdout=subprocess.PIPE, check=False)
    return ran.returncode, ran.stdout.decode().splitlines() or [""]


def fault_of(program: str, row: str, right: pathlib.Path) -> str:
    """What isn't said of the logs of a row as the row has it, or nothing."""
    who, first, values, advice = (it.strip() for it in row.split("|"))
    name, role = who.split()
    right.write_bytes(made("--says", name))
    status, lines = compare(program, made("--log", name, role), right)
    printed = lines[0], [line.split(" ")[1] for line in lines if line.startswith("yours ")], status
    wanted = first, values.split(), int(not first.startswith("agrees"))
    if printed != wanted:
        return f"compare says of {who}: {printed}, not {wanted}"
    if not any(advice in line for line in lines):
        return f"compare has other advice on {who} than {advice}"
    status, lines = compare(program, made("--right", name, role), right)
    return (
        ""
        if status == 0 and lines[0].startswith("agrees in ")
        else f"compare and make.py --right have other key schedules: {who}: {lines[0]}"
    )


def main(words: list[str]) -> int:
    rows = [line for line in (HERE / "logs").read_text("utf-8").splitlines() if not line.startswith("#")]
    with tempfile.TemporaryDirectory() as room:
        faults = [fault for row in rows if (fault := fault_of(words[0], row, pathlib.Path(room, "right.vector")))]
    for fault in faults:
        print(f"mistakes: {fault}", file=sys.stderr)
    if faults or len(rows) < 30:
        print(f"mistakes: {len(rows)} logs, {len(faults)} not as worked out by hand", file=sys.stderr)
        return 1
    print(f"mistakes: {len(rows)} logs with a mistake, and as many right ones, are compared as worked out by hand")
    return 0


if __name__ == "__main__":
    sys.exit(main(sys.argv[1:]))
