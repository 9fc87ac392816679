"""Measures the library beside its peers: measure.py FOLDER FIGURES. tools/speed/run builds the programs in FOLDER, and
calls this.

Of each line of the table all programs run in turn, for some rounds, on one processor. A figure is the median over the
rounds, and so is a ratio: how many times as fast as the peer the library was in the same round. FIGURES gets a line for
each, and before them what they were measured on. Where the load shows that something else runs, no figures are kept.
"""
from __future__ import annotations

import argparse
import datetime
import os
import re
import statistics
import subprocess
import sys
import time
from pathlib import Path

SHORT = [64, 1024, 16384]
LONG = [64, 256, 1024, 4096, 16384, 65519]
ENDS = [64, 16384]
LONGER = 20    # times as long are the samples of channels: to connect and to close takes some milliseconds in Node
MOST = 2.0    # the load above which no figure is kept; a channel has one process more

# In which language, what, of how many bytes, and the peers: PROGRAM:OPERATION, and what the table calls it.
ROWS = [
    (
        "C", "seal", LONG,
        {
            "go:flynn.seal": "flynn/noise", "peers:libsodium.seal": "libsodium", "peers:OpenSSL.seal": "OpenSSL",
            "peers:nettle.seal": "nettle",
        },
    ),
    ("C", "transport", SHORT, {"go:flynn.transport": "flynn/noise", "peers:libsodium.transport": "libsodium"}),
    ("C", "stream", SHORT, {"go:flynn.transport": "flynn/noise"}),
    ("C", "NN", [0], {"go:flynn.NN.free": "flynn/noise"}),
    ("C", "XX", [0], {"go:flynn.XX.free": "flynn/noise"}),
    ("Go", "transport", SHORT, {"go:flynn.transport": "flynn/noise"}),
    ("Go", "XX", [0], {"go:flynn.XX": "flynn/noise"}),
    ("Rust", "transport", SHORT, {"rust:ring.transport": "ring"}),
    (
        "Python", "transport", SHORT,
        {"python:dissononce.transport": "dissononce", "python:cryptography.transport": "cryptography"},
    ),
    ("Python", "XX", [0], {"python:dissononce.XX": "dissononce"}),
    ("JavaScript", "transport", SHORT, {"js:node:crypto.transport": "node:crypto"}),
    ("JavaScript", "seal", [16384], {"C:seal": "C"}),
    ("Go", "channel", ENDS, {"go:tls.channel": "crypto/tls"}),
    ("Rust", "channel", ENDS, {"rust:rustls.channel": "rustls"}),
    ("Python", "channel", ENDS, {"python:ssl.channel": "ssl"}),
    ("JavaScript", "channel", ENDS, {"js:node:tls.channel": "node:tls"}),
]
# What is measured at each level of the processor, in C.
LEVELS = [("seal", ENDS), ("transport", [64]), ("XX", [0])]
COUNTED = [("seal", SHORT), ("transport", SHORT), ("stream", SHORT), ("NN", [0]), ("XX", [0])]


class Program:
    """A program that runs operations, as c/server.h says."""

    def __init__(self, name: str, words: list[str]) -> None:
        self.name, self.words = name, words
        self.process = subprocess.Popen(words, stdin=subprocess.PIPE, stdout=subprocess.PIPE, text=True)
        self.operations = set(self.ask("list"))

    def ask(self, line: str) -> list[str]:
        assert self.process.stdin and self.process.stdout
        self.process.stdin.write(line + "\n")
        self.process.stdin.flush()
        answer = self.process.stdout.readline().split()
        if not answer:
            sys.exit(f"speed: {self.name} stopped at: {line}")
        return answer

    def nanoseconds(self, operation: str, size: int, count: int) -> int:
        return int(self.ask(f"{operation} {size} {count}")[0])


class Job:
    """One operation of a program; `samples` has the nanoseconds of a call, a number for each round."""

    def __init__(self, program: Program, operation: str, size: int) -> None:
        self.program, self.operation, self.size = program, operation, size
        self.count, self.samples = 1, list[float]()

    def settle(self, nanoseconds: float) -> None:
        """Chooses how many calls are one sample, after some that let a compiler at run time do its work."""
        self.program.nanoseconds(self.operation, self.size, 100)
        taken = self.program.nanoseconds(self.operation, self.size, self.count)
        while taken < nanoseconds / 4:
            self.count *= 4
            taken = self.program.nanoseconds(self.operation, self.size, self.count)
        self.count = max(1, int(self.count * nanoseconds / taken))

    def sample(self) -> None:
        self.samples.append(self.program.nanoseconds(self.operation, self.size, self.count) / self.count)

    def median(self) -> float:
        return statistics.median(self.samples)

    def times_as_fast(self, peer: Job) -> float:
        return statistics.median(theirs / ours for ours, theirs in zip(self.samples, peer.samples))


def wait_for_quiet(seconds: float) -> None:
    """Waits until what was built before has left the load, or so long."""
    end = time.monotonic() + seconds
    while os.getloadavg()[0] > MOST / 2 and time.monotonic() < end:
        time.sleep(5)


def must_be_quiet(most: float) -> None:
    if (load := os.getloadavg()[0]) > most:
        sys.exit(f"speed: the load is {load:.1f}, so no figures are kept: end what else runs here, and begin again")


def warm_up(job: Job, seconds: float) -> None:
    """Lets the processor reach its speed before the first row."""
    end = time.monotonic() + seconds
    while time.monotonic() < end:
        job.program.nanoseconds(job.operation, job.size, 1000)


def measured(jobs: list[Job], rounds: int, milliseconds: float) -> None:
    for job in jobs:
        job.settle(milliseconds * 1e6)
    for _ in range(rounds):
        for job in jobs:
            job.sample()


def has(programs: dict[str, Program], name: str, operation: str) -> bool:
    return name in programs and operation in programs[name].operations


def rows(programs: dict[str, Program], subjects: dict[str, list[str]], options: argparse.Namespace) -> list[str]:
    """The figures, a line each: language, operation, bytes, nanoseconds, peer, its nanoseconds, and the ratio."""
    made = []
    for language, operation, sizes, peers in ROWS:
        ours = [it for it in subjects[language] if it in programs]
        theirs = {key: name for key, name in peers.items() if has(programs, *key.split(":", 1))}
        for size in sizes if ours and theirs else ():
            mine = [Job(programs[it], operation, size) for it in ours]
            others = {
                name: Job(programs[key.partition(":")[0]], key.partition(":")[2], size) for key, name in theirs.items()
            }
            longer = LONGER if operation == "channel" else 1
            measured([*mine, *others.values()], options.rounds, longer * options.milliseconds)
            for job, label in zip(mine, ours):
                said = language if label == language or label not in subjects["C"] else label
                made += [
                    f"{said} {operation} {size} {job.median():.0f} {name} {peer.median():.0f} "
                    f"{job.times_as_fast(peer):.2f}"
                    for name, peer in others.items()
                ]
                print(*made[-len(others):], sep="\n", flush=True)
            if not options.busy:
                must_be_quiet(MOST + (operation == "channel"))
    return made


def by_level(program: str, core: list[str], options: argparse.Namespace) -> list[str]:
    """The figures of each level that the processor has, a line each: operation, bytes, level, nanoseconds, and how many
    times as fast it is as the lowest."""
    programs = {
        it: Program(it, ["env", f"NOISE_LEVEL={it}", *core, program]) for it in "134" if it <= options.level
    }
    made = []
    for operation, sizes in LEVELS:
        for size in sizes:
            jobs = {it: Job(program, operation, size) for it, program in programs.items()}
            measured(list(jobs.values()), options.rounds, options.milliseconds)
            made += [
                f"level {operation} {size} {it} {job.median():.0f} {1 / jobs['1'].times_as_fast(job):.2f}"
                for it, job in jobs.items()
            ]
            print(*made[-len(jobs):], sep="\n", flush=True)
            if not options.busy:
                must_be_quiet(MOST)
    return made


def instructions(words: list[str], operation: str, size: int, count: int, folder: Path) -> int:
    """What valgrind counts from the start of a program to its end."""
    out = folder / "callgrind.out"
    subprocess.run(
        ["valgrind", "--tool=callgrind", f"--callgrind-out-file={out}", *words], input=f"{operation} {size} {count}\n",
        capture_output=True, text=True, check=True,
    )
    found = re.search(r"^(?:totals|summary): (\d+)", out.read_text(encoding="utf-8"), re.M)
    if not found:
        sys.exit("speed: valgrind's callgrind counts nothing")
    return int(found[1])


def counted(words: list[str], name: str, folder: Path) -> list[str]:
    """Instructions of a call; those of `open` are what `transport` has more than `seal`, so that no copy is counted."""
    made: dict[tuple[str, int], int] = {}
    for operation, sizes in COUNTED:
        for size in sizes:
            few, many = (20, 220) if size <= 1024 else (5, 55)
            made[operation, size] = round(
                (instructions(words, operation, size, many, folder) - instructions(words, operation, size, few, folder))
                / (many - few)
            )
    for size in SHORT:
        made["open", size] = made["transport", size] - made["seal", size]
    return [f"instructions {name} {operation} {size} {count}" for (operation, size), count in made.items()]


def first_line(*words: str) -> str:
    try:
        return (subprocess.run(words, capture_output=True, text=True, check=False).stdout.splitlines() or ["none"])[
            0
        ].strip()
    except FileNotFoundError:
        return "none"


def circumstances(load: tuple[float, float], level: str) -> list[str]:
    processor = re.search(r"^model name\s*: (.*)", Path("/proc/cpuinfo").read_text(encoding="utf-8"), re.M)
    system = re.search(r'^PRETTY_NAME="(.*)"', Path("/etc/os-release").read_text(encoding="utf-8"), re.M)
    tools = [
        first_line("gcc", "--version"), first_line("go", "version"), first_line("/usr/bin/rustc", "--version"),
        first_line("python3", "--version"), f"node {first_line('node', '--version')}",
    ]
    return [
        f"date {datetime.date.today().isoformat()}",
        f"machine {processor[1] if processor else os.uname().machine}, {os.cpu_count()} processors, "
        f"{first_line('systemd-detect-virt')}; level x86-64-v{level}",
        f"load {load[0]:.1f} at the start, {load[1]:.1f} at the end",
        f"system {system[1] if system else os.uname().sysname}; "
        f"{'; '.join(it for it in tools if not it.endswith('none'))}",
    ]


def main() -> None:
    words = argparse.ArgumentParser(description=__doc__)
    words.add_argument("folder", type=Path)
    words.add_argument("figures", type=Path)
    words.add_argument("--rounds", type=int, default=9)
    words.add_argument("--milliseconds", type=float, default=10, help="of one sample")
    words.add_argument(
        "--beside", action="append", default=[], help="the name of another library in C, whose program is FOLDER/NAME"
    )
    words.add_argument("--level", default="?", help="the level of this processor")
    words.add_argument("--busy", action="store_true", help="measures at any load, and keeps no figures")
    options = words.parse_args()
    if not options.busy:
        wait_for_quiet(300)
        must_be_quiet(MOST)
    begun = os.getloadavg()[0]
    core = ["taskset", "-c", str((os.cpu_count() or 1) - 1)]
    calls = {it.stem: [str(it)] for it in sorted(options.folder.glob("*.program"))}
    for name, call in (("python", "/usr/bin/python3"), ("js", "node")):
        script = options.folder / f"{name}.call"
        calls.update({name: [call, script.read_text(encoding="utf-8").strip()]} if script.exists() else {})
    programs = {name: Program(name, [*core, *call]) for name, call in calls.items()}
    subjects = {"C": ["C", *options.beside], "Go": ["go"], "Rust": ["rust"], "Python": ["python"], "JavaScript": ["js"]}
    warm_up(Job(programs["C"], "seal", 64), 3)
    made = rows(programs, subjects, options)
    if (levels := options.folder / "levels").exists():
        made += by_level(str(levels), core, options)
    for name in subjects["C"]:
        made += counted(calls[name], name, options.folder)
    if options.busy:
        sys.exit("speed: measured at any load, so no figures are kept")
    options.figures.write_text(
        "\n".join(
            ["# Made by tools/speed/run.", *circumstances((begun, os.getloadavg()[0]), options.level), *made, ""]
        ),
        encoding="utf-8",
    )


main()
