#!/usr/bin/env python3
"""Fills templates: filled.py PROGRAM NAME..: for each NAME, as `noise template` takes it, a file on standard input
gives each value that the template has a place for. What is printed has to be the template with each placeholder
replaced, and a run of it has to meet the lines that `noise convert` makes it expect."""

import subprocess
import sys

BYTES = {
    "initiator e": "e1", "initiator s": "51", "responder e": "e2", "responder s": "52",
    "dh ee": "ee", "dh es": "e5", "dh se": "5e", "dh ss": "55",
}
BYTES |= {f"psk {index}": f"a{index}" for index in range(9)}


def run(words, given):
    """What the program prints of these words, with this text on standard input."""
    return subprocess.run(words, input=given, capture_output=True, text=True, check=False)


def names_of(program, pattern):
    """The names that a file may give for a pattern, as a line that names none of them is answered."""
    told = run([program, "template", pattern, "-"], "none = 00\n").stderr
    return told.rstrip("\n").partition("one of this pattern's: ")[2].split(", ")


def replaced(template, values):
    """The template with these values in the place of its placeholders."""
    payloads = iter(value for name, value in values.items() if name.startswith("payload "))
    lines = []
    for line in template.splitlines():
        for name, byte in BYTES.items():
            line = line.replace(byte * 32, values.get(name, byte * 32))
        if line.startswith("say "):
            line = f"{line.removesuffix('- -')}{next(payloads)} -"
        lines.append(f"prologue {values['prologue']}" if line == "prologue -" else line)
    return "".join(f"{line}\n" for line in lines)


def fault_of(program, pattern):
    """What is wrong with the filled template of a pattern, or nothing."""
    names = names_of(program, pattern)
    values = {name: f"{index + 1:02x}" * (32 if name in BYTES else index % 3 + 1) for index, name in enumerate(names)}
    file = "# all that the pattern has\n\n" + "".join(f"{name} = {value}\n" for name, value in reversed(values.items()))
    filled = run([program, "template", pattern, "-"], file)
    if (filled.returncode, filled.stdout) != (0, replaced(run([program, "template", pattern], "").stdout, values)):
        return f"{filled.stderr}{filled.stdout}isn't the template with these values:\n{file}"
    tested = run([program, "test", "-"], run([program, "convert", "-"], filled.stdout).stdout)
    return "" if tested.stdout == "ok -\n1 passed, 0 failed\n" else f"a run of it: {tested.stdout}"


def main():
    """Fills each template, and returns the exit status."""
    program, *patterns = sys.argv[1:]
    for pattern in patterns:
        fault = fault_of(program, pattern)
        if fault:
            print(f"filled.py: {pattern}: {fault}", file=sys.stderr)
            return 1
    print(f"patterns: {len(patterns)} filled templates")
    return 0


if __name__ == "__main__":
    sys.exit(main())
