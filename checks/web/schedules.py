#!/usr/bin/env python3
"""Compares what the page saves of its runs with the program of checks/trace, which has its own functions of the suite:
schedules.py FOLDER.

Each NAME.vector in the folder expects the lines of its run, and NAME.log has the lines of its key schedules.
"""
import pathlib
import sys

sys.dont_write_bytecode = True
sys.path.insert(0, str(pathlib.Path(__file__).resolve().parent.parent / "trace"))

# pylint: disable=wrong-import-position
import vectors  # noqa: E402


def fault_of(path):
    """What isn't as expected of a file, or nothing."""
    text = path.read_text(encoding="ascii")
    lines = vectors.run(vectors.read(text))
    printed = [it.text for it in lines if not it.part]
    schedule = sorted(it.text for it in lines if it.part)
    if printed != [it[7:] for it in text.splitlines() if it.startswith("expect ")]:
        return "the run has other lines"
    if schedule != sorted(path.with_suffix(".log").read_text(encoding="ascii").splitlines()):
        return "the key schedule has other lines"
    return ""


def main():
    """Compares all, and returns the exit status."""
    paths = sorted(pathlib.Path(sys.argv[1]).glob("*.vector"))
    faults = {path.name: fault for path in paths if (fault := fault_of(path))}
    for name, fault in faults.items():
        print(f"web: {name}: {fault}", file=sys.stderr)
    if not faults:
        print(
            f"web: the program of checks/trace has the same runs and key schedules as {len(paths)} that the page saved"
        )
    return int(bool(faults) or not paths)


if __name__ == "__main__":
    sys.exit(main())
