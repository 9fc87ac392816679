"""Reads the prototypes of include/noise.h, of which the declarations of the calls in Go, Rust and JavaScript are made.
"""
import re
from collections import namedtuple
from pathlib import Path

HEADER = Path(__file__).resolve().parent.parent / "include" / "noise.h"

# A call: its name, its parameters, and the type of its result. A parameter: its type without `const` and stars, its
# name, whether it is a pointer, and whether the call only reads what it leads to.
Call = namedtuple("Call", "name parameters result")
Parameter = namedtuple("Parameter", "type name is_pointer is_const")


def without_comments(text):
    return re.sub(r"/\*.*?\*/", " ", text, flags=re.S)


def parameter(text):
    """One parameter: an array is a pointer."""
    words = re.fullmatch(r"(const )?(\w+) (\**)(\w+)(\[\d+\])?", " ".join(text.split()))
    const, kind, stars, name, array = words.groups()
    return Parameter(kind, name, bool(stars or array), bool(const))


def calls():
    """The calls of the header in their order, without its inline functions."""
    text = without_comments(HEADER.read_text(encoding="utf-8"))
    text = re.sub(r"(?m)^#.*(\\\n.*)*$", "", text)
    text = re.sub(r"(?m)^static inline[^;]*;$", "", text)
    made = []
    for result, declared in re.findall(r"\b(uint32_t|size_t)\s+((?:noise_\w+\([^;{]*?\)\s*,?\s*)+);", text):
        for name, listed in re.findall(r"(noise_\w+)\(([^)]*)\)", declared):
            made.append(Call(name, [parameter(it) for it in listed.split(",") if it.strip() != "void"], result))
    if len(made) < 40:
        raise ValueError("include/noise.h isn't written as bindings/prototypes.py reads it")
    return made
