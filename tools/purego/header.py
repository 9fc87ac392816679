"""Reads the calls of include/noise.h that Go makes, and how Go writes each: bindings/go/internal/library/calls.go."""
import os
import re
import sys
from collections import namedtuple

from failure import Failure

ROOT = os.path.dirname(os.path.dirname(os.path.dirname(os.path.realpath(__file__))))
sys.path.insert(0, f"{ROOT}/bindings")
# pylint: disable-next=wrong-import-position
import prototypes

HEADER, DECLARED = "include/noise.h", "bindings/go/internal/library/calls.go"

# A call: its name in C and in Go, its parameters, its result in Go. A parameter has its name and type in Go, and
# whether the call only reads what it leads to.
Call = namedtuple("Call", "c_name name params result")
Param = namedtuple("Param", "name kind is_const")


def text_of(file):
    with open(f"{ROOT}/{file}", encoding="utf-8") as it:
        return it.read()


def calls():
    """The calls that Go makes."""
    const = {it.name: [one.is_const for one in it.parameters] for it in prototypes.calls()}
    made = []
    form = r"// \w+ is (noise_\w+)\.\n//\n//go:noescape\nfunc (\w+)\((.*)\) (\w+)\n"
    for c_name, name, params, result in re.findall(form, text_of(DECLARED)):
        pairs = [it.split(" ") for it in params.split(", ")] if params else []
        if c_name not in const or len(pairs) != len(const[c_name]):
            raise Failure(f"{HEADER} and {DECLARED} have other parameters of {c_name}")
        made.append(Call(c_name, name, [Param(*it, is_const) for it, is_const in zip(pairs, const[c_name])], result))
    if not made:
        raise Failure(f"{DECLARED} isn't written as header.py reads it")
    return made


def buffers(call):
    """The names of the parameters that lead to as many bytes as another parameter says."""
    names = {it.name for it in call.params}
    return {it.name for it in call.params if it.kind == "*byte" and f"{it.name}Len" in names}
