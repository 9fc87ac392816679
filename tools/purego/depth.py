"""How deep the stack of a module gets: how many bytes each call takes at most.

The bytes are added up over the graph of calls, in which there must be no circle. A function may call itself only if
ITSELF says what bounds that. Each of these walks a list: it returns where the list is empty, and otherwise calls itself
at most once, for the list without its first element. So of a list of n elements there are at most n + 1 calls in one
another. How long the lists can be is read from the declarations of those that have them.
"""
import os
import re

from failure import Failure
from wasm import Instruction

ROOT = os.path.dirname(os.path.dirname(os.path.dirname(os.path.realpath(__file__))))
# The tokens of a message, of which `ArrayVec` takes no more, and those of a pre-message.
TOKENS = ("crates/noise_names/src/pattern.rt", r"pub struct Message \{\s*tokens: ArrayVec<Token, (\d+)>,")
BEFORE = ("crates/noise_names/src/pattern.rt", r"initiator: ArrayVec<Token, (\d+)>,\s*responder: ArrayVec<Token, \1>,")
# The DH results that C's struct of a handshake holds.
RESULTS = ("crates/noise_c/src/structs.rt", r"pub answers: \[NoiseAnswer; (\d+)\],")
ITSELF = {
    "noise_handshake::reader::read_tokens": TOKENS,  # `placed.split_first()`, of a message's tokens
    "noise_handshake::writer::write_tokens": TOKENS,  # the same
    "noise_handshake::writer::write_lacking": TOKENS,  # the same
    "noise_handshake::layout::psk_after": TOKENS,  # the same, which its clause `few` demands too
    "noise_handshake::setup::mix_premessage": BEFORE,  # `tokens.split_first()`, of a pre-message's tokens
    "noise_c::supplied_keys::result_for": RESULTS,  # `answers.split_first()`, of a handshake's DH results
}

GET, SET = (Instruction(f"global.{it}", (0,)) for it in ("get", "set"))


def times_itself(name, root=ROOT):
    """How many calls of a function that calls itself there are at most in one another."""
    path = next((it for start, it in ITSELF.items() if re.match(re.escape(start) + r"(::|$)", name)), None)
    if path is None:
        raise Failure(f"{name or 'a function without a name'} calls itself, and depth.py doesn't say how often")
    file, form = path
    with open(f"{root}/{file}", encoding="utf-8") as it:
        found = re.findall(form, it.read())
    if len(found) != 1:
        raise Failure(f"{file} doesn't say how long the list is that {name} walks")
    return int(found[0]) + 1


def frame(function):
    """How far a function goes below the stack pointer, which is global 0: what it subtracts from it. A function that
    calls no other may do so without setting it."""
    holders, total = pointers(function), 0
    for at, it in enumerate(function.code):
        what = [other.name.partition(".")[2] for other in function.code[max(at - 3, 0) : at]]
        if it == SET and what != ["const", "sub", "tee"] and what != ["get", "const", "add"] and what[-1:] != ["get"]:
            raise Failure(f"{function.name} moves the stack pointer in a way that depth.py doesn't know")
        if it.name.endswith(".sub") and what[-1] == "const" and function.code[at - 2] in holders:
            total += function.code[at - 1].numbers[0]
    return total


def pointers(function):
    """The instructions of a function that give the stack pointer as it was at first: those that read it, and those that
    read or set a local that was set to it."""
    found = {GET}
    for it, after in zip(function.code, function.code[1:]):
        if it != GET:
            continue
        if after.name in ("local.set", "local.tee"):
            found |= {Instruction(f"local.{what}", after.numbers) for what in ("get", "tee")}
        elif not after.name.endswith(".const"):
            raise Failure(f"{function.name} reads the stack pointer in a way that depth.py doesn't know")
    return found


class Depths:
    """The bytes of stack that each function of a module takes at most, with all that it calls."""

    def __init__(self, module):
        self.module, self.known = module, {}

    def of(self, index, above=()):
        if index in above:
            raise Failure(f"functions call each other in a circle: {[*above, index]}")
        if index not in self.known:
            function = self.module.functions[index]
            calls = set(function.calls())
            below = max([self.of(it, (*above, index)) for it in calls - {index}], default=0)
            times = times_itself(function.name) if index in calls else 1
            self.known[index] = frame(function) * times + below
        return self.known[index]
