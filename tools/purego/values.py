"""What stands on the stack of WebAssembly while a function is translated: constants, expressions of Go, and vectors."""
import re

TYPES = {"i32": "uint32", "i64": "uint64"}
KINDS = {"q": "uint64", "d": "uint32"}  # the two kinds of vectors: of two words of 64 bits, or of four of 32
IS_NUMBER = re.compile(r"0x[0-9a-f]+|\d+")


class Const(int):
    """A constant of a type."""

    def __new__(cls, value, kind):
        made = int.__new__(cls, value)
        made.kind = kind
        return made


class Expr:
    """An expression without an effect; `uses` are the locals in it, `kind` is i32, i64 or bool, and a simple one is a
    variable."""

    def __init__(self, text, kind, uses=(), is_simple=False):
        self.text, self.kind, self.uses, self.is_simple = text, kind, frozenset(uses), is_simple


class Vector:
    """A vector as two uint64 (kind q) or four uint32 (d), each a variable or a number."""

    def __init__(self, kind, parts, uses=()):
        self.kind, self.parts, self.uses = kind, parts, frozenset(uses)


def number(value):
    return str(value) if 0 <= value < 10 else hex(value)


def plain_text(item):
    """A number as an operand of Go that takes its type from the other operand."""
    if isinstance(item, Const):
        return number(item)
    return f"b2i({item.text})" if item.kind == "bool" else item.text


def typed_text(item, kind):
    """The same with a type of its own."""
    return f"{TYPES[kind]}({number(item)})" if isinstance(item, Const) else plain_text(item)


def condition(item):
    if isinstance(item, Const):
        return "true" if item else "false"
    return item.text if item.kind == "bool" else f"{item.text} != 0"


def uses_of(*items):
    return frozenset().union(*(it.uses for it in items if not isinstance(it, Const)))
