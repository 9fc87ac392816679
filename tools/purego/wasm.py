"""Reads a WebAssembly module: its functions with their instructions, its exports, globals, data and names.

It takes what a freestanding library of LLVM has: no imports, no tables, no indirect calls, no floating point, one
memory with addresses of 32 or 64 bits, and the instructions of opcodes.py. Anything else is refused.
"""
from collections import namedtuple

from failure import Failure
from opcodes import PLAIN, PREFIXES, follows

TYPES = {0x7F: "i32", 0x7E: "i64", 0x7B: "v128"}
NO_RESULT = 0x40  # a block's type

# An instruction: its name, and the numbers that follow. Of an access of the memory they are the offset, and the lane.
Instruction = namedtuple("Instruction", "name numbers")


class Function:
    """A function of the module: the types of its parameters, result and locals, its instructions and its name."""

    def __init__(self, params, result):
        self.params, self.result, self.locals = params, result, list(params)
        self.code, self.name = [], ""

    def calls(self):
        """The functions that it calls, by their numbers, each as often as it stands there."""
        return [it.numbers[0] for it in self.code if it.name == "call"]


class Reader:
    """Bytes of a module, from a place on."""

    def __init__(self, content):
        self.content, self.at = content, 0

    def is_done(self):
        return self.at >= len(self.content)

    def take(self, count):
        if self.at + count > len(self.content):
            raise Failure("the module ends too early")
        self.at += count
        return self.content[self.at - count : self.at]

    def byte(self):
        return self.take(1)[0]

    def unsigned(self):
        """A number of LEB128."""
        value = shift = 0
        while True:
            byte = self.byte()
            value |= (byte & 0x7F) << shift
            shift += 7
            if byte < 0x80:
                return value

    def signed(self):
        """A signed number of LEB128."""
        begun, value = self.at, self.unsigned()
        bits = 7 * (self.at - begun)
        return value - (1 << bits) if value >> (bits - 1) else value

    def text(self):
        return self.take(self.unsigned()).decode()

    def rows(self, read):
        return [read() for _ in range(self.unsigned())]

    def value_type(self):
        number = self.byte()
        if number not in TYPES:
            raise Failure(f"a value of the type {number:#x}")
        return TYPES[number]

    def constant(self):
        """The value of an expression that is a constant."""
        if self.byte() not in (0x41, 0x42):
            raise Failure("an initial value that isn't a constant")
        value = self.signed()
        if self.byte() != 0x0B:
            raise Failure("an initial value of several instructions")
        return value


class Module:
    """What a module has. `exports` are functions by their names, `globals` types and values, `data` places and
    bytes."""

    def __init__(self, content):
        if content[:8] != b"\0asm\1\0\0\0":
            raise Failure("this isn't a module of WebAssembly")
        self.types, self.functions, self.exports, self.globals, self.data = [], [], {}, [], []
        reader, parts = Reader(content[8:]), self.sections()
        while not reader.is_done():
            number = reader.byte()
            part = Reader(reader.take(reader.unsigned()))
            if number not in parts:
                raise Failure(f"a section of the kind {number}: imports, tables and start functions aren't translated")
            parts[number](part)

    def sections(self):
        """What reads each kind of section."""
        return {
            0: self.read_custom, 1: self.read_types, 3: self.read_functions, 5: self.read_memory, 6: self.read_globals,
            7: self.read_exports, 10: self.read_code, 11: self.read_data, 12: lambda part: None,
        }  # fmt: skip

    def read_custom(self, part):
        """The names of the functions; what else is of tools stays unread."""
        if part.text() != "name":
            return
        while not part.is_done():
            kind, names = part.byte(), Reader(part.take(part.unsigned()))
            if kind == 1:
                for index, name in names.rows(lambda: (names.unsigned(), names.text())):
                    self.functions[index].name = name

    def read_types(self, part):
        for _ in range(part.unsigned()):
            if part.byte() != 0x60:
                raise Failure("a type that isn't a function's")
            params, results = part.rows(part.value_type), part.rows(part.value_type)
            if len(results) > 1:
                raise Failure("a function with several results")
            self.types.append((params, results[0] if results else None))

    def read_functions(self, part):
        self.functions = [Function(*self.types[it]) for it in part.rows(part.unsigned)]

    @staticmethod
    def read_memory(part):
        if part.unsigned() != 1:
            raise Failure("more than one memory")

    def read_globals(self, part):
        for _ in range(part.unsigned()):
            kind, _ = part.value_type(), part.byte()
            self.globals.append((kind, part.constant()))

    def read_exports(self, part):
        for _ in range(part.unsigned()):
            name, kind, index = part.text(), part.byte(), part.unsigned()
            if kind == 0:
                self.exports[name] = index

    def read_data(self, part):
        for _ in range(part.unsigned()):
            if part.unsigned() != 0:
                raise Failure("data that isn't at a fixed place of the one memory")
            self.data.append((part.constant(), part.take(part.unsigned())))

    def read_code(self, part):
        if part.unsigned() != len(self.functions):
            raise Failure("there isn't one body for each function")
        for function in self.functions:
            body = Reader(part.take(part.unsigned()))
            for count, kind in body.rows(lambda body=body: (body.unsigned(), body.value_type())):
                function.locals += [kind] * count
            function.code = list(instructions(body))
            if not function.code or function.code.pop().name != "end":
                raise Failure("a function without an end")


def instructions(body):
    """The instructions of a function's body."""
    while not body.is_done():
        number, table = body.byte(), PLAIN
        if number in PREFIXES:
            table, number = PREFIXES[number], body.unsigned()
        if number not in table:
            raise Failure(f"an instruction that isn't translated ends the bytes {body.content[: body.at].hex()[-16:]}")
        name = table[number]
        yield Instruction(name, tuple(operands(body, follows(name))))


def operands(body, what):
    """The numbers that follow an instruction's."""
    if what == "block":
        if body.byte() != NO_RESULT:
            raise Failure("a block with a result")
    elif what == "index":
        yield body.unsigned()
    elif what == "labels":
        yield from body.rows(body.unsigned)
        yield body.unsigned()
    elif what.startswith("memory"):
        body.unsigned()  # the alignment is a hint
        yield body.unsigned()
        if what == "memory lane":
            yield body.byte()
    elif what == "lane":
        yield body.byte()
    elif what == "shuffle":
        yield from body.take(16)
    elif what in ("i32", "i64"):
        yield body.signed() & ((1 << int(what[1:])) - 1)
    elif what == "v128":
        yield from (int.from_bytes(body.take(4), "little") for _ in range(4))
    elif what in ("zero", "zeros") and any(body.take(1 if what == "zero" else 2)):
        raise Failure("another memory than the first")
