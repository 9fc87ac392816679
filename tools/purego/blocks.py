"""Translates a function: its blocks, branches and calls, and each instruction by those for integers or for vectors."""
from collections import namedtuple

from failure import Failure
from lanes import by_lanes
from layout import lay_out
from scalars import Scalars
from tidy import tidy
from values import TYPES, Const, Expr, condition, number, plain_text
from vectors import Vectors

LOADS = {
    "i32.load": 32, "i64.load": 64, "i32.load8_u": 8, "i32.load16_u": 16, "i64.load8_u": 8, "i64.load16_u": 16,
    "i64.load32_u": 32,
}  # fmt: skip
STORES = {
    "i32.store": 32, "i64.store": 64, "i32.store8": 8, "i32.store16": 16, "i64.store8": 8, "i64.store16": 16,
    "i64.store32": 32,
}  # fmt: skip
LONG = 400  # lines: in a function of so many, Go's compiler inlines next to nothing


class Block:
    """A block or loop that isn't ended yet."""

    def __init__(self, kind, name, start):
        self.kind, self.name, self.start, self.is_used = kind, name, start, False


class Translation(Scalars, Vectors):
    """The translation of one function. A block is a block of Go with a label, and a branch a goto."""

    def __init__(self, *words):
        super().__init__(*words)
        self.blocks, self.loops, self.is_dead = [], [], False

    def texts(self):
        """The function, and those that its loops became."""
        code, position = self.function.code, 0
        while position < len(code):
            self.is_dead = self.step(position, code[position]) is False
            position += 1
            if self.is_dead:
                position = end_of_block(code, position)
        if not self.is_dead and self.function.result:
            self.emit(f"return {plain_text(self.pop())}")
        lines = [self.head(), *self.declarations(), *self.lines, "}", ""]
        return ["\n".join(lines), *self.loops]

    def head(self):
        function = self.function
        params = "".join(f", l{i} {TYPES[kind]}" for i, kind in enumerate(function.params))
        result = f" {TYPES[function.result]}" if function.result else ""
        name = f"// f{self.index} is {function.name}.\n" if function.name else ""
        return f"{name}func f{self.index}(m *memory{params}){result} {{"

    def step(self, at, it):
        """Translates one instruction; False if nothing after it in its block is reached."""
        family, _, what = it.name.partition(".")
        if not what or family == "memory":
            return getattr(self, f"do_{it.name.replace('.', '_')}")(at, it.numbers)
        if family == "local":
            self.do_local(what, it.numbers[0])
        elif family == "global":
            self.do_global(what, it.numbers[0])
        elif it.name in LOADS:
            self.load(it.name[:3], LOADS[it.name], it.numbers[0])
        elif it.name in STORES:
            self.store(it.name[:3], STORES[it.name], it.numbers[0])
        elif family in TYPES:
            self.integer(family, what, it.numbers)
        else:
            self.simd(at, it.name, it.numbers)
        return True

    # Blocks and branches

    def begin_block(self, kind):
        self.settle()
        self.variables += 1
        self.blocks.append(Block(kind, f"L{self.variables}", len(self.lines)))
        self.emit("{")
        self.indent += 1
        return True

    def do_block(self, _at, _numbers):
        return self.begin_block("block")

    def do_loop(self, _at, _numbers):
        return self.begin_block("loop")

    def do_end(self, _at, _numbers):
        block = self.blocks.pop()
        self.indent -= 1
        self.emit("}")
        if not block.is_used:
            return not self.is_dead
        if block.kind == "block":
            self.lines.append(self.label(block.name))
            return True
        body, label = self.lines[block.start :], self.label(block.name)
        self.lines[block.start :], more = by_lanes(f"f{self.index}", label, body, self.function.locals)
        self.loops += more
        return not self.is_dead

    def label(self, name):
        """The line of a label, which stands one tab further out."""
        return "\t" * (self.indent - 1) + f"{name}:"

    def branch(self, depth):
        """The statement for a branch to a block so far out."""
        if depth == len(self.blocks):
            return f"return {plain_text(self.stack[-1])}" if self.function.result else "return"
        block = self.blocks[-1 - depth]
        block.is_used = True
        return f"goto {block.name}"

    def do_br(self, _at, numbers):
        self.emit(self.branch(numbers[0]))
        return False

    def do_br_if(self, _at, numbers):
        decides = condition(self.pop())
        self.emit(f"if {decides} {{")
        self.emit("\t" + self.branch(numbers[0]))
        self.emit("}")
        return True

    def do_br_table(self, _at, numbers):
        self.emit(f"switch {plain_text(self.pop())} {{")
        *targets, default = numbers
        for target in sorted(set(targets) - {default}):
            self.emit(f"case {', '.join(str(i) for i, it in enumerate(targets) if it == target)}:")
            self.emit("\t" + self.branch(target))
        self.emit("}")
        self.emit(self.branch(default))
        return False

    def do_return(self, _at, _numbers):
        self.emit(f"return {plain_text(self.pop())}" if self.function.result else "return")
        return False

    def do_unreachable(self, _at, _numbers):
        self.emit('panic("unreachable")')
        return False

    def do_nop(self, _at, _numbers):
        return True

    # Calls, values and memory

    def do_call(self, at, numbers):
        callee, code = self.module.functions[numbers[0]], self.function.code
        arguments = [plain_text(self.pop()) for _ in callee.params][::-1]
        call = f"f{numbers[0]}({', '.join(['m', *arguments])})"
        if not callee.result:
            self.emit(call)
        elif code[at + 1 : at + 2] and code[at + 1].name == "drop":
            self.emit(f"_ = {call}")
            self.push(Expr("_", callee.result, (), True))
        else:
            self.push_named(call, callee.result)
        return True

    def do_drop(self, _at, _numbers):
        self.pop()
        return True

    def do_select(self, _at, _numbers):
        self.select()
        return True

    def do_local(self, what, index):
        if what != "get":
            self.set_local(index)
        if what != "set":
            self.get_local(index)

    def do_global(self, what, index):
        if what == "get":
            self.push_named(f"m.g{index}", self.module.globals[index][0])
        else:
            self.emit(f"m.g{index} = {plain_text(self.pop())}")

    def of_memory(self, name):
        count, value, to = self.pop(), self.pop(), self.pop()
        words = [plain_text(it) if isinstance(it, Const) else f"uint32({plain_text(it)})" for it in (to, value, count)]
        self.emit(f"m.{name}({', '.join(words)})")
        return True

    def do_memory_fill(self, _at, _numbers):
        return self.of_memory("fill")

    def do_memory_copy(self, _at, _numbers):
        return self.of_memory("copy")

    def load(self, kind, bits, offset):
        text = f"m.get{bits}({self.place(offset)})"
        self.push_named(text if bits == int(kind[1:]) else f"{TYPES[kind]}({text})", kind)

    def store(self, kind, bits, offset):
        value = self.pop()
        if isinstance(value, Const):
            text = number(int(value) & ((1 << bits) - 1))
        else:
            text = plain_text(value) if bits == int(kind[1:]) else f"uint{bits}({plain_text(value)})"
        self.emit(f"m.put{bits}({self.place(offset)}, {text})")


def end_of_block(code, position):
    """The place of the `end` of the block that a place is in; the code's end outside of all."""
    level = 0
    while position < len(code):
        name = code[position].name
        if name in ("block", "loop"):
            level += 1
        elif name == "end":
            if level == 0:
                return position
            level -= 1
        position += 1
    return position


Translated = namedtuple("Translated", "text helpers")


def translated(module, index):
    """The text of a function, and the helpers that it needs. The first time shows which kinds its vectors should have,
    and how long it is."""
    kinds, is_long = {}, False
    for _ in range(4):
        made = Translation(module, index, kinds, is_long)
        texts = made.texts()
        wanted = {local: max("qd", key=votes.count) for local, votes in made.votes.items()}
        before, is_long = is_long, is_long or texts[0].count("\n") > LONG
        if wanted == kinds and before == is_long:
            break
        kinds = wanted
    if made.stack and not made.function.result:
        raise Failure(f"{made.function.name} leaves something on the stack")
    return Translated("\n".join(lay_out(tidy(it)) for it in texts), made.helpers)
