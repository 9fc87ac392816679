"""The text of one function while it is made, and the stack of WebAssembly beside it."""
import re

from values import KINDS, TYPES, Const, Expr, Vector, number, plain_text, uses_of

LONGEST = 160  # characters of an expression, before it gets a variable


class Body:
    """One function's Go, line by line. An expression without an effect stays on the stack as text; what reads a local
    gets a variable of its own before that local is set."""

    def __init__(self, module, index, kinds, is_long):
        self.module, self.index, self.function = module, index, module.functions[index]
        self.lines, self.stack, self.variables, self.indent = [], [], 0, 1
        self.kinds, self.votes = kinds, {}  # of locals that are vectors: their kinds, and those that would suit
        self.is_long = is_long  # so long that Go's compiler inlines nothing there
        self.used = set()  # locals
        self.helpers = set()  # functions for instructions that are rare

    def emit(self, text):
        self.lines.append("\t" * self.indent + text)

    def variable(self):
        self.variables += 1
        return f"t{self.variables}"

    def push(self, item):
        self.stack.append(item)

    def pop(self):
        return self.stack.pop()

    def push_pure(self, text, kind, *of):
        item = Expr(text, kind, uses_of(*of))
        self.push(self.named(item) if len(text) > LONGEST else item)

    def push_named(self, text, kind):
        """Pushes what has an effect, or mustn't be moved: in a variable."""
        name = self.variable()
        self.emit(f"{name} := {text}")
        self.push(Expr(name, kind, (), True))

    def named(self, item):
        """The same in a variable of its own, if it isn't one."""
        if isinstance(item, Expr) and (item.uses or not item.is_simple):
            name = self.variable()
            self.emit(f"{name} := {item.text}")
            return Expr(name, item.kind, (), True)
        if isinstance(item, Vector) and item.uses:
            names = [self.variable() for _ in item.parts]
            self.emit(f"{', '.join(names)} := {', '.join(item.parts)}")
            return Vector(item.kind, names)
        return item

    def settle(self, local=None):
        """Before a local is set, or any may be: what is on the stack and reads it gets a variable."""
        for i, item in enumerate(self.stack):
            if not isinstance(item, Const) and (item.uses if local is None else local in item.uses):
                self.stack[i] = self.named(item)

    # The memory

    def place(self, offset):
        """The place in the memory's array of the address on the stack."""
        item, base = self.pop(), self.module.base
        if isinstance(item, Const):
            return number(int(item) + offset - base)
        text = plain_text(item)
        low = text if self.module.address == "i32" else f"uint32({text})"
        return f"{low} - {number(base - offset)}" if base >= offset else f"{low} + {number(offset - base)}"

    # Locals

    def kind_of(self, local):
        return self.kinds.get(local, "q")

    def parts_of(self, local):
        """The variables that a local which is a vector has."""
        return [f"l{local}{it}" for it in ("ab" if self.kind_of(local) == "q" else "abcd")]

    def get_local(self, index):
        self.used.add(index)
        kind = self.function.locals[index]
        if kind == "v128":
            self.push(Vector(self.kind_of(index), self.parts_of(index), [index]))
        else:
            self.push(Expr(f"l{index}", kind, [index], True))

    def set_local(self, index):
        item = self.pop()
        self.settle(index)
        self.used.add(index)
        if self.function.locals[index] == "v128":
            self.votes.setdefault(index, []).append(item.kind)
            item = self.converted(item, self.kind_of(index))
            self.emit(f"{', '.join(self.parts_of(index))} = {', '.join(item.parts)}")
        elif plain_text(item) != f"l{index}":
            self.emit(f"l{index} = {plain_text(item)}")

    def declarations(self):
        """The locals that aren't parameters, by their types."""
        function, first = self.function, len(self.function.params)
        rows = [(go, [f"l{i}" for i in self.used if i >= first and function.locals[i] == kind])
                for kind, go in TYPES.items()]
        rows += [(go, [it for i in sorted(self.used) if function.locals[i] == "v128" and self.kind_of(i) == kind
                       for it in self.parts_of(i)]) for kind, go in KINDS.items()]
        for go, names in rows:
            if names:
                names.sort(key=lambda it: (int(re.sub(r"\D", "", it)), it))
                yield f"\tvar {', '.join(names)} {go}"

    # Vectors

    def converted(self, item, kind):
        """A vector as one of the other kind."""
        if item.kind == kind:
            return item
        parts = item.parts
        if all(it[0].isdigit() for it in parts):
            values = [int(it, 0) for it in parts]
            if kind == "q":
                return Vector("q", [number(values[0] | values[1] << 32), number(values[2] | values[3] << 32)])
            return Vector("d", [number(values[i // 2] >> 32 * (i % 2) & 0xFFFFFFFF) for i in range(4)])
        if kind == "q":
            pairs = (parts[:2], parts[2:])
            return self.vector_of("q", [f"uint64({low}) | uint64({high})<<32" for low, high in pairs])
        return self.vector_of("d", [text for it in parts for text in (f"uint32({it})", f"uint32({it} >> 32)")])

    def vector_of(self, kind, expressions):
        """A vector of these parts, each in a variable, if it isn't one or a number."""
        are_simple = [re.fullmatch(r"t\d+|0x[0-9a-f]+|\d+", it) for it in expressions]
        names = [it if is_simple else self.variable() for it, is_simple in zip(expressions, are_simple)]
        new = [pair for *pair, is_simple in zip(names, expressions, are_simple) if not is_simple]
        if new:
            self.emit(f"{', '.join(name for name, _ in new)} := {', '.join(text for _, text in new)}")
        return Vector(kind, names)

    def vote(self, item, kind):
        """Says which kind would suit an instruction that takes this vector."""
        for local in item.uses:
            self.votes.setdefault(local, []).append(kind)
