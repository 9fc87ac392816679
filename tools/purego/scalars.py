"""Translates the instructions for integers: one of Go's operators each."""
from body import Body
from failure import Failure
from values import TYPES, Const, Vector, condition, number, plain_text, typed_text

OPERATORS = {"add": "+", "sub": "-", "mul": "*", "and": "&", "or": "|", "xor": "^", "div_u": "/", "rem_u": "%"}
COMPARISONS = {"eq": "==", "ne": "!=", "lt": "<", "gt": ">", "le": "<=", "ge": ">="}
SHIFTS = {"shl": "<<", "shr": ">>"}


def signed_text(item, bits):
    """A number as a signed operand."""
    if isinstance(item, Const):
        return str(int(item) - (int(item) >> bits - 1 << bits))
    return f"int{bits}({plain_text(item)})"


class Scalars(Body):
    """The instructions for integers, and `select`."""

    def integer(self, kind, what, numbers):
        if what == "const":
            self.push(Const(numbers[0], kind))
        elif what in ("eqz", "wrap_i64", "extend_i32_u", "extend_i32_s"):
            self.unary(kind, what)
        else:
            right, left = self.pop(), self.pop()
            if isinstance(left, Const) and (isinstance(right, Const) or what == "shr_s"):
                # (Go computes what is constant, and refuses a result that the type doesn't hold)
                self.push_named(f"{TYPES[kind]}({number(left)})", kind)
                left = self.pop()
            if what in ("rotl", "rotr"):
                self.rotation(kind, what, left, right)
            elif what.partition("_")[0] in SHIFTS:
                self.shift(kind, what, left, right)
            elif what.partition("_")[0] in COMPARISONS:
                self.comparison(kind, what, left, right)
            elif what in OPERATORS:
                self.push_pure(f"({plain_text(left)} {OPERATORS[what]} {plain_text(right)})", kind, left, right)
            else:
                raise Failure(f"an instruction that isn't translated: {kind}.{what}")

    def unary(self, kind, what):
        item = self.pop()
        if what == "eqz" and not isinstance(item, Const) and item.kind == "bool":
            self.push_pure(f"!({item.text})", "bool", item)
        elif what == "eqz":
            self.push_pure(f"{typed_text(item, kind)} == 0", "bool", item)
        elif isinstance(item, Const):
            low = int(item) & 0xFFFFFFFF
            self.push(Const(low | 0xFFFFFFFF << 32 if what.endswith("_s") and low >> 31 else low, kind))
        elif what == "extend_i32_s":
            self.push_pure(f"uint64(int32({plain_text(item)}))", kind, item)
        else:
            self.push_pure(f"{TYPES[kind]}({plain_text(item)})", kind, item)

    def rotation(self, kind, what, left, right):
        bits = int(kind[1:])
        if isinstance(right, Const):
            count = str(int(right) % bits if what == "rotl" else -int(right) % bits)
        else:
            count = f"{'' if what == 'rotl' else '-'}int({plain_text(right)}&{bits - 1})"
        self.push_pure(f"bits.RotateLeft{bits}({typed_text(left, kind)}, {count})", kind, left, right)

    def shift(self, kind, what, left, right):
        bits, sign = int(kind[1:]), SHIFTS[what.partition("_")[0]]
        count = str(int(right) % bits) if isinstance(right, Const) else f"({plain_text(right)} & {bits - 1})"
        if what == "shr_s":
            self.push_pure(f"{TYPES[kind]}(int{bits}({typed_text(left, kind)})>>{count})", kind, left, right)
        else:
            self.push_pure(f"({typed_text(left, kind)} {sign} {count})", kind, left, right)

    def comparison(self, kind, what, left, right):
        bits, (operator, _, sign) = int(kind[1:]), what.partition("_")
        text = (lambda it: signed_text(it, bits)) if sign == "s" else plain_text
        texts = [text(it) for it in (left, right)]
        self.push_pure(f"{texts[0]} {COMPARISONS[operator]} {texts[1]}", "bool", left, right)

    def select(self):
        """One of two values, by a mask: what decides may be a secret, and a branch would show it."""
        decides, no, yes = self.pop(), self.pop(), self.pop()
        mask = self.variable()
        if isinstance(yes, Vector):
            kind = yes.kind
            no, go = self.converted(no, kind), "uint64" if kind == "q" else "uint32"
            self.emit(f"{mask} := -{go}(b2i({condition(decides)}))")
            self.push(self.vector_of(kind, [f"{a}&{mask} | {b}&^{mask}" for a, b in zip(yes.parts, no.parts)]))
            return
        kind = "i32" if yes.kind == "bool" else yes.kind
        self.emit(f"{mask} := -{TYPES[kind]}(b2i({condition(decides)}))")
        self.push_named(f"({plain_text(yes)} & {mask}) | ({plain_text(no)} &^ {mask})", kind)
