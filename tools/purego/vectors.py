"""Translates the instructions for vectors: on two words of 64 bits, or on four of 32, as they take them."""
import re

from body import Body
from failure import Failure
from helpers import HELPERS
from values import KINDS, TYPES, Const, Vector, number, plain_text, typed_text

LANES = {"i8x16": 8, "i16x8": 16, "i32x4": 32, "i64x2": 64}  # bits
BITWISE = {"and": "&", "or": "|", "xor": "^", "andnot": "&^"}
ADDITIVE = {"add": "+", "sub": "-", "mul": "*"}
WIDTHS = {"q": 64, "d": 32}


def is_run(numbers, count):
    """Whether these are as many numbers in order, from a multiple of their count on."""
    return numbers[0] % count == 0 and list(numbers) == list(range(numbers[0], numbers[0] + count))


class Vectors(Body):
    """The instructions for vectors."""

    def simd(self, at, name, numbers):
        shape, what = name.split(".")
        if name == "v128.const":
            parts = [number(it) for it in numbers]
            self.push(self.converted(Vector("d", parts), self.wanted_kind(at)))
        elif what == "load":
            self.load_whole(at, numbers[0])
        elif what == "store":
            self.store_whole(numbers[0])
        elif found := re.fullmatch(r"load(\d+)_(splat|zero)", what):
            self.load_part(int(found[1]), found[2], numbers[0])
        elif found := re.fullmatch(r"(load|store)(\d+)_lane", what):
            self.access_lane(found[1] == "load", int(found[2]), *numbers)
        elif what in ("extract_lane", "extract_lane_u", "replace_lane", "splat"):
            self.lane_instruction(what, LANES[shape], numbers[0] if numbers else 0)
        elif what == "shuffle":
            self.shuffle(numbers)
        elif what in ("any_true", "all_true"):
            self.test(name)
        elif shape == "v128" and what in BITWISE:
            self.bitwise(BITWISE[what])
        elif shape in ("i32x4", "i64x2") and what in ADDITIVE:
            self.additive("d" if shape == "i32x4" else "q", ADDITIVE[what])
        elif shape in ("i32x4", "i64x2") and what in ("shl", "shr_u", "shr_s"):
            self.shift_lanes("d" if shape == "i32x4" else "q", what)
        elif name == "i64x2.extmul_low_i32x4_u":
            self.multiply_low()
        else:
            self.by_helper(name.replace(".", "_"))

    def wanted_kind(self, at):
        """Which kind the next instructions want of a vector that can be of either."""
        for it in self.function.code[at + 1 : at + 12]:
            if it.name.startswith("local.") and self.function.locals[it.numbers[0]] == "v128":
                return self.kind_of(it.numbers[0])
            if it.name.startswith("i32x4."):
                return "d"
            if it.name.startswith(("i64x2.", "i8x16.", "i16x8.")) or it.name == "v128.store":
                return "q"
        return "q"

    # The memory

    def load_whole(self, at, offset):
        kind = self.wanted_kind(at)
        names = [self.variable() for _ in range(128 // WIDTHS[kind])]
        if self.is_long:
            self.emit(f"{', '.join(names)} := m.get128{kind}({self.place(offset)})")
        else:
            bytes_, size = self.variable(), 16 // len(names)
            self.emit(f"{bytes_} := m.at({self.place(offset)})")
            for i, it in enumerate(names):
                self.emit(f"{it} := binary.LittleEndian.Uint{8 * size}({bytes_}[{i * size}:{i * size + size}])")
        self.push(Vector(kind, names))

    def store_whole(self, offset):
        item = self.pop()
        if self.is_long:
            self.emit(f"m.put128{item.kind}({self.place(offset)}, {', '.join(item.parts)})")
            return
        bytes_, size = self.variable(), 16 // len(item.parts)
        self.emit(f"{bytes_} := m.at({self.place(offset)})")
        for i, part in enumerate(item.parts):
            self.emit(f"binary.LittleEndian.PutUint{8 * size}({bytes_}[{i * size}:{i * size + size}], {part})")

    def load_part(self, bits, what, offset):
        """A vector of fewer bytes than it has: in each lane the same, or zeros beyond."""
        value = self.variable()
        self.emit(f"{value} := m.get{bits}({self.place(offset)})")
        if what == "zero":
            self.push(Vector("d", [value, "0", "0", "0"]) if bits == 32 else Vector("q", [value, "0"]))
        else:
            self.splat(value, bits)

    def access_lane(self, is_load, bits, offset, lane):
        item = self.pop()
        if is_load:
            value = self.variable()
            self.emit(f"{value} := m.get{bits}({self.place(offset)})")
            self.push(self.replaced(item, bits, lane, value))
        else:
            text = self.lane(item, bits, lane)
            self.emit(f"m.put{bits}({self.place(offset)}, {text})")

    # Lanes

    def lane_instruction(self, what, bits, lane):
        kind = "i64" if bits == 64 else "i32"
        if what.startswith("extract"):
            item = self.pop()
            self.vote(item, "d" if bits == 32 else "q")
            self.push_named(f"{TYPES[kind]}({self.lane(item, bits, lane)})", kind)
            return
        value = typed_text(self.pop(), kind)
        if bits < 32:
            value = f"uint{bits}({value})"
        if what == "replace_lane":
            self.push(self.replaced(self.pop(), bits, lane, value))
        elif bits < 32:
            self.splat(value, bits)
        else:
            self.splat(self.in_variable(value), bits)

    def in_variable(self, text):
        name = self.variable()
        self.emit(f"{name} := {text}")
        return name

    def lane(self, item, bits, lane):
        """A lane of a vector, as an unsigned number of its bits."""
        if bits == 64:
            item = self.converted(item, "q")
        width = WIDTHS[item.kind]
        if bits == width:
            return item.parts[lane]
        part, shift = item.parts[lane * bits // width], lane * bits % width
        return f"uint{bits}({part} >> {shift})" if shift else f"uint{bits}({part})"

    def replaced(self, item, bits, lane, value):
        """A vector with another number in one lane."""
        kind = {64: "q", 32: "d"}.get(bits, item.kind)
        item, width = self.converted(item, kind), WIDTHS[kind]
        parts, at, shift = list(item.parts), lane * bits // width, lane * bits % width
        if bits == width:
            parts[at] = value
        else:
            others = ((1 << width) - 1) & ~(((1 << bits) - 1) << shift)
            parts[at] = f"{parts[at]}&{number(others)} | {KINDS[kind]}({value})<<{shift}"
        return self.vector_of(kind, parts)

    def splat(self, value, bits):
        """A vector with the same number in each lane; of 32 and more bits it is in a variable."""
        if bits >= 32:
            self.push(Vector("q" if bits == 64 else "d", [value] * (128 // bits)))
            return
        ones = sum(1 << i for i in range(0, 64, bits))
        self.push(Vector("q", [self.in_variable(f"uint64({value}) * {number(ones)}")] * 2))

    # Arithmetic

    def bitwise(self, sign):
        right, left = self.pop(), self.pop()
        kind = left.kind if left.uses or not right.uses else right.kind
        self.vote(left, right.kind)
        self.vote(right, left.kind)
        self.push_pairs(kind, left, right, lambda a, b: f"{a} {sign} {b}")

    def additive(self, kind, sign):
        right, left = self.pop(), self.pop()
        self.vote(left, kind)
        self.vote(right, kind)
        self.push_pairs(kind, left, right, lambda a, b: f"{a} {sign} {b}")

    def push_pairs(self, kind, left, right, text):
        left, right = self.converted(left, kind), self.converted(right, kind)
        self.push(self.vector_of(kind, [text(a, b) for a, b in zip(left.parts, right.parts)]))

    def shift_lanes(self, kind, what):
        count, left, bits = self.pop(), self.pop(), WIDTHS[kind]
        self.vote(left, kind)
        left = self.converted(left, kind)
        by = str(int(count) % bits) if isinstance(count, Const) else f"({plain_text(count)} & {bits - 1})"
        if what == "shr_s":
            texts = [f"uint{bits}(int{bits}({it}) >> {by})" for it in left.parts]
        else:
            texts = [f"{it} {'<<' if what == 'shl' else '>>'} {by}" for it in left.parts]
        self.push(self.vector_of(kind, texts))

    def multiply_low(self):
        """The products of the two lower words of 32 bits, in 64 bits."""
        right, left = self.pop(), self.pop()
        pairs = [
            [f"uint64({it.parts[0]})", f"uint64({it.parts[1]})"] if it.kind == "d"
            else [f"uint64(uint32({it.parts[0]}))", f"({it.parts[0]} >> 32)"]
            for it in (left, right)
        ]  # fmt: skip
        self.push(self.vector_of("q", [f"{a} * {b}" for a, b in zip(*pairs)]))

    def test(self, name):
        """Whether any bit is set, or each lane has one."""
        item = self.pop()
        if name == "v128.any_true":
            parts = self.converted(item, "q").parts
            self.push_pure(f"{parts[0]}|{parts[1]} != 0", "bool", item)
        elif name == "i32x4.all_true":
            parts = self.converted(item, "d").parts
            self.push_pure("(" + " && ".join(f"{it} != 0" for it in parts) + ")", "bool", item)
        else:
            raise Failure(f"an instruction that isn't translated: {name}")

    def by_helper(self, name):
        """Calls a function of Go that has the instruction lane by lane."""
        if name not in HELPERS:
            raise Failure(f"an instruction that isn't translated: {name}")
        self.helpers.add(name)
        has_count = "_sh" in name
        count = [plain_text(self.pop())] if has_count else []
        is_unary = has_count or "_extend_" in name or name == "v128_not"
        vectors = [self.converted(self.pop(), "q") for _ in range(1 if is_unary else 2)][::-1]
        words = [part for it in vectors for part in it.parts] + count
        names = [self.variable(), self.variable()]
        self.emit(f"{', '.join(names)} := {name}({', '.join(words)})")
        self.push(Vector("q", names))

    def shuffle(self, lanes):
        """Bytes of two vectors in another order: whole words where they stay together, and else runs of bytes."""
        right, left = self.pop(), self.pop()
        for kind, size in (("q", 8), ("d", 4)):
            words = [lanes[i : i + size] for i in range(0, 16, size)]
            if all(is_run(it, size) for it in words):
                parts = self.converted(left, kind).parts + self.converted(right, kind).parts
                self.push(self.vector_of(kind, [parts[it[0] // size] for it in words]))
                return
        parts = self.converted(left, "q").parts + self.converted(right, "q").parts
        self.push(self.vector_of("q", [" | ".join(runs(lanes[i : i + 8], parts)) for i in (0, 8)]))


def runs(half, parts):
    """Of one half of a shuffle the runs of bytes that stay together, each shifted to its place."""
    at = 0
    while at < 8:
        count = 1
        while at + count < 8 and half[at + count] == half[at] + count and half[at + count] // 8 == half[at] // 8:
            count += 1
        part, by = parts[half[at] // 8], half[at] % 8 * 8
        text = f"{part}>>{by}" if by else part
        if count < 8:
            text = f"{text}&{number((1 << 8 * count) - 1)}"
        yield f"({text})<<{8 * at}" if at else f"({text})"
        at += count
