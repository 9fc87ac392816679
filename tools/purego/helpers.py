"""The instructions for vectors that are rare, as functions of Go that go lane by lane. Only those that a module has are
written."""

# For 8 or 16 bits `x` and `y` are the lanes, and `by` is less than their bits. (Go 1.19 for MIPS loses the sign of
# `uint8(int8(x) >> by)`, so a right shift of a sign is done with the sign's bits beyond it.)
OF_LANES = {
    "add": "x + y", "sub": "x - y", "mul": "x * y", "shl": "x << by", "shr_u": "x >> by",
    "shr_s": "uint{n}((uint32(x) | -(uint32(x)>>{sign})<<{n}) >> by)",
}  # fmt: skip
COMPARED = {"lt": "<", "gt": ">", "le": "<=", "ge": ">="}
CHOSEN = {"min": "<", "max": ">"}


def by_lanes(shape, what):
    """The text of a function for a shape and what it does."""
    bits = int(shape[1:].partition("x")[0])
    operator, _, sign = what.partition("_")
    x, y = (f"int{bits}({it})" for it in "xy") if sign == "s" else "xy"
    if what in ("eq", "ne"):
        text = f"-uint{bits}(b2i(x {'==' if what == 'eq' else '!='} y))"
    elif operator in COMPARED:
        text = f"-uint{bits}(b2i({x} {COMPARED[operator]} {y}))"
    elif operator in CHOSEN:
        text = f"y ^ (x^y)&-uint{bits}(b2i({x} {CHOSEN[operator]} {y}))"
    else:
        text = OF_LANES[what].replace("{n}", str(bits)).replace("{sign}", str(bits - 1))
    is_shift = what.startswith("sh")
    name, half = f"{shape}_{what}", f"{shape}_{what}_half"
    params, calls = ("a, b uint64, by uint32", f"{half}(a, by&{bits - 1}), {half}(b, by&{bits - 1})") if is_shift else (
        "a, b, c, d uint64", f"{half}(a, c), {half}(b, d)"
    )
    lanes = f"x := uint{bits}(a >> i)" if is_shift else f"x, y := uint{bits}(a>>i), uint{bits}(c>>i)"
    return f"""func {name}({params}) (uint64, uint64) {{
	return {calls}
}}

func {half}({'a uint64, by uint32' if is_shift else 'a, c uint64'}) (r uint64) {{
	for i := 0; i < 64; i += {bits} {{
		{lanes}
		r |= uint64({text}) << i
	}}
	return r
}}
"""


# Equal bytes without a branch, since they may be secrets: 255 for each that is equal, and 0 for each other.
EQUAL_BYTES = """func i8x16_eq(a, b, c, d uint64) (uint64, uint64) {
	return zeroBytes(a ^ c), zeroBytes(b ^ d)
}
"""
UNEQUAL_BYTES = """func i8x16_ne(a, b, c, d uint64) (uint64, uint64) {
	return ^zeroBytes(a ^ c), ^zeroBytes(b ^ d)
}
"""
ZERO_BYTES = """// zeroBytes returns 255 for each byte that is 0, and 0 for each other.
func zeroBytes(a uint64) uint64 {
	const low = 0x7f7f7f7f7f7f7f7f
	some := ((a&low)+low | a) &^ low >> 7
	return (some ^ 0x0101010101010101) * 255
}
"""


def narrowed(shape, bits):
    """Lanes of twice the bits as lanes of these, unsigned: what is less than 0 becomes 0, and what is too much the
    most."""
    most, half = (1 << bits) - 1, f"narrow{bits}"
    return f"""func {shape}_narrow_i{2 * bits}x{64 // bits}_u(a, b, c, d uint64) (uint64, uint64) {{
	return {half}(a) | {half}(b)<<32, {half}(c) | {half}(d)<<32
}}

func {half}(a uint64) (r uint64) {{
	for i := 0; i < 64; i += {2 * bits} {{
		v := int{2 * bits}(a >> i)
		if v < 0 {{
			v = 0
		}} else if v > {most} {{
			v = {most}
		}}
		r |= uint64(v) << (i / 2)
	}}
	return r
}}
"""


def extended(shape, bits, part, sign):
    """Lanes of half the bits, the lower or the higher ones, as lanes of these bits."""
    small, word = bits // 2, "a" if part == "low" else "b"
    cast = f"uint64(uint{bits}(int{bits}(int{small}(a >> i))))" if sign == "s" else f"uint64(uint{small}(a >> i))"
    name = f"{shape}_extend_{part}_i{small}x{128 // small}_{sign}"
    return f"""func {name}({'a, _' if word == 'a' else '_, b'} uint64) (uint64, uint64) {{
	return {name}_half({word}), {name}_half({word} >> 32)
}}

func {name}_half(a uint64) (r uint64) {{
	for i := 0; i < 32; i += {small} {{
		r |= {cast} << (2 * i)
	}}
	return r
}}
"""


MULTIPLIED_HIGH = """func i64x2_extmul_high_i32x4_u(_, b, _, d uint64) (uint64, uint64) {
	return (b & 0xffffffff) * (d & 0xffffffff), (b >> 32) * (d >> 32)
}
"""
NOT = """func v128_not(a, b uint64) (uint64, uint64) {
	return ^a, ^b
}
"""


def all_helpers():
    """Each helper's text, by its name."""
    made = {}
    made.update({f"i64x2_{it}": by_lanes("i64x2", it) for it in ("eq", "ne", *(f"{it}_s" for it in COMPARED))})
    for shape, bits in (("i8x16", 8), ("i16x8", 16), ("i32x4", 32)):
        names = ["eq", "ne", *(f"{it}_{sign}" for it in (*COMPARED, *CHOSEN) for sign in "su")]
        if bits < 32:
            names += [it for it in OF_LANES if (shape, it) != ("i8x16", "mul")]
        made.update({f"{shape}_{it}": by_lanes(shape, it) for it in names})
    for shape, bits in (("i16x8", 16), ("i32x4", 32), ("i64x2", 64)):
        for part in ("low", "high"):
            for sign in "su":
                small = bits // 2
                name = f"{shape}_extend_{part}_i{small}x{128 // small}_{sign}"
                made[name] = extended(shape, bits, part, sign)
    made["i8x16_narrow_i16x8_u"] = narrowed("i8x16", 8)
    made["i16x8_narrow_i32x4_u"] = narrowed("i16x8", 16)
    made["i8x16_eq"], made["i8x16_ne"] = EQUAL_BYTES, UNEQUAL_BYTES
    made["i64x2_extmul_high_i32x4_u"], made["v128_not"] = MULTIPLIED_HIGH, NOT
    return made


HELPERS = all_helpers()


def texts_of(names):
    """The texts of these helpers, with what they need."""
    texts = [HELPERS[it] for it in sorted(names)]
    return [*texts, ZERO_BYTES] if {"i8x16_eq", "i8x16_ne"} & set(names) else texts
