"""The instructions of WebAssembly that this tool reads: the name of each by its number, and what follows the number.

After a name comes, as `follows` says: nothing; `block`, a block's type; `labels`, those of a table and the default;
`index`, one number; `memory`, an alignment and an offset; `memory lane`, a lane after these; `lane`; `shuffle`, 16
lanes; `i32`, `i64` and `v128`, a constant; `zero` and `zeros`, the numbers of one memory and of two.
"""


def numbered(first, names):
    """Names with numbers from the first on; `-` leaves a number out."""
    return {first + i: name for i, name in enumerate(names.split()) if name != "-"}


COMPARISONS = "eq ne lt_s lt_u gt_s gt_u le_s le_u ge_s ge_u"
ARITHMETIC = "add sub mul - div_u - rem_u and or xor shl shr_s shr_u rotl rotr"


def each(prefix, names):
    return " ".join(name if name == "-" else f"{prefix}.{name}" for name in names.split())


PLAIN = {
    **numbered(0x00, "unreachable nop block loop"),
    **numbered(0x0B, "end br br_if br_table return call"),
    **numbered(0x1A, "drop select"),
    **numbered(0x20, "local.get local.set local.tee global.get global.set"),
    **numbered(0x28, "i32.load i64.load - - - i32.load8_u - i32.load16_u - i64.load8_u - i64.load16_u - i64.load32_u"),
    **numbered(0x36, "i32.store i64.store - - i32.store8 i32.store16 i64.store8 i64.store16 i64.store32"),
    **numbered(0x41, "i32.const i64.const"),
    **numbered(0x45, each("i32", "eqz " + COMPARISONS)),
    **numbered(0x50, each("i64", "eqz " + COMPARISONS)),
    **numbered(0x6A, each("i32", ARITHMETIC)),
    **numbered(0x7C, each("i64", ARITHMETIC)),
    **numbered(0xA7, "i32.wrap_i64"),
    **numbered(0xAC, "i64.extend_i32_s i64.extend_i32_u"),
}
MISCELLANEOUS = numbered(10, "memory.copy memory.fill")
VECTORS = {
    **numbered(0, "v128.load"),
    **numbered(7, "v128.load8_splat v128.load16_splat v128.load32_splat v128.load64_splat v128.store v128.const"),
    **numbered(13, "i8x16.shuffle - i8x16.splat i16x8.splat i32x4.splat i64x2.splat"),
    **numbered(22, "i8x16.extract_lane_u i8x16.replace_lane - i16x8.extract_lane_u i16x8.replace_lane"),
    **numbered(27, "i32x4.extract_lane i32x4.replace_lane i64x2.extract_lane i64x2.replace_lane"),
    **numbered(35, each("i8x16", COMPARISONS)),
    **numbered(45, each("i16x8", COMPARISONS)),
    **numbered(55, each("i32x4", COMPARISONS)),
    **numbered(77, each("v128", "not and andnot or xor - any_true")),
    **numbered(84, each("v128", "load8_lane load16_lane load32_lane load64_lane")),
    **numbered(88, each("v128", "store8_lane store16_lane store32_lane store64_lane load32_zero load64_zero")),
    **numbered(102, "i8x16.narrow_i16x8_u"),
    **numbered(107, each("i8x16", "shl shr_s shr_u add - - sub - - - - min_s min_u max_s max_u")),
    **numbered(134, "i16x8.narrow_i32x4_u"),
    **numbered(135, each("i16x8", "extend_low_i8x16_s extend_high_i8x16_s extend_low_i8x16_u extend_high_i8x16_u")),
    **numbered(139, each("i16x8", "shl shr_s shr_u add - - sub - - - mul min_s min_u max_s max_u")),
    **numbered(163, "i32x4.all_true"),
    **numbered(167, each("i32x4", "extend_low_i16x8_s extend_high_i16x8_s extend_low_i16x8_u extend_high_i16x8_u")),
    **numbered(171, each("i32x4", "shl shr_s shr_u add - - sub - - - mul min_s min_u max_s max_u")),
    **numbered(199, each("i64x2", "extend_low_i32x4_s extend_high_i32x4_s extend_low_i32x4_u extend_high_i32x4_u")),
    **numbered(203, each("i64x2", "shl shr_s shr_u add - - sub - - - mul eq ne lt_s gt_s le_s ge_s")),
    **numbered(222, "i64x2.extmul_low_i32x4_u i64x2.extmul_high_i32x4_u"),
}
PREFIXES = {0xFC: MISCELLANEOUS, 0xFD: VECTORS}

FOLLOWS = {
    "block": "block", "loop": "block", "br": "index", "br_if": "index", "br_table": "labels", "call": "index",
    "i32.const": "i32", "i64.const": "i64", "v128.const": "v128", "i8x16.shuffle": "shuffle", "memory.fill": "zero",
    "memory.copy": "zeros",
}  # fmt: skip


def follows(name):
    """What follows the number of an instruction."""
    if name in FOLLOWS:
        return FOLLOWS[name]
    if name.startswith(("local.", "global.")):
        return "index"
    what = name.partition(".")[2]
    if what.startswith(("load", "store")):
        return "memory lane" if what.endswith("_lane") else "memory"
    return "lane" if "_lane" in what else ""
