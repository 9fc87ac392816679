"""Puts functions that were compiled for several levels of x86-64 into one text, each behind a branch on the level of
the processor.

For dist/make. The texts are of one LLVM module, compiled for x86-64, x86-64-v3 and x86-64-v4. Of the last two a few
functions are taken, those in which a long message or a handshake spends its time. Where the text had such a function
there is a choice now: it reads one word, in which the level stands, and jumps to one of the three. The first choice
finds the level, by cpuid and xgetbv: more threads may do it at once, since each writes the same.
"""
import re

BASE = "v1"

# Beside the base: the words for `clang`; the word of the level has the number. Vectors of 512 bits made handshakes 13
# per cent slower than those of 256, so these are preferred.
LEVELS = {
    "v3": ["-march=x86-64-v3"],
    "v4": ["-march=x86-64-v4", "-Xclang", "-target-feature", "-Xclang", "+prefer-256-bit"],
}

# Words for some functions alone. WIDE put the vectors of several blocks of ChaCha20 into wider ones: SHA-256 and
# Poly1305 are slower by them. SINK load factors of Poly1305 where they are used, so that its stack is small enough for
# Go. What is compiled by such words at a level has the level's name with their letter.
WIDE = ["-slp-revec", "-slp-threshold=-1000", "-slp-recursion-max-depth=400"]
SINK = ["-sink-insts-to-avoid-spills"]
WORDS_OF = {
    ("rand_chacha::guts::refill4", "v3"): "w",
    ("rand_chacha::guts::refill4", "v4"): "w",
    ("noise_poly::Poly1305::take_eights", "v3"): "s",
}
# The attribute keeps the wider vectors below 512 bits.
WIDEST = '"min-legal-vector-width"="256"'
COMPILED = {
    level + kind: LEVELS[level] + [it for word in words for it in ("-mllvm", word)]
    for level in LEVELS
    for kind, words in (("", []), ("w", WIDE), ("s", SINK))
    if not kind or kind in (it for (_, at), it in WORDS_OF.items() if at == level)
}

# The functions, and for which levels each is compiled: where the last is missing, the one before is faster on a
# processor of that level.
HOT = {
    "rand_chacha::guts::refill4": ["v3", "v4"],
    "noise_poly::Poly1305::take_aligned": ["v3", "v4"],
    "sha2::block256::compress": ["v3"],
    "noise_state::cipher::CipherState::encrypt": ["v3", "v4"],
    "noise_state::cipher::CipherState::decrypt": ["v3", "v4"],
    "noise_aead::keystream::apply": ["v3", "v4"],
    "noise_aead::authenticator::tag": ["v3", "v4"],
}

# Of two functions that meet one contract the second is the faster where vectors have four lanes of 64 bits: the module
# for a level calls it where the module calls the first. So it is compiled for the arguments that it gets there. Each
# level has one of its own, with no choice.
IN_PLACE = {"noise_poly::Poly1305::take_fours": "noise_poly::Poly1305::take_eights"}
OWN_OF_LEVEL = {"noise_poly::Poly1305::take_eights": ["v3", "v4"]}

# The labels that a function has for itself, and those of constants that the whole text shares.
OWN, SHARED = "BB|CPI|JTI|func_end|tmp", "_?static|_?switch"
LABEL = re.compile(rf'(?<![\w.$"])(\.L|L|l)({OWN}|{SHARED})([\w.$]*)')
CALL = re.compile(r'\t(?:callq?|jmpq?|j[a-z]+)\t("[^"]+"|[A-Za-z_]\w*)(?:@PLT)?$')
SYSTEM = {"memcpy", "memmove", "memset", "memcmp", "bcmp", "bzero", "__bzero", "___chkstk_ms", "__chkstk"}


class Failure(Exception):
    """Why nothing can be made."""


class Form:
    """How one kind of assembler wants to be told of functions and of the word."""

    def __init__(self, text):
        self.kind = "elf" if "@function" in text else "macos" if ".subsections_via_symbols" in text else "windows"
        self.under = "_" if self.kind == "macos" else ""
        self.local = "Lnoise_" if self.kind == "macos" else ".Lnoise_"

    def name(self, it, level=None):
        whole = f"{self.under}{it}{f'.{level}' if level else ''}"
        return f'"{whole}"' if ":" in whole else whole

    def begin(self, name, section):
        """The lines before a function's first instruction."""
        lines = [f'\t.def\t{name};', "\t.scl\t3;", "\t.type\t32;", "\t.endef"] if self.kind == "windows" else []
        lines += [section, "\t.p2align\t4"]
        if self.kind == "elf":
            lines.append(f"\t.type\t{name},@function")
        return lines + [f"{name}:", f".seh_proc {name}" if self.kind == "windows" else "\t.cfi_startproc"]

    def pushed(self, register, count):
        if self.kind == "windows":
            return [f"\tpushq\t%{register}", f"\t.seh_pushreg %{register}"]
        place = f"\t.cfi_adjust_cfa_offset 8\n\t.cfi_offset %{register}, {-8 * (count + 1)}"
        return [f"\tpushq\t%{register}", place]

    def popped(self, register):
        return [f"\tpopq\t%{register}"] + ([] if self.kind == "windows" else ["\t.cfi_adjust_cfa_offset -8"])

    def end(self, name):
        if self.kind == "elf":
            return [f"\t.size\t{name}, .-{name}", "\t.cfi_endproc"]
        return ["\t.seh_endproc"] if self.kind == "windows" else ["\t.cfi_endproc"]

    def word(self, name):
        """The word, which only this library sees, and a check that is linked with it."""
        place = ["\t.p2align\t2", f"{name}:", "\t.zero\t4"]
        if self.kind == "macos":
            return [f"\t.private_extern\t{name}", "\t.section\t__DATA,__data", *place]
        if self.kind == "windows":
            return ["\t.bss", f"\t.globl\t{name}", *place]
        return [
            f"\t.hidden\t{name}", f"\t.globl\t{name}", f"\t.type\t{name},@object",
            f'\t.section\t.bss.{name},"aw",@nobits', *place, f"\t.size\t{name}, 4",
        ]


class Text:
    """A text by lines: where its functions are, and the lines and section of each label of a constant."""

    def __init__(self, text):
        self.form = Form(text)
        self.lines = text.splitlines()
        self.labels, self.section, self.align = {}, {}, {}
        section, align = "\t.text", None
        for i, line in enumerate(self.lines):
            if re.match(r"\t\.(section|text|data|bss)\b", line):
                section, align = line, None
            elif line.startswith("\t.p2align"):
                align = line
            label = re.match(r'("[^"]+"|[\w.$]+):$', line)
            if label:
                self.labels[label[1]], self.section[label[1]], self.align[label[1]] = i, section, align

    def function(self, name):
        """The place of a function, from its label to its end."""
        if name not in self.labels:
            raise Failure(f"{name} isn't in the text: it was inlined, or has another name")
        first = self.labels[name]
        last = next(i for i in range(first, len(self.lines)) if re.match(r"\t\.(cfi|seh)_endproc$", self.lines[i]))
        return first, last + 1

    def constant(self, label):
        """The lines of a constant, without its label."""
        if label not in self.labels:
            raise Failure(f"the label {label} isn't in the text")
        made = []
        for line in self.lines[self.labels[label] + 1 :]:
            if not re.match(r"\t\.(byte|short|value|long|quad|zero|space|ascii|asciz|2byte|4byte|8byte|octa)\b", line):
                break
            made.append(line)
        return made


def called(lines):
    """The functions that lines call or go on in."""
    return {it[1].strip('"') for it in map(CALL.match, lines) if it and not LABEL.match(it[1])}


def own(line, level, shared):
    """The line with the level in the labels that a function has for itself, and the label of the same constant where
    the text has that before."""
    def label(it):
        return shared.get(it[0]) or (
            it[0] if re.fullmatch(SHARED, it[2]) else f"{it[1]}{it[2]}_{level}_{it[3].lstrip('_')}"
        )
    return LABEL.sub(label, line)


def at_level(lines, form, level):
    """Lines of a function with its own name, and those of the hot ones that it calls, as those of the level."""
    compiled = HOT if level == BASE else HOT | OWN_OF_LEVEL
    names = {
        form.name(it): form.name(it, level if level in [BASE, *levels] else levels[-1])
        for it, levels in compiled.items()
    }
    return [re.sub(r'"[^"]+"', lambda it: names.get(it[0], it[0]), line) for line in lines]


def constants_of(text, base, lines):
    """The labels of the constants of a function, in the order in which lines name them. What the whole text shares has
    to be the same in the base."""
    made, left = [], list(lines)
    while left:
        for it in LABEL.finditer(left.pop(0)):
            if it[0] in made or it[2] in ("BB", "func_end", "tmp"):
                continue
            if re.fullmatch(SHARED, it[2]):
                if base.constant(it[0]) != text.constant(it[0]):
                    raise Failure(f"the constant {it[0]} isn't the same at each level")
                continue
            made.append(it[0])
            left += text.constant(it[0])
    return made


def compiled_as(name, level):
    """What of COMPILED has a function for a level."""
    return level + WORDS_OF.get((name, level), "")


def hot_function(text, base, name, level, known):
    """A function of a text for a level, with its constants. `known` has the label of each constant that stands before,
    by its section and lines."""
    compiled = compiled_as(name, level)
    first, last = text.function(text.form.name(name))
    lines, made, shared = text.lines[first:last], [], {}
    for label in constants_of(text, base, lines):
        content = text.section[label], *text.constant(label)
        if content in known:
            shared[label] = known[content]
            continue
        renamed = own(label, compiled, {})
        if not any(LABEL.search(line) for line in content):
            known[content] = renamed
        made += [
            text.section[label], text.align[label] or "\t.p2align\t4", f"{renamed}:",
            *(own(line, compiled, {}) for line in content[1:]),
        ]
    head = text.form.begin(text.form.name(name, level), text.section[text.form.name(name)])[:-2]
    return [*made, *head, *(own(line, compiled, shared) for line in at_level(lines, text.form, level)), ""]


def choice(form, it, section, number):
    """The function that chooses: by one branch on the level for the newest processors, by two for the rest."""
    name, find, chosen = form.name(it), f"{form.local}find{number}", f"{form.local}chosen{number}"
    jumps = zip(["ja", "je"] if HOT[it] == ["v3", "v4"] else ["jae"], reversed(HOT[it]))
    return [
        *form.begin(name, section), *(["\t.seh_endprologue"] if form.kind == "windows" else []),
        f"\tmovl\t{form.name('noise_processor_level')}(%rip), %eax", "\ttestl\t%eax, %eax", f"\tje\t{find}",
        f"{chosen}:", "\tcmpl\t$3, %eax", *(f"\t{jump}\t{form.name(it, level)}" for jump, level in jumps),
        f"\tjmp\t{form.name(it, BASE)}", f"{find}:", f"\tcallq\t{form.name('noise_find_level')}", f"\tjmp\t{chosen}",
        *form.end(name), "",
    ]


def bits(*numbers):
    return f"$0x{sum(1 << it for it in numbers):x}"


def has(register, wanted, done):
    return [f"\tandl\t{wanted}, %{register}", f"\tcmpl\t{wanted}, %{register}", f"\tjne\t{done}"]


def finding(form):
    """The function that finds the level, and writes it to the word and to eax. It keeps the registers in which
    arguments come, of both conventions."""
    name, done = form.name("noise_find_level"), f"{form.local}found"
    sections = {
        "elf": '\t.section\t.text.noise_find_level,"ax",@progbits',
        "macos": "\t.section\t__TEXT,__text,regular,pure_instructions",
        "windows": "\t.text",
    }
    saved = ["rbx", "rcx", "rdx"]
    made = form.begin(name, sections[form.kind])
    for count, register in enumerate(saved, 1):
        made += form.pushed(register, count)
    made += ["\t.seh_endprologue"] if form.kind == "windows" else []
    made += [
        "\tmovl\t$1, %r10d", "\txorl\t%eax, %eax", "\tcpuid", "\tcmpl\t$7, %eax", f"\tjb\t{done}", "\tmovl\t$1, %eax",
        "\tcpuid",
    ]
    # SSE3, SSSE3, FMA, CX16, SSE4.1, SSE4.2, MOVBE, POPCNT, OSXSAVE, AVX, F16C
    made += has("ecx", bits(0, 9, 12, 13, 19, 20, 22, 23, 27, 28, 29), done)
    made += ["\txorl\t%ecx, %ecx", "\txgetbv", "\tmovl\t%eax, %r11d"]
    made += has("eax", bits(1, 2), done)    # the system keeps the registers xmm and ymm
    made += [
        "\tmovl\t$0x80000000, %eax", "\tcpuid", "\tcmpl\t$0x80000001, %eax", f"\tjb\t{done}",
        "\tmovl\t$0x80000001, %eax", "\tcpuid",
    ]
    made += has("ecx", bits(0, 5), done)    # LAHF, LZCNT
    made += ["\tmovl\t$7, %eax", "\txorl\t%ecx, %ecx", "\tcpuid", "\tmovl\t%ebx, %eax"]
    made += has("ebx", bits(3, 5, 8), done)    # BMI1, AVX2, BMI2
    made += ["\tmovl\t$3, %r10d", *has("eax", bits(16, 17, 28, 30, 31), done)]    # AVX-512: F, DQ, CD, BW, VL
    made += [*has("r11d", bits(1, 2, 5, 6, 7), done), "\tmovl\t$4, %r10d"]    # it keeps the registers of AVX-512, too
    made += [f"{done}:", "\tmovl\t%r10d, %eax", f"\tmovl\t%eax, {form.name('noise_processor_level')}(%rip)"]
    for register in reversed(saved):
        made += form.popped(register)
    return [*made, "\tretq", *form.end(name), ""]


def chosen_by_level(text, others):
    """The text with the hot functions of the others, by their names in COMPILED, and the choices."""
    base = Text(text)
    form, lines = base.form, list(base.lines)
    known_constants = {(base.section[it], *base.constant(it)): it for it in base.labels if re.match(r"(\.L|L)CPI", it)}
    known = {it.strip('"') for it in base.labels} | SYSTEM | {f"{form.under}{it}" for it in SYSTEM}
    known -= {f"{form.under}{it}" for it in IN_PLACE}    # no level calls these
    for it in HOT:
        first, last = base.function(form.name(it))
        lines[first:last] = at_level(lines[first:last], form, BASE)
    for i, line in enumerate(lines):
        if not CALL.match(line) and line.startswith(("\t.type\t", "\t.def\t")):
            lines[i] = at_level([line], form, BASE)[0]
    texts = {compiled: Text(other) for compiled, other in others.items()}
    for level in LEVELS:
        for it in (it for it, levels in (HOT | OWN_OF_LEVEL).items() if level in levels):
            there = texts[compiled_as(it, level)]
            lines += hot_function(there, base, it, level, known_constants)
            strange = called(there.lines[slice(*there.function(form.name(it)))]) - known
            if strange:
                raise Failure(f"{it} calls at {level} what isn't in the text for {BASE}: {' '.join(sorted(strange))}")
    for number, it in enumerate(HOT):
        lines += choice(form, it, base.section[form.name(it)], number)
    return "\n".join([*lines, *finding(form), *form.word(form.name("noise_processor_level")), ""])


def with_calls_in_place(module):
    """A module, as text, that calls the second function of IN_PLACE where it called the first."""
    for slow, fast in IN_PLACE.items():
        module, count = re.subn(rf'(?m)^(  .*\bcall .*)@"{re.escape(slow)}"\(', rf'\1@"{fast}"(', module)
        if not count:
            raise Failure(f"nothing calls {slow}")
    return module


# What one level's text takes for granted of another's

def definitions(module):
    """Of an optimised module the first line of each function, with all that the optimiser found of its arguments and of
    its effects."""
    groups = dict(re.findall(r"^attributes (#\d+) = \{ (.*) \}$", module.replace(f"{WIDEST} ", ""), re.M))
    made = {}
    for line in re.findall(r"^define .*\{$", module, re.M):
        name = re.search(r'@("[^"]+"|[\w.$]+)\(', line)[1].strip('"')
        line = re.sub(r" %[\w.]+(?=[,)])", "", line)
        made[name] = re.sub(r"#\d+", lambda it: groups.get(it[0], ""), line)
    return made


def must_agree(base, other, calls, level):
    """A function that one text calls and the other defines has to be the same to its caller. (What neither defines is
    the system's.)"""
    for name in sorted(calls):
        if base.get(name) != other.get(name) or name in HOT and name not in base:
            raise Failure(f"{name} isn't called at {level} as it is defined:\n{base.get(name)}\n{other.get(name)}")


def calls_of(text):
    """What the hot functions of a text call, and themselves, but for those that are called at one level alone."""
    parsed = Text(text)
    made = set(HOT)
    for it in [*HOT, *OWN_OF_LEVEL]:
        first, last = parsed.function(parsed.form.name(it))
        made |= {name.removeprefix(parsed.form.under) for name in called(parsed.lines[first:last])}
    return made - set(IN_PLACE) - set(OWN_OF_LEVEL)
