"""What dist/make changes in a module, or in the text that is made of it, by patterns: for another system, for other
assemblers, for a debugger, for Intel's CET. No proof covers these steps. Each function takes a text and gives one.
"""
import re

from levels import Failure


def with_tables(text, attribute="uwtable"):
    """A module with the attribute by which each function gets its table."""
    defined = [re.search(r" (#\d+)( [^#]*)? \{$", line) for line in re.findall(r"^define .*$", text, re.M)]
    if not all(defined):
        raise Failure("a function of the module has no attributes, so it would have no table")
    for group in {it[1] for it in defined}:
        text = text.replace(f"\nattributes {group} = {{ ", f"\nattributes {group} = {{ {attribute} ")
    return text


def retarget(text, empty):
    """A module for another system, of which `empty` is an empty module: its triple and its layout are that system's,
    and what names a processor or its stack probes is left out."""
    text = with_tables(text)
    for name in ("datalayout", "triple"):
        line = rf"^target {name} = .*$"
        text = re.sub(line, re.search(line, empty, re.M)[0].replace("\\", r"\\"), text, flags=re.M)
    text = re.sub(r' "(probe-stack|stack-probe-size|target-cpu|target-features|tune-cpu)"="[^"]*"', "", text)
    return extended(text) if re.search('^target triple = "riscv64', empty, re.M) else text


def extended(text):
    """The calling convention of RISC-V wants 32-bit arguments and results extended by their sign: marks them."""
    made = []
    for line in text.splitlines(keepends=True):
        if re.match(r"define |declare ", line) or re.search(r"\bcall ", line) and "@llvm." not in line:
            line = re.sub(r"(?<=[ (])i32 (?=@|%[\w.]+\()", "signext i32 ", line)
            line = re.sub(r"(?<=[(,])( ?)i32 (?=[%\d-])", r"\1i32 signext ", line)
        made.append(line)
    return "".join(made)


def without_lines(text, *prefixes):
    return "".join(it for it in text.splitlines(keepends=True) if not it.lstrip().startswith(prefixes))


def named(text):
    """The text with `noise_` in the names of its local labels, so that it can stand in one file with other code that a
    compiler makes."""
    label = r'(?m)(^|[^A-Za-z0-9_$"])(\.L|L|l)(BB|CPI|JTI|func_end|loh|pcrel_hi|_?static|_?switch|tmp)'
    return re.sub(label, r"\1\2noise_\3", text)


def plainly_named(text):
    """The text with names of letters, digits and `_` in place of quoted ones, which clang takes for no symbol in
    `call` on RISC-V."""
    names = {}

    def plain(it):
        if it[1] not in names:
            name = "noise_" + re.sub(r"[^A-Za-z0-9]+", "_", it[1]).strip("_")
            while name in names.values():
                name += "_"
            names[it[1]] = name
        return names[it[1]]

    words = re.compile(r"\s*\.(ascii|asciz|string|ident|file|section|attribute)\b")
    return "".join(
        line if words.match(line) else re.sub(r'"([^"\n]*)"', plain, line) for line in text.splitlines(keepends=True)
    )


def marked(text):
    """A text for x86-64 with an instruction, endbr64, at the beginning of each function whose address is known
    elsewhere, so that a program of which the library is a part keeps Intel's CET: its shadow stack, and the test of
    where an indirect call arrives. Without these lines and the word `notrack`, which stands before a jump by a table,
    it is the same.
    """
    functions = set(re.findall(r"^\t\.type\t(.+),@function$", text, re.M))
    known = set(re.findall(r"^\t\.globl\t(.+)$", text, re.M))
    known |= {
        name
        for line in text.splitlines()
        if not re.match(r"\t(\.type|\.size|\.globl|\.section|callq?|jmpq?)\t|.*:$", line)
        for name in re.findall(r'"[^"]*"|[\w.$]+', line)
    }
    made = re.sub(
        r"(?m)^(.+):\n(\t\.cfi_startproc\n)?(?!\tendbr64)",
        lambda it: it[0] + "\tendbr64\n" if it[1] in functions & known else it[0],
        text,
    )
    made = re.sub(r"(?m)^\tjmpq\t\*%", "\tnotrack jmpq\t*%", made)
    note = "\t.long\t4, 16, 5\n\t.asciz\t\"GNU\"\n\t.long\t0xc0000002, 4, 3, 0\n"  # both: branches and the shadow stack
    return f'{made}\t.section\t.note.gnu.property,"a",@note\n\t.p2align\t3\n{note}\t.text\n'
