"""The files of Go that a module becomes: its functions, its memory as it is at first, and its calls."""
from blocks import translated
from calls import NOTICE, calls_text, library_text
from depth import Depths
from failure import Failure
from header import calls
from helpers import texts_of
from layout import lay_out
from values import TYPES
from wasm import Module

# Where the package `library` takes the translation: where it is asked for, and where there is no assembler for Go.
CONSTRAINT = "purego || (!noise_installed && (plan9 || !(amd64 || arm64)) && !(cgo && linux && riscv64))"
PURE, LIBRARY = "bindings/go/internal/pure", "bindings/go/internal/library"
LINES = 6000  # of a file, but for a function that is longer
FOR_STATICCHECK = "//lint:file-ignore SA4006,SA4009 The module sets locals that nothing reads."


class Translator:
    """A module, and where in the memory's array its addresses lie: `base` is the address of the array's first byte,
    which the deepest call of those that are wanted reaches."""

    def __init__(self, content, wanted):
        self.module, wanted = Module(content), set(wanted)
        self.functions, self.globals = self.module.functions, self.module.globals
        if not wanted <= set(self.module.exports):
            raise Failure(f"the module doesn't export {' '.join(sorted(wanted - set(self.module.exports)))}")
        self.exports = {it: self.module.exports[it] for it in sorted(wanted)}
        self.depths, self.address = Depths(self.module), self.globals[0][0]
        pointer, begins = self.globals[0][1], min(at for at, _ in self.module.data)
        if begins < pointer:
            raise Failure("the stack doesn't end below the data")
        deepest = max(self.depths.of(it) for it in self.exports.values())
        self.base = pointer - (deepest + 63 & ~63)
        self.data = bytearray((max(at + len(raw) for at, raw in self.module.data) + 15 & ~15) - begins)
        for at, raw in self.module.data:
            self.data[at - begins : at - begins + len(raw)] = raw
        self.stack = begins - self.base

    def needed(self):
        """The functions that the wanted ones call, with these."""
        found, todo = set(), list(self.exports.values())
        while todo:
            one = todo.pop()
            if one not in found:
                found.add(one)
                todo += self.functions[one].calls()
        return sorted(found)

    def code(self):
        """The texts of the functions, and of the helpers that they need."""
        made = [translated(self, it) for it in self.needed()]
        helpers = frozenset().union(*(it.helpers for it in made))
        return [it.text for it in made], [lay_out(it) for it in texts_of(helpers)]

    def first_memory(self):
        """The file of what the memory has at first, and where."""
        fields = "".join(f"\tg{i} {TYPES[kind]}\n" for i, (kind, _) in enumerate(self.globals))
        values = "".join(f"\tg{i}: {value:#x},\n" for i, (_, value) in enumerate(self.globals))
        return f"""{NOTICE}

package pure

// base is the module's address of the first byte of a memory. So many bytes of it are the module's stack, from its end
// down; then the data follow.
const (
	base  = {self.base:#x}
	stack = {self.stack:#x}
)

// globals are the module's global variables, of which the first is the stack pointer.
type globals struct {{
{fields}}}

var globalsAtFirst = globals{{
{values}}}

const data = {quoted(self.data)}
"""


def quoted(data):
    """Bytes as a string of Go, in lines."""
    lines = []
    for at in range(0, len(data), 64):
        piece = data[at : at + 64]
        text = "".join(chr(it) if 32 <= it < 127 and chr(it) not in '"\\' else f"\\x{it:02x}" for it in piece)
        lines.append(f'"{text}"')
    return " +\n\t".join(lines)


def code_file(texts):
    whole = "\n".join(texts)
    imports = [it for it in ("encoding/binary", "math/bits") if f"{it.rpartition('/')[2]}." in whole]
    head = "import (\n" + "".join(f'\t"{it}"\n' for it in imports) + ")\n\n" if imports else ""
    return f"{NOTICE}\n\npackage pure\n\n{head}{whole}"


def code_files(texts):
    """The functions in several files, each of at most so many lines."""
    rows, count = [[]], 0
    for text in texts:
        lines = text.count("\n")
        if rows[-1] and count + lines > LINES:
            rows.append([])
            count = 0
        rows[-1].append(text)
        count += lines
    notice = f"{NOTICE}\n\n{FOR_STATICCHECK}"
    return {f"code_{i + 1}.go": code_file(row).replace(NOTICE, notice, 1) for i, row in enumerate(rows)}


def files_of(content):
    """The files that the library's module becomes, by their names from the top, before gofmt has laid them out."""
    made = Translator(content, [it.c_name for it in calls()])
    texts, helpers = made.code()
    files = {**code_files(texts), "vectors.go": code_file(helpers), "data.go": made.first_memory()}
    files["calls.go"] = calls_text(made.exports, made.depths, made.address)
    files = {f"{PURE}/{name}": text for name, text in files.items()}
    files[f"{LIBRARY}/calls_pure.go"] = library_text(CONSTRAINT)
    return files
