"""MANIFEST: which files dist/make makes, which copies of them are in bindings/, what MANIFEST says of them, and what
differs from it.
"""
import os
import re

from builds import HERE, ROOT, clang, kit, output_of, read, sum_of
import levels
import modules
from levels import Failure

MANIFEST = f"{HERE}/MANIFEST"

PRODUCTS = ["noise_c", "noise"]

# The texts: the build that each is made of, and for a system that isn't the kit's the words for its `clang`.
TEXTS = {
    "noise_c_linux_x86_64.s": ("noise_c", "x86-64", None),
    "noise_c_linux_aarch64.s": ("noise_c", "aarch64", None),
    "noise_c_linux_riscv64.s": (
        "noise_c",
        "x86-64",
        ["--target=riscv64-unknown-linux-gnu", "-march=rv64gc", "-mabi=lp64d", "-fPIC"],
    ),
    "noise_c_windows_x86_64.s": ("noise_c", "x86-64", ["--target=x86_64-w64-windows-gnu", "-march=x86-64"]),
    "noise_c_macos_x86_64.s": ("noise_c", "x86-64", ["--target=x86_64-apple-macosx11.0.0", "-march=x86-64", "-fPIC"]),
    "noise_c_macos_arm64.s": ("noise_c", "aarch64", ["--target=arm64-apple-macosx11.0.0", "-fPIC"]),
    "noise_c_go_arm64.s": (
        "noise_c",
        "aarch64",
        ["--target=aarch64-unknown-linux-gnu", "-fPIC", "-ffixed-x18", "-ffixed-x28"],  # Go keeps its own in x28
    ),
    "noise_linux_x86_64.s": ("noise", "x86-64", None),
    "noise_linux_aarch64.s": ("noise", "aarch64", None),
    "noise_windows_x86_64.s": ("noise", "x86-64", ["--target=x86_64-w64-windows-gnu", "-march=x86-64"]),
    "noise_macos_x86_64.s": ("noise", "x86-64", ["--target=x86_64-apple-macosx11.0.0", "-march=x86-64", "-fPIC"]),
    "noise_macos_arm64.s": ("noise", "aarch64", ["--target=arm64-apple-macosx11.0.0", "-fPIC"]),
}
MODULES = {"noise_c": ["noise_c.wasm", "noise_c_32.wasm"], "noise": []}

# The module of bindings/js: one of the two WebAssembly modules.
JS_MODULE = "noise_c_32.wasm"

# The copies in packages: the file that each is a copy of, and what stands before it. The package for Go has what
# go-assembler makes of the texts, and these where cgo is needed: on RISC-V, and on arm64 until noise_c_go_arm64.s is
# there.
GO = f"{ROOT}/bindings/go/internal/library"
ASSEMBLED = ["linux_x86_64", "linux_aarch64", "linux_riscv64", "windows_x86_64", "macos_x86_64", "macos_arm64"]
BY_CGO = {"linux_riscv64": "linux_riscv64"}
if not os.path.exists(f"{HERE}/noise_c_go_arm64.s"):
    BY_CGO.update({"linux_arm64": "linux_aarch64", "darwin_arm64": "macos_arm64"})
BEFORE_GO = b"//go:build !purego && !noise_installed\n\n"
COPIES = {
    f"bindings/go/internal/library/noise_{theirs}.S": (f"dist/noise_c_{ours}.s", BEFORE_GO)
    for theirs, ours in BY_CGO.items()
}
COPIES.update(
    {
        f"bindings/{it}/src/assembly/{ours}.s": (f"dist/noise_c_{ours}.s", b"")
        for it in ("rust", "python")
        for ours in ASSEMBLED
    }
)
COPIES.update(
    {
        f"bindings/{it}/{header}": (f"include/{header}", b"")
        for it in ("go/internal/library", "python/src")
        for header in ("noise.h", "noise_inline.h")
    }
)
COPIES["bindings/js/noise_c.wasm"] = (f"dist/{JS_MODULE}", b"")


# What other scripts make of files of this folder in packages, without `rt`: go-assembler.
MADE = [f"bindings/go/internal/library/{it}" for it in ("calls.go", "calls_amd64.s", "calls_arm64.s")]


def files_of(products):
    return [it for it in TEXTS if TEXTS[it][0] in products] + [it for product in products for it in MODULES[product]]


def manifest():
    """What MANIFEST says: the words of each line, by the words before them."""
    if not os.path.exists(MANIFEST):
        return {}
    with open(MANIFEST, encoding="utf-8") as it:
        lines = [line.rstrip("\n") for line in it if not line.startswith("#")]
    key = r"(version|kit|clang|(?:sources|commit|file|made|object|flags|translated) \S+) (.*)"
    parts = (re.match(key, line) for line in lines)
    return {part[1]: part[2] for part in parts if part}


def clang_of_modules():
    """The version of `clang` that MANIFEST names."""
    if "clang" not in manifest():
        raise Failure("MANIFEST names no version of clang")
    return manifest()["clang"]


def kits():
    """The name of this kit, and that of the one which MANIFEST names."""
    return read(f"{kit()}/KIT-ID").decode().strip(), manifest().get("kit")


def sources_of(product):
    return output_of(f"{HERE}/is-current", "--sources", product).decode().strip()


def commit():
    """The commit whose sources are here, if they are a commit's: the texts may be built after others."""
    try:
        changed = output_of("git", "-C", ROOT, "status", "--porcelain", "--", "crates", "crates.txt", "include")
        name = output_of("git", "-C", ROOT, "rev-parse", "--short=12", "HEAD").decode().strip()
    except (Failure, FileNotFoundError):
        return None
    return f"{name}, with changes" if changed.strip() else name


def version():
    numbers = re.findall(rb"(?m)^#define NOISE_VERSION_[A-Z]+ (\d+)", read(f"{ROOT}/include/noise.h"))
    return ".".join(numbers[i].decode() for i in range(3))


def objects_in(said, file):
    """The checksums of a text's objects, by their levels, as MANIFEST has them."""
    form = rf"object {re.escape(file)}(@.*)?"
    return {key.removeprefix(f"object {file}"): it for key, it in said.items() if re.fullmatch(form, key)}


def manifest_of(products, made):
    """The new lines, in order; those of the product that isn't made anew stay."""
    said, every = manifest(), files_of(PRODUCTS)
    lines = {"version": version(), "kit": kits()[0]}
    for product in PRODUCTS:
        key = f"sources {product}"
        lines[key] = sources_of(product) if product in products else said.get(key, "none")
        of = commit() if product in products else said.get(f"commit {product}")
        lines.update({f"commit {product}": of} if of else {})
    lines.update({f"file {it}": sum_of(made[it][0]) if it in made else said.get(f"file {it}", "none") for it in every})
    lines["clang"] = modules.version_of(clang())
    lines.update({f"file {it}": sum_of(read(f"{HERE}/{it}")) for it in ["runtime.c", *modules.FILES]})
    for file in (it for it in TEXTS if not TEXTS[it][2]):
        objects = made[file][2] if file in made else objects_in(said, file) or {"": "none"}
        lines.update({f"object {file}{level}": it for level, it in objects.items()})
    lines.update({f"flags {it}": made[it][1] if it in made else said.get(f"flags {it}", "none") for it in every})
    lines.update({f"flags @{it}": " ".join(words) for it, words in levels.COMPILED.items()})
    lines.update({key: it for key, it in said.items() if key.startswith("translated ")})  # tools/purego/make sets them
    head = "# Made by dist/make, and compared by dist/make --check. README.md explains the lines.\n"
    return head + "".join(f"{key} {words}\n" for key, words in lines.items())


def renew_made():
    """Sets the lines of what other scripts have made, in place."""
    text = re.sub(r"(?m)^made .*\n", "", read(MANIFEST).decode())
    lines = "".join(f"made {it} {sum_of(read(f'{ROOT}/{it}'))}\n" for it in MADE)
    before = r"(?m)^(file runtime\.c .*\n(?:file modules/.*\n)*)"
    write(MANIFEST, re.sub(before, lambda it: it[0] + lines, text).encode())


def write(path, content):
    os.makedirs(os.path.dirname(path), exist_ok=True)
    if not os.path.exists(path) or read(path) != content:
        with open(path, "wb") as it:
            it.write(content)


def differences(products, made):
    """What differs from the tree, a line each."""
    said, wanted = manifest(), {"version": version(), **{f"sources {it}": sources_of(it) for it in products}}
    for key, value in wanted.items():
        if said.get(key) != value:
            yield f"MANIFEST: {key}: it has {said.get(key)}, and the tree {value}"
    for file in [*files_of(products), "runtime.c", *modules.FILES]:
        there = read(f"{HERE}/{file}") if os.path.exists(f"{HERE}/{file}") else b""
        if said.get(f"file {file}") != sum_of(there):
            yield f"{file}: not the file that MANIFEST names"
        elif file in made and made[file][0] not in (None, there):
            yield f"{file}: not what these sources make"
    for file, level, it in ((file, *it) for file in made for it in (made[file][2] or {}).items()):
        if said.get(f"object {file}{level}") != it:
            yield f"MANIFEST: object {file}{level}: another than this"
    flags = {file: how for file, (content, how, _) in made.items() if content is not None}
    flags.update({f"@{it}": " ".join(words) for it, words in levels.COMPILED.items()})
    for file, how in flags.items():
        if said.get(f"flags {file}") != how:
            yield f"MANIFEST: flags {file}: it is made by {how}"
    for copy, (of, head) in COPIES.items() if "noise_c" in products else ():
        if not os.path.exists(f"{ROOT}/{copy}") or read(f"{ROOT}/{copy}") != head + read(f"{ROOT}/{of}"):
            yield f"{copy}: not the same as {of}"
    for it in MADE if "noise_c" in products else ():
        if not os.path.exists(f"{ROOT}/{it}") or said.get(f"made {it}") != sum_of(read(f"{ROOT}/{it}")):
            yield f"{it}: not the file that MANIFEST names"
