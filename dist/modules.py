"""The LLVM modules of the library that the toolchain's `clang` was given, with its words: modules/. Of them a stock
`clang` of the same version makes the texts again, without `rt`.
"""
import lzma
import os
import re
import shutil
import subprocess

HERE = os.path.dirname(os.path.realpath(__file__))
FOLDER = f"{HERE}/modules"
NAMES = {"x86-64": "x86_64", "aarch64": "aarch64"}  # of the builds that are kept
FILES = [f"modules/{name}.{kind}" for name in NAMES.values() for kind in ("words", "bc.xz")]


def kept(name, words, module):
    """The files of a build: its words, a line each, and its module."""
    with open(module, "rb") as it:
        packed = lzma.compress(it.read(), preset=9 | lzma.PRESET_EXTREME)
    base = f"modules/{NAMES[name]}"
    return {f"{base}.words": "".join(f"{it}\n" for it in words).encode(), f"{base}.bc.xz": packed}


def unpacked(name, folder):
    """The words of a build, and its module as a file of this folder."""
    base, module = f"{FOLDER}/{NAMES[name]}", f"{folder}/{NAMES[name]}.bc"
    with open(f"{base}.words", encoding="utf-8") as it:
        words = it.read().splitlines()
    with lzma.open(f"{base}.bc.xz") as packed, open(module, "wb") as it:
        it.write(packed.read())
    return words, module


def version_of(clang):
    said = subprocess.run([clang, "--version"], capture_output=True, text=True, check=True).stdout
    return re.search(r"clang version (\S+)", said)[1]


def stock_clang(version):
    """A `clang` of this version that isn't the toolchain's, or None: Debian has it as clang-22."""
    major = version.split(".", maxsplit=1)[0]
    for name in (f"clang-{major}", "clang"):
        if (path := shutil.which(name)) and version_of(path) == version:
            return path
    return None
