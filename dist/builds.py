"""Builds the library and the command from proved crates, for dist/make: the object of each build, and what LLVM's
compiler was given for it. Crates that `rt ci`, `rt lib` or tools/build have proved are used as they are, if no source
is newer, and are proved otherwise.
"""
import functools
import hashlib
import os
import shutil
import subprocess
import tempfile

from levels import Failure
import modules

HERE = os.path.dirname(os.path.realpath(__file__))
ROOT = os.path.dirname(HERE)
JOBS = int(os.environ.get("JOBS") or os.cpu_count() or 1)

# The builds by `rattle build`, which are the kit's own targets: product, name, and words.
BUILDS = {
    ("noise_c", "x86-64"): ["--cpu", "x86-64"],
    ("noise_c", "aarch64"): ["--target", "aarch64-unknown-linux-gnu"],
    ("noise", "x86-64"): ["--cpu", "x86-64"],
    ("noise", "aarch64"): ["--target", "aarch64-unknown-linux-gnu"],
}


def read(path):
    with open(path, "rb") as it:
        return it.read()


def sum_of(content):
    return hashlib.sha256(content).hexdigest()


def output_of(*words, **how):
    """What a command prints; its last lines are the failure if it has another status than 0."""
    ran = subprocess.run(words, stdin=subprocess.DEVNULL, capture_output=True, check=False, **how)
    if ran.returncode:
        said = (ran.stdout + ran.stderr).decode(errors="replace").rstrip().split("\n")
        raise Failure("\n".join([f"{' '.join(words)[:200]}: status {ran.returncode}", *said[-30:]]))
    return ran.stdout


# By --from-modules: the folder for the modules of modules/, of which all is made then, and `clang` of their version.
FROM_MODULES = {}


def clang():
    return FROM_MODULES["clang"] if FROM_MODULES else f"{kit()}/toolchain/bin/clang"


@functools.lru_cache
def kit():
    try:
        return os.path.dirname(output_of("rt", "doc").decode().strip())
    except FileNotFoundError as error:
        raise Failure("the command `rt` isn't installed: see README.md") from error


def crates():
    """The words of each crate's line in crates.txt."""
    with open(f"{ROOT}/crates.txt", encoding="utf-8") as it:
        rows = [line.partition("#")[0].partition(":") for line in it]
    return {name.split()[0]: words.split() for name, colon, words in rows if colon}


@functools.lru_cache
def newest_source():
    walked = (
        f"{at}/{it}"
        for part in ("src", "specs", "proofs")
        for name in crates()
        for at, _, its in os.walk(f"{ROOT}/crates/{name}/{part}")
        for it in its
    )
    return max(os.path.getmtime(it) for it in [f"{ROOT}/crates.txt", *walked])


def is_fresh(path):
    return os.path.exists(path) and os.path.getmtime(path) > newest_source()


def build_library(name, words):
    """The object of the library and what LLVM's compiler was given for it: packaging/library keeps both."""
    file = f"{ROOT}/crates/noise_c/out/{name}/libnoise_c.a"
    if not is_fresh(file) or not os.path.isdir(f"{file}.record"):
        output_of(f"{ROOT}/packaging/library", *words, file, env={**os.environ, "JOBS": str(JOBS)})
    return output_of(f"{kit()}/toolchain/bin/llvm-ar", "p", file, "noise_c.o"), f"{file}.record"


def proved_folders(names):
    """The folders of the proved crates of the command: those of `rt ci`, or those of tools/build, which proves what
    isn't proved."""
    folders = {name: f"{ROOT}/crates/{name}/out/rlib" for name in names}
    if all(is_fresh(f"{folder}/{name}.rlib") for name, folder in folders.items()):
        return folders
    if subprocess.run([f"{ROOT}/tools/build"], check=False).returncode:
        raise Failure("the command couldn't be proved: crates/noise/out/build.log")
    return {name: f"{ROOT}/crates/noise/out/libraries" for name in names}


def build_command(name, words, of_text):
    """The object of the command and what LLVM's compiler was given for it; or the object that is assembled of the text,
    which is recorded, too."""
    out = f"{ROOT}/crates/noise/out/{name}{'-text' if of_text else ''}"
    if not is_fresh(f"{out}/noise.o") or not os.path.isdir(f"{out}/noise.o.record"):
        where, uses = kit(), crates()["noise"]
        folders = proved_folders([it for it in uses if it in crates()])
        externs = [f"{it}={folders.get(it, f'{where}/rlibs')}/{it}.rlib" for it in ["std", *uses]]
        places = [f"dependency={it}" for it in [*dict.fromkeys(folders.values()), f"{where}/rlibs"]]
        os.makedirs(out, exist_ok=True)
        with tempfile.TemporaryDirectory() as room:
            output_of(f"{HERE}/recorder", *["--text"] * of_text, room)
            call = [f"{where}/bin/rattle", "build", "--crate-name", "noise", "src/main.rt"]
            call += ["--jobs", str(JOBS), "--links", "noise="]
            call += [word for it in externs for word in ("--extern", it)]
            call += [word for it in places for word in ("-L", it)]
            call += ["--antt-project", f"{where}/rattle/logic/antt-project.json"]
            call += ["--logic-built", f"{where}/logic_built", "--incremental", "out/incremental", *words]
            call += ["--backend", "llvm", "--toolchain", f"{room}/toolchain", "-o", f"{room}/noise.o"]
            output_of(*call, cwd=f"{ROOT}/crates/noise")
            shutil.rmtree(f"{out}/noise.o.record", ignore_errors=True)
            shutil.move(f"{room}/record", f"{out}/noise.o.record")
            shutil.move(f"{room}/noise.o", f"{out}/noise.o")
    return read(f"{out}/noise.o"), f"{out}/noise.o.record"


@functools.lru_cache
def build(product, name, of_text):
    """The object of a build, and the folder of what LLVM's compiler was given for it."""
    words = BUILDS[product, name]
    if FROM_MODULES:
        given, module = modules.unpacked(name, FROM_MODULES["folder"])
        made = f"{FROM_MODULES['folder']}/{name}.o"
        output_of(clang(), *given, "-c", "-x", "ir", module, "-o", made)
        return read(made), name
    return build_library(name, words) if product == "noise_c" else build_command(name, words, of_text)


def recorded(record):
    """The words of the last call of `clang`, which makes the object, without the names of files; and the module that it
    read."""
    if FROM_MODULES:
        return modules.unpacked(record, FROM_MODULES["folder"])
    last = max(os.listdir(record), key=int)
    with open(f"{record}/{last}/words", encoding="utf-8") as it:
        words = it.read().splitlines()
    module = words[words.index("ir") + 1]
    for pair in (["-x", "ir"], ["-o", words[words.index("-o") + 1]]):
        at = words.index(pair[0])
        del words[at : at + 2]
    left = [it for it in words if it not in ("-c", module) and not it.startswith("--sysroot=")]
    return left, f"{record}/{last}/{os.path.basename(module)}"
