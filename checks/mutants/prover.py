"""What the prover says of a function whose text an edit has changed: over the proved libraries of the crates below its
own (crates/NAME/out/rlib), that function is checked, and none of the others. Each other function of the crate keeps its
contract, and has neither its body nor its proof: a proof knows only the contracts of the functions that it calls, and
`rt ci` has proved those. What was refused is kept on this machine by a checksum of all that was read: the toolchain's
name, the edited crate, the sources of those below it, and this file."""

import hashlib
import os
import pathlib
import re
import shutil
import subprocess
import tempfile

ROOT = pathlib.Path(__file__).resolve().parent.parent.parent
PARTS = ("src", "specs", "proofs")
FUNCTION = re.compile(r"^( *)(?:pub(?:\([^)]*\))? )?(?:const )?(?:unsafe )?(?:extern \"C\" )?fn (\w+)", re.MULTILINE)
IMPL = re.compile(r"^impl(?:<[^{]*?>)? (?:(?:\w+::)*(\w+)(?:<[^{]*?>)? for )?(?:\w+::)*(\w+)", re.MULTILINE)
BODY = " loop {} "
COPY = re.compile(r"(\w+)_mutant\d+")
PROOF = """use {module}.Statement.{{statement}}
use Rattle.{crate}.proofs.TakenAsProved.{{taken}}

pub {name}_spec : {{M : Type 1}} → statement M
{name}_spec {{M}} = taken (statement M)
"""
# (one hole that all such proofs cite, since the prover prints the goal of each hole)
TAKEN = """pub taken : (claim : Type 2) → claim
taken claim = ?
"""
GOAL = re.compile(r"^note: (src/[\w/]+\.rt):(\d+):\d+: (.*(?:not proved|did not prove).*)$", re.MULTILINE)


KEPT = pathlib.Path(os.environ.get("XDG_CACHE_HOME") or pathlib.Path.home() / ".cache") / "yulimosar" / "mutants"


class NotRefused(Exception):
    """Why it isn't known that the prover refuses an edit."""


def toolchain():
    """The folder of the toolchain that `rt` is of."""
    page = subprocess.run(["rt", "doc"], stdout=subprocess.PIPE, text=True, check=True).stdout.strip()
    return pathlib.Path(page).parent


def libraries():
    """For each crate the words after its name in crates.txt: the libraries below it."""
    lines = [line.partition("#")[0].partition(":") for line in (ROOT / "crates.txt").read_text().splitlines()]
    return {name.split()[0]: words.split() for name, colon, words in lines if colon}


def rlib(name):
    """The proved library of a crate, as `rt ci` leaves it."""
    return ROOT / "crates" / name / "out" / "rlib" / f"{name}.rlib"


def lacking(name):
    """The libraries below a crate that aren't there."""
    every = libraries()
    return [it for it in every[name] if it in every and not rlib(it).exists()]


def words(name, base):
    """The call of the prover that checks a crate."""
    every = libraries()
    below = [(it, rlib(it) if it in every else base / "rlibs" / f"{it}.rlib") for it in ["std", *every[name]]]
    found = [str(base / "bin/rattle"), "check", "--crate-name", name, "src/lib.rt", "--jobs", "1"]
    found += [word for it, path in below for word in ("--extern", f"{it}={path}")]
    found += [word for it in every[name] if it in every for word in ("-L", f"dependency={rlib(it).parent}")]
    found += ["-L", f"dependency={base}/rlibs", "--links", f"{name}="]
    found += ["--antt-project", f"{base}/rattle/logic/antt-project.json", "--logic-built", f"{base}/logic_built"]
    text = (ROOT / "crates.txt").read_text()
    return found + (["--crate-type", "staticlib"] if re.search(rf"^{name} staticlib:", text, re.MULTILINE) else [])


def sources(name):
    """A checksum of the sources of a crate and of those below it, and of the toolchain's name."""
    every, text = libraries(), hashlib.sha256((toolchain() / "KIT-ID").read_bytes())
    text.update(pathlib.Path(__file__).read_bytes())
    for crate in [name, *(it for it in every[name] if it in every)]:
        for part in PARTS:
            for file in sorted((ROOT / "crates" / crate / part).rglob("*")):
                if file.is_file():
                    text.update(f"{file.relative_to(ROOT)}\n".encode() + hashlib.sha256(file.read_bytes()).digest())
    return text.hexdigest()


def kept_verdict(sum_of_sources, edit, found=None):
    """What an earlier run on this machine found of this edit over these sources, if one did; what is found now is
    kept."""
    file = KEPT / hashlib.sha256(sum_of_sources.encode() + edit.name.encode() + edit.read_bytes()).hexdigest()
    if found:
        KEPT.mkdir(parents=True, exist_ok=True, mode=0o700)
        file.write_text(found, encoding="utf-8")
    elif file.is_file() and file.stat().st_uid == os.getuid():
        return file.read_text(encoding="utf-8")
    return found


def function_at(file, text, at):
    """The path of the function of a file in whose text a place lies, and the lines from its contract to its end."""
    before = list(FUNCTION.finditer(text, 0, at))
    if not before:
        raise NotRefused(f"its text stands in no function of {file}")
    found = before[-1]
    inside = [it for it in IMPL.finditer(text, 0, found.start())] if found[1] else []
    path = file.removeprefix("src/").removesuffix(".rt").replace("/", "::")
    # (a method of a trait's impl has the name of the type and of the trait in its path)
    of_impl = inside[-1][2] + (inside[-1][1] or "") if inside else ""
    parts = [it for it in (of_impl or (path if path != "lib" else ""), found[2]) if it]
    end = text.find(f"\n{found[1]}}}", found.start())
    first = text.rfind("\n\n", 0, found.start())
    return "::".join(parts), range(text.count("\n", 0, first) + 1, text.count("\n", 0, end) + 3)


def goals(said, file, lines, left=()):
    """The open goals that the prover reports at these lines of a file, but for those of these names."""
    found = (it for it in GOAL.finditer(said) if it[1] == file and int(it[2]) in lines)
    return [it[3] for it in found if not any(f"(`{name}`)" in it[3] for name in left)]


def function_named(file, text, path):
    """Where the function of a path begins, and its lines, as function_at has them."""
    every = ((found, function_at(file, text, found.end())) for found in FUNCTION.finditer(text))
    return next((found, lines) for found, (it, lines) in every if it == path)


def place_of_proof(files, file, found):
    """The module, the type and the name of a function of these files, or None for a method of a trait's impl, and for a
    function in another one, whose proofs stand elsewhere. A method's proof stands where its type is declared."""
    inside = list(IMPL.finditer(files[file], 0, found.start())) if found[1] else []
    if len(found[1]) > 4 or inside and inside[-1][1]:
        return None
    of_type = [inside[-1][2]] if inside else []
    if of_type:
        declared = re.compile(rf"^(?:pub(?:\([^)]*\))? )?(?:struct|enum) {of_type[0]}\b", re.MULTILINE)
        homes = [it for it in [file, *files] if declared.search(files[it])]
        file = homes[0] if homes else file
    module = [it for it in file.removeprefix("src/").removesuffix(".rt").split("/") if it not in ("lib", "mod")]
    return [*module, *of_type, found[2]]


def body_of(text, found):
    """The place of a function's body, between its braces, or None where it has none, or one with no line of its own."""
    indent, start = found[1], found.start()
    after = FUNCTION.search(text, found.end())
    end = text.find(f"\n{indent}}}", start, after.start() if after else len(text))
    # (it begins on a line of its own after clauses)
    brace = text.find(f"\n{indent}{{\n", start, end)
    begin = brace + len(indent) + 2 if brace >= 0 else text.find(" {\n", start, end) + 2
    return (begin, end) if end >= 0 and begin > start + 1 else None


def whole_of(text, found):
    """The place of a function with the comments and the attributes above it, or None where body_of finds no body."""
    begin, body = found.start(), body_of(text, found)
    while (line := text[text.rfind("\n", 0, begin - 1) + 1:begin]).lstrip().startswith(("//", "#[")):
        begin -= len(line)
    return (begin, text.index("\n", body[1] + 1) + 1) if body else None


def with_copy(file, text, edited, path, number):
    """The text of a file with one more function, and the path of that: what the function of this path is in the edited
    text of the file, under a name of its own, behind the function itself. None where no copy can be made. The others
    call the function itself, and the copy has its contract, and its proof by copy_proofs."""
    was, found = function_named(file, text, path)[0], function_named(file, edited, path)[0]
    before, place = whole_of(text, was), whole_of(edited, found)
    if not before or not place or not place_of_proof({file: edited}, file, found):
        return None
    name = f"{found[2]}_mutant{number}"
    copy = edited[place[0]:found.start(2)] + name + edited[found.end(2):place[1]]
    return f"{text[:before[1]]}\n{copy}{text[before[1]:]}", path.removesuffix(found[2]) + name


def copy_proofs(name, room):
    """Gives each copy of a function in a crate's folder what proofs/ has of the function, under the copy's name."""
    files = {str(it.relative_to(room)): it.read_text(encoding="utf-8") for it in sorted(room.glob("src/**/*.rt"))}
    for file, text in files.items():
        for found in (it for it in FUNCTION.finditer(text) if COPY.fullmatch(it[2])):
            of, place = COPY.fullmatch(found[2])[1], place_of_proof(files, file, found)
            module = ".".join(["Rattle", name, "proofs", *place[:-1], ""])
            folder = room.joinpath("proofs", *place[:-1], of)
            for proof in sorted(folder.rglob("*.antt")):
                copy = proof.read_text(encoding="utf-8").replace(f"{module}{of}.", f"{module}{found[2]}.")
                to = folder.with_name(found[2]) / proof.relative_to(folder)
                to.parent.mkdir(parents=True, exist_ok=True)
                to.write_text(re.sub(rf"\b{of}_spec\b", f"{found[2]}_spec", copy), encoding="utf-8")


def leave_open(name, room, functions):
    """Has the prover try none of the goals of these names, by an answer that is a hole, but for those of functions
    whose proofs stand elsewhere. `functions` has the names for each function, by its file and path."""
    files = {str(it.relative_to(room)): it.read_text(encoding="utf-8") for it in sorted(room.glob("src/**/*.rt"))}
    for (file, path), left in functions.items():
        place = place_of_proof(files, file, function_named(file, files[file], path)[0])
        if not place:
            continue
        answers = room.joinpath("proofs", *place, "Answers.antt")
        if not answers.exists():
            answers.parent.mkdir(parents=True, exist_ok=True)
            answers.write_text(f"use {'.'.join(['Rattle', name, 'proofs', *place])}.Goals as goal\n", encoding="utf-8")
        with answers.open("a", encoding="utf-8") as text:
            text.writelines(f"\npub {goal} : goal.{goal}\n{goal} = ?\n" for goal in left)


def take_as_proved(name, room, functions):
    """Gives each function of the crate in a folder that isn't one of these a body that never ends and the proof that is
    taken for granted, where its proof has the plain form. The few others keep theirs."""
    files = {str(it.relative_to(room)): it.read_text(encoding="utf-8") for it in sorted(room.glob("src/**/*.rt"))}
    for file, text in files.items():
        changed = text
        for found in reversed(list(FUNCTION.finditer(text))):
            place, body = place_of_proof(files, file, found), body_of(text, found)
            if not place or not body or function_at(file, text, found.end())[0] in functions:
                continue
            changed = changed[:body[0]] + BODY + changed[body[1]:]
            folder = room.joinpath("proofs", *place)
            folder.mkdir(parents=True, exist_ok=True)
            for it in ("Answers", "Invariants"):
                (folder / f"{it}.antt").unlink(missing_ok=True)
            # (where a function calls itself)
            shutil.rmtree(folder.parent / f"+{place[-1]}", ignore_errors=True)
            module = ".".join(["Rattle", name, "proofs", *place])
            proof = PROOF.format(module=module, crate=name, name=place[-1])
            (folder / "Proof.antt").write_text(proof, encoding="utf-8")
        room.joinpath(file).write_text(changed, encoding="utf-8")
    room.joinpath("proofs/TakenAsProved.antt").write_text(TAKEN, encoding="utf-8")
    with room.joinpath("proofs/Lib.antt").open("a", encoding="utf-8") as root:
        root.write("\npub mod TakenAsProved\n")


def say(name, texts, functions, call):
    """What the prover prints of these functions, where a crate has these texts in place of its own, with its status,
    whether it came to its end, and the lines of each function in what it read. `functions` has for the file and the
    path of each the names of the goals that aren't tried."""
    with tempfile.TemporaryDirectory(prefix="mutant-") as room:
        for part in PARTS:
            if (ROOT / "crates" / name / part).is_dir():
                shutil.copytree(ROOT / "crates" / name / part, f"{room}/{part}")
        for file, text in texts.items():
            pathlib.Path(room, file).write_text(text, encoding="utf-8")
        paths = {path for _, path in functions}
        copy_proofs(name, pathlib.Path(room))
        leave_open(name, pathlib.Path(room), {it: left for it, left in functions.items() if left})
        take_as_proved(name, pathlib.Path(room), paths)
        lines = {(file, path): function_named(file, pathlib.Path(room, file).read_text(encoding="utf-8"), path)[1]
                 for file, path in functions}
        only = [word for path in sorted(paths) for word in ("--only", path)]
        ran = subprocess.run(
            [*call, "--allow-holes", *only], cwd=room, stdin=subprocess.DEVNULL, stdout=subprocess.PIPE,
            stderr=subprocess.STDOUT, text=True, errors="replace", check=False, env={**os.environ, "TMPDIR": room},
        )
    ended = re.fullmatch(r"only=(\d+) holes=(\d+)", ran.stdout.rstrip().split("\n")[-1])
    return ran.stdout, ran.returncode, bool(ended), lines


def is_met(name, said, path):
    """Whether the prover says that the function of a path meets its contract, given those that it calls."""
    met = re.findall(rf"^fn {name}::(\S+): (?:no holes|depends on a hole)", said, re.MULTILINE)
    return any(f"::{it}".replace("+", "").endswith(f"::{path}") for it in met)


def refused_together(name, texts, functions_of, call):
    """For each edit the first open goal of its functions, or None, where a crate has the texts that all edits give. No
    two edits change one function: so each is refused by the contract of a body that it alone has changed, since of the
    others a proof knows the contracts alone. `functions_of` has the functions of each edit, as `say` takes them."""
    every = {it: left for functions in functions_of.values() for it, left in functions.items()}
    said, status, ended, lines = say(name, texts, every, call)
    if status != 1 or not ended:
        return {}
    return {edit: next((goal for it in sorted(functions) for goal in goals(said, it[0], lines[it], every[it])), None)
            for edit, functions in functions_of.items()}


def verdict(name, texts, functions, call):
    """The first open goal of a changed function, where a crate has these texts in place of its own. `functions` has the
    functions as `say` takes them."""
    said, status, ended, lines = say(name, texts, functions, call)
    if ended and all(is_met(name, said, path) for _, path in functions):
        raise NotRefused("not refused: " + ", ".join(path for _, path in functions) + " still meets its contract")
    found = [goal for it in sorted(functions) for goal in goals(said, it[0], lines[it], functions[it])]
    if status != 1 or not ended or not found:
        told = [it for it in said.rstrip().split("\n") if re.match(r"(note: )?\S+:\d+:\d+: ", it)]
        told = [it for it in told if "TakenAsProved" not in it] or said.rstrip().split("\n")[-1:]
        raise NotRefused(f"no open goal of its function (status {status}): {told[0][:200]}")
    return found[0]


def unmet(name, functions, call):
    """The paths of those of these functions that don't meet their contracts as they are, or whose run came to no
    end."""
    said, _, ended, _ = say(name, {}, dict.fromkeys(functions, ()), call)
    return sorted(path for _, path in functions if not ended or not is_met(name, said, path))
