"""The cases below cases/: commands with what they print, tables of texts and of lines, and the conversion of each file
that is run."""

import glob
import os
import re
import shlex
import shutil

from documents import fault_in, has_document
from program import difference, is_met, run, shown

HERE = os.path.dirname(os.path.realpath(__file__))
REPEATED = re.compile(rb"\{(.*?), (\d+) times\}", re.DOTALL)


class Cases:
    """The cases, in a copy of their folder, where the long files are written out. `refuse`: the library to preload, or
    none."""

    def __init__(self, room, refuse):
        self.folder, self.refuse = f"{room}/cases", refuse
        self.count, self.documents, self.left_out, self.faults = 0, 0, 0, []
        shutil.copytree(f"{HERE}/cases", self.folder)
        for path in self.files("long"):
            write_out(path)

    def files(self, ending):
        """The files with this ending, sorted."""
        return sorted(glob.glob(f"{self.folder}/*/*.{ending}"))

    def run_all(self):
        """Runs all cases."""
        for path in self.files("case"):
            for line, expected in commands_of(path):
                self.run_case(path, line, expected)
        for path in self.files("table"):
            self.run_table(path)
        for path in self.files("explained"):
            self.run_explained(path)
        for path in self.files("lines"):
            self.run_lines(path)
        self.faults += [f"command: {path}: no command names it" for path in self.unnamed()]

    def unnamed(self):
        """The files that no command of their folder names."""
        texts = {}
        for path in self.files("case") + self.files("commands") + self.files("lines") + self.files("explained"):
            with open(path, encoding="utf-8") as file:
                texts.setdefault(os.path.dirname(path), set()).update(file.read().split())
        for path in self.files("*"):
            folder, name = os.path.split(path)
            if not name.endswith(
                (".case", ".commands", ".table", ".explained", ".lines", ".long")
            ) and name not in texts.get(folder, ()):
                yield os.path.relpath(path, self.folder)

    def expect(self, name, expected, ran):
        """Counts a case, and keeps a fault where the run isn't as expected."""
        self.count += 1
        if not is_met(expected, shown(ran)):
            self.faults.append(difference(name, expected, shown(ran)))

    def run_case(self, path, line, expected):
        """Runs a command; one with variables is run with the library that reads them. A file of version 1 that was run
        is also converted."""
        variables, words = words_of(line)
        words = [written_out(word.encode()).decode() for word in words]
        if variables and not self.refuse:
            self.left_out += 1
            return
        folder, name = os.path.dirname(path), f"{os.path.relpath(path, self.folder)}: {line}"
        ran = run(words, folder, {**variables, "LD_PRELOAD": self.refuse} if variables else {})
        self.expect(name, expected, ran)
        if not variables:
            self.document(name, words, folder, ran)
        if words[:1] in (["talk"], ["replay"]) and ran.status == 0 and os.path.isfile(f"{folder}/{words[1]}"):
            self.convert(name, f"{folder}/{words[1]}", ran)

    def document(self, name, words, folder, ran, given=None):
        """A command that can write a document says there what it prints without one."""
        if not has_document(words, ran):
            return
        self.documents += 1
        fault = fault_in(words, folder, ran, given)
        if fault:
            self.faults.append(f"command: {name}, with --json: {fault}")

    def explain(self, name, command, text, expected):
        """Runs a command on a text, and asks it for the document of that."""
        ran = run([command, "/dev/stdin"], given=text)
        self.expect(name, expected, ran)
        self.document(name, [command, "/dev/stdin"], None, ran, text)

    def convert(self, name, path, ran):
        """Of a file of version 1: it is converted to one that expects the lines of its run, and that prints the same
        lines."""
        with open(path, encoding="ascii") as file:
            first, rest = file.readline(), file.read()
        if first != "vector 1\n":
            return
        converted = run(["convert", path])
        expected = "vector 2\n" + rest + "".join(f"expect {line}\n" for line in ran.out.decode().splitlines())
        self.expect(f"{name}, converted", expected, converted)
        self.expect(f"{name}, converted and replayed", shown(ran), run(["replay", "/dev/stdin"], given=converted.out))

    def run_table(self, path):
        """Runs a table's command on the text of each row."""
        command, status, _, rows = rows_of(path)
        for text, told in rows:
            self.run_text(f"{os.path.relpath(path, self.folder)}: {text}", command, bytes_of(text), status, told)

    def run_explained(self, path):
        """Runs `explain` on the text of each row, of which a place, what is wrong and changes are said, or on a file
        with a line that is changed."""
        command, status, name, rows = rows_of(path)
        if name:
            self.run_explained_lines(path, command, status, name, rows)
            return
        for text, place, says, *changes in rows:
            lines = "".join(f"  {it}\n" for it in (says, *changes))
            expected = f"/dev/stdin:{place}: [..]\n  [..]\n{lines}status: {status}\n"
            self.explain(f"{os.path.relpath(path, self.folder)}: {text}", command, bytes_of(text), expected)

    def run_explained_lines(self, path, command, status, name, rows):
        """Runs `explain` on a file with one line more or another one, for each row. The whole output is compared: the
        place, the line and the caret, and each sentence."""
        with open(f"{os.path.dirname(path)}/{name}", "rb") as file:
            lines = file.readlines()
        for place, number, line, told, *sentences in rows:
            text = changed(lines, place, int(number), bytes_of(line))
            at, column, word = told.replace(":", " ").split()
            shown_lines = caret_lines(text.split(b"\n")[int(at) - 1], int(column))
            expected = f"/dev/stdin:{at}:{column}: line {at} {word}\n{shown_lines}" + "".join(
                f"  {it}\n" for it in sentences
            )
            self.explain(
                f"{os.path.relpath(path, self.folder)}: {place} {number}: {line}", command, text,
                f"{expected}status: {status}\n",
            )

    def run_lines(self, path):
        """Runs a command on a file with one more line, or on the front of it with a last line that isn't ended, for
        each row."""
        command, status, name, rows = rows_of(path)
        with open(f"{os.path.dirname(path)}/{name}", "rb") as file:
            lines = file.readlines()
        for place, number, line, told in rows:
            name = f"{os.path.relpath(path, self.folder)}: {place} {number}: {line}"
            self.run_text(name, command, changed(lines, place, int(number), bytes_of(line)), status, told)

    def run_text(self, name, command, text, status, told):
        """Runs a command on a text, of which this has to be told."""
        self.expect(name, f"standard error: {told}\nstatus: {status}\n", run([command, "/dev/stdin"], given=text))


def changed(lines, place, number, line):
    """The text of these lines with another one: before the line of this number, in its place, or last, without its
    end."""
    before, after = lines[: number - 1], lines[number - 1 :]
    ends = {"before": [b"\n", *after], "instead": [b"\n", *after[1:]], "last": []}
    return b"".join([*before, line, *ends[place]])


def escaped(part):
    """Bytes as `explain` shows them."""
    return "".join(chr(it) if 32 <= it <= 126 else f"\\x{it:02x}" for it in part)


def caret_lines(line, column):
    """A line with a caret below a column, and 64 bytes before it and after it."""
    before, after = line[: column - 1], line[column - 1 :]
    first = ("[..]" if len(before) > 64 else "") + escaped(before[-64:])
    return f"  {first}{escaped(after[:64])}{'[..]' if len(after) > 64 else ''}\n  {' ' * len(first)}^\n"


def rows_of(path):
    """The command of a table, the status of its runs, the file that it names or none, and its rows."""
    with open(path, encoding="utf-8") as file:
        rows = [shlex.split(line) for line in file if not line.startswith("#") and line.strip()]
    (_, _, command, _), (_, status), *rows = rows
    name = rows.pop(0)[1] if rows[0][0] == "file:" else None
    return command, status, name, rows


def bytes_of(text):
    """The bytes of a row's text, with its escapes and repetitions written out."""
    for escape, meant in (
        ("\\n", "\n"), ("\\r", "\r"), ("\\t", "\t"), ("\\x7f", "\x7f"), ("\\u2192", "\u2192"), ("\\ufeff", "\ufeff"),
    ):
        text = text.replace(escape, meant)
    return written_out(text.encode())


def written_out(text):
    """A text in which `{TEXT, N times}` stands for TEXT N times."""
    return REPEATED.sub(lambda it: it[1] * int(it[2]), text)


def write_out(path):
    """Writes the file that a long one is short for."""
    with open(path, "rb") as file:
        text = written_out(file.read())
    with open(path.removesuffix(".long"), "wb") as file:
        file.write(text)


def commands_of(path):
    """The commands of a file, each with what it is expected to print."""
    with open(path, encoding="utf-8") as file:
        lines = [line for line in file if not line.startswith("#")]
    first, *commands = re.split(r"^\$ ", "".join(lines), flags=re.MULTILINE)
    if first.strip() or not commands:
        raise SystemExit(f"command: {path}: it doesn't begin with a command")
    for text in commands:
        line, _, expected = text.partition("\n")
        yield line, expected.rstrip("\n") + "\n" if expected.strip("\n") else ""


def words_of(line):
    """The variables that stand before the word `noise`, and the words after it."""
    variables, words = {}, shlex.split(line)
    while "=" in words[0]:
        name, value = words.pop(0).split("=")
        variables[name] = value
    if words.pop(0) != "noise":
        raise SystemExit(f"command: not a command: {line}")
    return variables, words
