"""What Go demands of variables: one that is never read has no name."""
import re

DEFINITION = re.compile(r"^(\t*)((?:t\d+)(?:, t\d+)*) := (.*)$")
ACCESSES = (".get", ".at(")  # what has to be done though nobody reads its result, since it may be refused


def tidy(text):
    """A function's text without names of variables that nobody reads, and without the definitions that nobody needs."""
    before = None
    while before != text:
        before, counts = text, {}
        for name in re.findall(r"\bt\d+\b", text):
            counts[name] = counts.get(name, 0) + 1
        text = "\n".join(line for it in text.split("\n") for line in with_names(it, counts))
    return with_reads(text)


def with_names(line, counts):
    """A line whose definitions have names only if these are read; nothing if it has no use then."""
    found = DEFINITION.match(line)
    if not found:
        return [line]
    indent, right = found[1], found[3]
    names = [it if counts[it] > 1 else "_" for it in found[2].split(", ")]
    if "_" not in names:
        return [line]
    values = re.split(r", (?![^()]*\))", right)
    is_kept = any(it in right for it in ACCESSES) or re.match(r"f\d+", right)
    if set(names) == {"_"}:
        return [f"{indent}{', '.join(names)} = {right}"] if is_kept else []
    if len(values) == len(names):  # (no access is among several)
        pairs = [pair for pair in zip(names, values) if pair[0] != "_"]
        return [f"{indent}{', '.join(name for name, _ in pairs)} := {', '.join(value for _, value in pairs)}"]
    return [f"{indent}{', '.join(names)} := {right}"]


def with_reads(text):
    """The text with a line that reads the locals that are only set."""
    lines = text.split("\n")
    declared = [it for it in lines if it.startswith("\tvar ")]
    body = "\n".join(it for it in lines[1:] if not it.startswith("\tvar "))
    read = re.sub(r"^(\t*)(l\d+[abcd]?(?:, l\d+[abcd]?)*) = ", r"\1", body, flags=re.M)
    names = re.findall(r"\bl\d+[abcd]?\b", "\n".join(declared))
    unread = [it for it in names if not re.search(rf"\b{it}\b", read)]
    if unread:
        at = max(i for i, it in enumerate(lines) if it.startswith("\tvar ")) + 1
        lines.insert(at, f"\t{', '.join('_' for _ in unread)} = {', '.join(unread)}")
    return "\n".join(lines)
