"""A loop whose vectors stay in their lanes, as four loops."""
import re

from values import TYPES

# An assignment to the four variables of a vector.
OF_VECTOR = re.compile(r"^(\t*)(\w+), (\w+), (\w+), (\w+) (:?=) ([^,]*), ([^,]*), ([^,]*), ([^,]*)$")
LEAST = 40  # lines of a loop that is worth it


def by_lanes(function, label, body, locals_):
    """A loop in whose vectors each lane is made of the same lane of others, and which touches no memory, as a function
    for one lane that is called four times: so few variables are live that they stay in registers. The lines of the
    loop, and the function's text; any other loop stays as it is, without a function.
    """
    whole, name = ([label, *body], []), label.strip("\t:")
    if len(set(body)) <= LEAST:
        return whole
    lanes = split(body)
    if lanes is None:
        return whole
    indent = re.match(r"\t*", body[0])[0]
    scalars = {it[1] for line in lanes[0] if (it := re.match(r"^\t*(l\d+) = ", line))}
    inside = (line[len(indent) - 1 :] for line in lanes[0])
    text = re.sub(r"\b(l\d+)a\b", r"\1", "\n".join(inside))
    taken = sorted(set(re.findall(r"\bl\d+\b", text)), key=lambda it: int(it[1:]))
    given = [it for it in taken if re.search(rf"^\t*{it} = ", text, re.M)]
    types = {it: TYPES.get(locals_[int(it[1:])], "uint32") for it in taken}
    made = []
    for k in range(4):
        passed = [it if it in scalars else it + "abcd"[k] for it in taken]
        back = [("_" if k < 3 else it) if it in scalars else it + "abcd"[k] for it in given]
        made.append(f"{indent}{', '.join(back)} = {function}{name}({', '.join(passed)})")
    return made, [
        f"// {function}{name} is a loop of {function}, for one lane of its vectors.\n"
        f"func {function}{name}({', '.join(f'{it} {types[it]}' for it in taken)}) "
        f"({', '.join(types[it] for it in given)}) {{\n{name}:\n{text}\n\treturn {', '.join(given)}\n}}\n"
    ]


def split(body):
    """The lines of each lane, those of scalars in all four; None if a lane needs another, or memory."""
    owner, lanes = {}, [[] for _ in range(4)]
    for line in body:
        if found := OF_VECTOR.match(line):
            for k in range(4):
                owner[found[2 + k]] = k
                lanes[k].append(f"{found[1]}{found[2 + k]} {found[6]} {found[7 + k]}")
        elif re.search(r"\bm\b|, |binary", line):
            return None
        else:
            for lines in lanes:
                lines.append(line)
    for k, lines in enumerate(lanes):
        for it in re.findall(r"\b(?:t\d+|l\d+[abcd])\b", "\n".join(lines)):
            if owner.get(it, k) != k or (it[-1] in "abcd" and "abcd".index(it[-1]) != k):
                return None
    return lanes if owner else None
