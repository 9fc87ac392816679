"""The corrections that `noise explain` prints of broken patterns: corrected.py PROGRAM COUNT SEED.

Valid patterns (explained.py) are broken at random, in their tokens or in their form. What is printed is done to the
text, line by line as it says. Then `noise check` has to take the text, or its first fault has to come later: less of
the text is left from it on, and it stands at a later position, or what is left is the end of what was left before. A
text that is read goes on being read.
"""

import random
import re
import subprocess
import sys
import tempfile
from pathlib import Path

from explained import patterns

TOKENS = ["e", "s", "ee", "es", "se", "ss", "psk"]
ROWS = [
    (re.compile(r'  Write line (\d+) so: "(.*)"\.'), lambda lines, n, line: lines[: n - 1] + [line] + lines[n:]),
    (re.compile(r'  Put in as line (\d+): "(.*)"\.'), lambda lines, n, line: lines[: n - 1] + [line] + lines[n - 1 :]),
    (re.compile(r"  Leave line (\d+)() out\."), lambda lines, n, line: lines[: n - 1] + lines[n:]),
]
LINE_FEED = "  End the last line with a line feed."
NO_RETURNS = "  End each line with a line feed alone."


def corrected(text, rows):
    """The text after what these lines say; None where none says something."""
    done = None
    for row in rows:
        if row == LINE_FEED:
            text = done = text + "\n"
        elif row == NO_RETURNS:
            text = done = text.replace("\r", "")
        for form, change in ROWS:
            found = form.fullmatch(row)
            if found:
                lines = text.split("\n")
                ending = lines.pop() if lines[-1] == "" else None
                lines = change(lines, int(found[1]), found[2])
                done = text = "\n".join(lines) + ("" if ending is None and int(found[1]) < len(lines) else "\n")
    return done


# ---- broken ones


def of_tokens(draw, lines):
    """Changes the tokens of a message."""
    first = lines.index("  ...") + 1 if "  ..." in lines else 1
    if first == len(lines):
        return
    at = draw.randrange(first, len(lines))
    arrow, tokens = lines[at][:5], lines[at][5:].split(", ")
    place = draw.randrange(len(tokens))
    kind = draw.randrange(5)
    if kind == 0 and len(tokens) > 1:
        tokens.pop(place)
    elif kind == 1:
        tokens.insert(place, draw.choice(TOKENS))
    elif kind == 2:
        tokens[place] = draw.choice(TOKENS)
    elif kind == 3:
        tokens.insert(draw.randrange(len(tokens) + 1), tokens.pop(place))
    else:
        tokens.append(tokens[place])
    lines[at] = arrow + ", ".join(tokens)


def of_form(draw, lines):
    """Changes a line as one mistypes it."""
    at = draw.randrange(len(lines))
    line = lines[at]
    kind = draw.randrange(12)
    if kind == 0:
        lines[at] = line.replace(", ", ",")
    elif kind == 1:
        lines[at] = line.upper() if at else line.lower()
    elif kind == 2:
        lines[at] = line + " "
    elif kind == 3:
        lines.insert(at, "")
    elif kind == 4:
        lines[at] = line.strip(" :")
    elif kind == 5:
        lines[at] = line + " # a note"
    elif kind == 6:
        lines[at] = line.replace("->", "<-") if "->" in line else line.replace("<-", "->")
    elif kind == 7:
        lines.pop(at)
    elif kind == 8:
        lines.insert(at, line)
    elif kind == 9:
        lines[at] = "\t" + line.strip()
    elif kind == 10:
        lines[0] = re.sub(r"(psk\d)?:", draw.choice(["psk0:", "psk1:", ":"]), lines[0])
    else:
        lines[at] = line + ", x"


def broken(draw, text):
    lines = text.split("\n")[:-1]
    for _ in range(draw.choice([1, 1, 2])):
        if lines:
            draw.choice([of_tokens, of_tokens, of_form])(draw, lines) if len(lines) > 1 else of_form(draw, lines)
    return "".join(f"{line}\n" for line in lines) if draw.random() > 0.05 else "\r\n".join(lines)


def explained(program, texts):
    """For each text the place of its first fault and the lines below, or None and no line of a valid one."""
    with tempfile.TemporaryDirectory() as folder:
        names = [f"{n}.pattern" for n in range(len(texts))]
        for name, text in zip(names, texts):
            Path(folder, name).write_bytes(text.encode())
        ran = subprocess.run([program, "explain", *names], cwd=folder, capture_output=True, text=True, check=False)
    said = re.split(r"^\d+\.pattern:", ran.stdout, flags=re.MULTILINE)[1:]
    if len(said) != len(texts) or ran.stderr:
        sys.exit(f"patterns: explain: status {ran.returncode}, {len(said)} of {len(texts)} patterns: {ran.stderr}")
    found = []
    for it in said:
        head, *rows = it.split("\n")
        place = re.match(r"(\d+):(\d+): (rule|line)", head)
        found.append(((int(place[1]), int(place[2]), place[3]), rows) if place else (None, []))
    return found


def left(text, place):
    lines = text.split("\n")
    return "\n".join(lines[place[0] - 1 :])[place[1] - 1 :]


def is_later(text, place, other, other_place):
    had, has = left(text, place), left(other, other_place)
    is_read = place[2] == "line" or other_place[2] == "rule"
    return is_read and len(has) < len(had) and (other_place[:2] > place[:2] or had.endswith(has))


def main():
    program, count, seed = str(Path(sys.argv[1]).resolve()), int(sys.argv[2]), int(sys.argv[3])
    draw = random.Random(seed)
    texts, found = [], []
    while len(texts) < count:
        more = [broken(draw, pattern.text(draw.choice(["Q", "MINE", "OWN7"]))) for pattern in patterns(draw, count)]
        for text, it in zip(more, explained(program, more)):
            if it[0] and len(texts) < count:
                texts.append(text)
                found.append(it)
    mended = [corrected(text, rows) for text, (_, rows) in zip(texts, found)]
    after = explained(program, [it if it is not None else text for it, text in zip(mended, texts)])
    counts = {"valid": 0, "later": 0, "none": 0}
    for text, (place, rows), other, (other_place, _) in zip(texts, found, mended, after):
        if other is None:
            counts["none"] += 1
        elif other_place is None:
            counts["valid"] += 1
        elif is_later(text, place, other, other_place):
            counts["later"] += 1
        else:
            sys.exit("patterns: a correction that doesn't hold:\n" + text + "\n".join(rows) + "\nwhich gives\n" + other)
    print(
        f"patterns: of {count} broken ones (seed {seed}) {counts['valid']} are valid after the correction that is "
        f"printed, and of {counts['later']} the first fault comes later; {counts['none']} have none"
    )


if __name__ == "__main__":
    main()
