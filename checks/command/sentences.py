"""The sentences of the page and of `explain`: each one in the page's tables is one of `explain`. checks/web compares
what they say of right patterns."""

import glob
import re

from program import TOP

STRING = re.compile(r"'((?:[^'\\\n]|\\.)*)'")
LITERAL = re.compile(r'"((?:[^"\\]|\\.)*)"')
TABLES = ("RULES", "FORMS", "CLOSER")


def plain(text):
    """A text with the quotes of ASCII, and without the names of what is filled in."""
    return re.sub(r"\{\w+\}", "{}", text.replace("’", "'").replace("“", '"').replace("”", '"'))


def of_the_page():
    """The sentences of the page's tables."""
    with open(f"{TOP}/web/faults.mjs", encoding="utf-8") as file:
        text = file.read()
    for table in TABLES:
        rows = re.search(
            rf"^(?:export )?const {table} = Object\.freeze\(\{{\n(.*?)^\}}\);", text, re.DOTALL | re.MULTILINE
        )[1]
        joined = re.sub(r"'\n\s*\+ '", "", rows)  # a string may go on in the next line
        for sentence in STRING.findall(joined):
            yield plain(sentence)


def of_explain():
    """The strings of the crate that explains patterns."""
    for path in sorted(glob.glob(f"{TOP}/crates/noise_explain/src/*.rt")):
        with open(path, encoding="utf-8") as file:
            joined = re.sub(r"\\\n\s*", "", file.read())  # a string may go on in the next line
        for literal in LITERAL.findall(joined):
            yield plain(literal.replace('\\"', '"'))


def compare_sentences():
    """How many sentences were compared, and a fault for each that `explain` hasn't."""
    known = set(of_explain())
    sentences = list(of_the_page())
    return len(sentences), [
        f"command: explain doesn't say what the page says: {it}" for it in sentences if it not in known
    ]
